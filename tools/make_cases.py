#!/usr/bin/env python3
"""Writes the sheets of the crate `cases` and what the program must print of them.

Each case is a name, a sheet, and the expected outcome, written from the rules in docs/plan.md and docs/sheet.md:
the number, line and column of the fault (None: the sheet loads) and the number of tasks that the plan then has.
Run it in the project's root after a change; it takes no value from the program under test.
"""
import os
import shutil

OUT = "crates/cases"


def numbers(*values):
    return b"".join(str(v).rjust(10).encode() for v in values)


def head(make=1, places=2, banks=2, latency=1, period=100):
    return b"C" + numbers(make, places, banks, latency, period) + b"\n"


def task(place=0, cycles=5, earliest=0, name=b"scan"):
    return b"T" + numbers(place, cycles, earliest) + b" " + name.rjust(12) + b"\n"


def demand(bank=0, count=1):
    return b"M" + numbers(bank, count) + b"\n"


def after(row):
    return b"D" + numbers(row) + b"\n"


def raw_task(tail):
    """A task line with its last 13 columns written out."""
    return b"T" + numbers(0, 5, 0) + tail + b"\n"


def field(text):
    """A dependency line whose field is written out."""
    return b"D" + text + b"\n"


H, T = head(), task()
CASES = []


def case(name, sheet, fault, tasks):
    CASES.append((name, sheet, fault, tasks))


# sheets that load
case("empty", b"", None, 0)
case("head-only", H, None, 0)
case("one-task", H + T, None, 1)
case("any-order", H + T + T + after(0) + demand(1, 2) + demand(0, 1), None, 2)

# lines
case("empty-line", H + b"\n" + T, (1, 2, 1), 0)
case("unknown-letter", H + b"X" + numbers(1) + b"\n", (1, 2, 1), 0)
case("lower-case-letter", b"c" + H[1:], (1, 1, 1), 0)
case("unknown-letter-alone", H + b"?", (1, 2, 1), 0)
case("no-line-feed", H + T[:-1], (2, 2, 1), 0)
case("cr-lf", H + T[:-1] + b"\r\n", (2, 2, 1), 0)
case("short-line", H + T + b"M" + numbers(0) + b"\n", (2, 3, 1), 1)
case("long-line", H + T + b"D" + numbers(0, 0) + b"\n", (2, 3, 1), 1)
case("letter-before-length", H + b"Z\n", (1, 2, 1), 0)

# numbers: 3 at the field's first column
case("leading-zero", H + T + T + field(b"01".rjust(10)), (3, 4, 2), 2)
case("double-zero", H + T + T + field(b"00".rjust(10)), (3, 4, 2), 2)
case("single-zero", H + T + T + field(b"0".rjust(10)), None, 2)
case("blank-field", H + T + T + field(b" " * 10), (3, 4, 2), 2)
case("tab", H + T + T + field(b"\t0".rjust(10)), (3, 4, 2), 2)
case("sign", H + T + T + field(b"+0".rjust(10)), (3, 4, 2), 2)
case("left-justified", H + T + T + field(b"0".ljust(10)), (3, 4, 2), 2)
case("space-inside", H + T + T + field(b"0 0".rjust(10)), (3, 4, 2), 2)
case("byte-255", H + T + T + field(b"\xff".rjust(10)), (3, 4, 2), 2)
case("second-field", H + T + b"M" + numbers(0) + b"x".rjust(10) + b"\n", (3, 3, 12), 1)
case("fourth-field", b"C" + numbers(1, 2, 2) + b"-1".rjust(10) + numbers(100) + b"\n", (3, 1, 32), 0)
case("first-of-two-bad-fields", H + T + b"M" + b"a".rjust(10) + b"b".rjust(10) + b"\n", (3, 3, 2), 1)

# numbers above 32 bits are well formed, and refused by the row's own question
case("place-above-32-bits", H + task(place=4294967296), (7, 2, 1), 0)
case("place-ten-nines", H + task(place=9999999999), (7, 2, 1), 0)
case("cycles-above-32-bits", H + task(cycles=4294967301), (5, 2, 1), 0)
case("bank-above-32-bits", H + T + demand(4294967296, 1), (7, 3, 1), 1)
case("count-above-32-bits", H + T + demand(0, 4294967297), (5, 3, 1), 1)
case("row-above-32-bits", H + T + T + after(4294967296), (7, 4, 1), 2)
case("places-above-32-bits", head(places=4294967298), (5, 1, 1), 0)

# names: 3 at column 32
case("name-1", H + task(name=b"a"), None, 1)
case("name-12", H + task(name=b"abcdefghijkl"), None, 1)
case("name-13", H + raw_task(b"abcdefghijklm"), (3, 2, 32), 0)
case("name-0", H + raw_task(b" " * 13), (3, 2, 32), 0)
case("name-inner-space", H + task(name=b"ab cd"), (3, 2, 32), 0)
case("name-trailing-space", H + raw_task(b"      abcd   "), (3, 2, 32), 0)
case("name-byte-33", H + task(name=b"!"), None, 1)
case("name-byte-126", H + task(name=b"~"), None, 1)
case("name-byte-127", H + task(name=b"a\x7f"), (3, 2, 32), 0)
case("name-byte-200", H + task(name=b"a\xc8"), (3, 2, 32), 0)
case("name-tab", H + task(name=b"a\tb"), (3, 2, 32), 0)
case("number-before-name", H + b"T" + numbers(0) + b"x".rjust(10) + numbers(0) + b" " * 13 + b"\n", (3, 2, 12), 0)

# the make
case("make-0", head(make=0), (5, 1, 1), 0)
case("make-2", head(make=2), None, 0)
case("make-3", head(make=3), (5, 1, 1), 0)
case("field-before-make", b"C" + numbers(9, 2, 2, 1) + b"x".rjust(10) + b"\n", (3, 1, 42), 0)
case("second-head", H + T + H, (4, 3, 1), 1)
case("second-head-make-9", H + T + head(make=9), (5, 3, 1), 1)

# order
case("task-before-head", T, (4, 1, 1), 0)
case("demand-before-task", H + demand(), (4, 2, 1), 0)
case("demand-before-head", demand(), (4, 1, 1), 0)
case("after-before-task", H + after(0), (4, 2, 1), 0)

# each limit at its edge and one past it
for what, good, bad in (
    ("places", 32, 33), ("banks", 16, 17), ("latency", 64, 65), ("period", 1000000000, 1000000001)):
    case(f"{what}-most", head(**{what: good}), None, 0)
    case(f"{what}-over", head(**{what: bad}), (5, 1, 1), 0)
    case(f"{what}-least", head(**{what: 1}), None, 0)
    case(f"{what}-zero", head(**{what: 0}), (5, 1, 1), 0)
case("place-edge", H + task(place=1), None, 1)
case("place-over", H + task(place=2), (7, 2, 1), 0)
case("cycles-most", H + task(cycles=1000000), None, 1)
case("cycles-over", H + task(cycles=1000001), (5, 2, 1), 0)
case("cycles-zero", H + task(cycles=0), (5, 2, 1), 0)
case("earliest-most", H + task(earliest=1000000000), None, 1)
case("earliest-over", H + task(earliest=1000000001), (5, 2, 1), 0)
case("place-before-cycles", H + task(place=2, cycles=0), (7, 2, 1), 0)
case("bank-edge", H + T + demand(bank=1), None, 1)
case("bank-over", H + T + demand(bank=2), (7, 3, 1), 1)
case("count-most", H + T + demand(count=65535), None, 1)
case("count-over", H + T + demand(count=65536), (5, 3, 1), 1)
case("count-zero", H + T + demand(count=0), (5, 3, 1), 1)
case("bank-before-count", H + T + demand(bank=2, count=0), (7, 3, 1), 1)
case("demand-twice", H + T + demand(0, 1) + demand(0, 2), (8, 4, 1), 1)
case("count-before-twice", H + T + demand(0, 1) + demand(0, 0), (5, 4, 1), 1)
case("demand-of-next-task", H + T + demand(0, 1) + T + demand(0, 2), None, 2)
case("after-itself", H + T + after(0), (7, 3, 1), 1)
case("after-later", H + T + T + after(2), (7, 4, 1), 2)
case("after-previous-at-place", H + T + T + after(0), None, 2)
case("after-twice", H + T + T + after(0) + after(0), (8, 5, 1), 2)

# counts
case("tasks-256", H + T * 256, None, 256)
case("tasks-257", H + T * 257, (6, 258, 1), 256)
case("range-before-full", H + T * 256 + task(cycles=0), (5, 258, 1), 256)
links = b"".join(after(k) for k in range(64))
crowd = H + T * 64 + (T + links) * 32
case("links-2048", crowd, None, 96)
case("links-2049", crowd + T + after(0), (6, 1 + 64 + 32 * 65 + 2, 1), 97)
case("unknown-before-full", crowd + T + after(97), (7, 1 + 64 + 32 * 65 + 2, 1), 97)
case("twice-before-full", crowd + after(63), (8, 1 + 64 + 32 * 65 + 1, 1), 96)


def main():
    data = os.path.join(OUT, "data")
    shutil.rmtree(data, ignore_errors=True)
    os.makedirs(os.path.join(data, "sheets"))
    lines = []
    for name, sheet, fault, tasks in CASES:
        with open(os.path.join(data, "sheets", name), "wb") as f:
            f.write(sheet)
        said = "loaded" if fault is None else "{} at line {} column {}".format(*fault)
        lines.append(f"{name}: {said}, {tasks} tasks\n")
    with open(os.path.join(data, "index"), "w") as f:
        f.write("".join(name + "\n" for name, _, _, _ in CASES))
    with open(os.path.join(OUT, "stdout"), "w") as f:
        f.write("".join(lines))
    print(f"{len(CASES)} cases")


main()
