"""Sheets at the edges of every rule. They do not depend on a seed."""

from dice import Dice
from plan import LATEST, MOST_NAMED, MOST_TASKS
from rows import line, sheet_of
import worked_plans

# Numbers that would pass for 0, 1 and 2 if they were cut to 32 bits.
AS_ZERO, AS_ONE, AS_TWO = 2**32, 2**32 + 1, 2**32 + 2
LARGEST_FIELD = 9_999_999_999

HEAD = ("C", 1, 2, 1, 1, 20)
SCAN = ("T", 0, 5, 0, b"scan")
STEAM = ("T", 1, 4, 0, b"steam")
DEMAND = ("M", 0, 3)
AFTER = ("D", 0)
# One row of each letter, as a good sheet.
GOOD = [HEAD, SCAN, DEMAND, STEAM, AFTER]


def edge_sheets():
    return (
        worked()
        + letters()
        + lengths()
        + ill_formed_fields()
        + names()
        + makes()
        + orders()
        + ranges()
        + unknowns()
        + twices()
        + first_questions()
        + whole_sheets()
        + late_sheets()
        + limits()
    )


def worked():
    plans = [worked_plans.sample(), worked_plans.three_rounds(), worked_plans.six_tasks()]
    plans += [worked_plans.scan_and_steam(period) for period in (9, 10, 20)]
    plans += [worked_plans.scan_and_steam(20, earliest) for earliest in (7, 8)]
    return [sheet_of(rows) for rows in plans]


def with_line(at, text):
    """The good sheet with line `at`, from 0, replaced by other bytes."""
    lines = [line(row) for row in GOOD]
    lines[at] = text
    return b"".join(lines)


def letters():
    """Unknown letters; the letter is asked before the length."""
    good = sheet_of(GOOD)
    return [
        with_line(0, line(HEAD).lower()),
        with_line(2, b"X" + line(DEMAND)[1:]),
        with_line(2, b" " + line(DEMAND)[1:]),
        with_line(2, b"\0" + line(DEMAND)[1:]),
        with_line(2, b"\xff" + line(DEMAND)[1:]),
        with_line(2, b" " + line(DEMAND)),
        with_line(1, b"\n" + line(SCAN)),
        b"\n",
        b"\n\n",
        good + b"\n",
        good + b"\r\n",
        good + b" ",
        good + b"G         2\n",
        b"\xef\xbb\xbf" + good,
        b"Q" * 100,
    ]


def lengths():
    """Every letter one byte short, one too long, with CR LF, and as a last line without its end."""
    sheets = []
    for at, row in enumerate(GOOD):
        text = line(row)
        sheets += [
            with_line(at, text[:-2] + b"\n"),
            with_line(at, text[:-1] + b" \n"),
            with_line(at, text[:-1] + b"\r\n"),
            with_line(at, text[:1] + b"\n"),
            sheet_of(GOOD[:at]) + text[:-1],
        ]
    joined = line(DEMAND)[:-1] + line(AFTER)
    ill_formed_too = b"M        0x" + b"\n"
    return sheets + [with_line(2, joined), with_line(2, ill_formed_too), b"C"]


ILL_FORMED = [
    b"          ", b"        00", b"        01", b"        -1", b"        +1", b"\t        1",
    b"        1 ", b"       1 2", b"       1.0", b"       0x1", b"         a", b"1         ",
    b"0000000001", b"        1\t", b"        1\0", b"        \xc2\xb2", b"         :", b"         /",
]


def ill_formed_fields():
    """Every field of every letter with three of the ill-formed ones, in turn."""
    sheets = []
    for at in (0, 1, 2, 4):
        text = line(GOOD[at])
        fields = (len(text) - 2) // 10 if GOOD[at][0] != "T" else 3
        for field in range(fields):
            for _ in range(2):
                bad = ILL_FORMED[len(sheets) % len(ILL_FORMED)]
                sheets.append(with_line(at, in_field(text, field, bad)))
    two_bad = in_field(in_field(line(HEAD), 3, ILL_FORMED[0]), 1, ILL_FORMED[1])
    return sheets + [with_line(0, two_bad)]


def in_field(text, field, bad):
    at = 1 + 10 * field
    return text[:at] + bad + text[at + 10:]


def names():
    """A space, spaces, then 1 to 12 bytes from 33 to 126: the last five of these are good."""
    fields = [
        b"", b"ABCDEFGHIJKLM", b"ABCDEFGHIJK ", b"a b   ", b"ab cd ", b"ab cd", b"a\tb ", b"\tab",
        b"ab\x7f", b"ab\x1f", b"ab\x80", b"ab\xff", b"\xc3\xa9", b"ab\0", b"a        scan",
        b"\t        scan", b"ABCDEFGHIJKL", b"a", b"!~", b"123456789012", b"C",
    ]
    text = line(SCAN)
    sheets = [with_line(1, with_name(text, field)) for field in fields]
    # Number fields are asked before the name.
    both = with_name(in_field(text, 2, ILL_FORMED[0]), b"")
    return sheets + [with_line(1, both)]


def with_name(text, name):
    return text[:31] + name.rjust(13) + b"\n"


def makes():
    """The make is asked after the fields, and before the plan's questions."""
    heads = [("C", make, 2, 1, 1, 20) for make in (0, 3, 9, AS_ONE, AS_TWO, LARGEST_FIELD)]
    sheets = [sheet_of([head] + GOOD[1:]) for head in heads]
    sheets += [
        sheet_of([HEAD, ("C", 9, 2, 1, 1, 20)]),
        sheet_of([HEAD, ("C", 2, 2, 1, 1, 20)]),
        sheet_of([("C", 9, 99, 1, 1, 20)]),
        sheet_of([HEAD]) + in_field(line(("C", 9, 2, 1, 1, 20)), 4, ILL_FORMED[0]),
        sheet_of([("C", 2, 2, 1, 1, 20)] + GOOD[1:]),
    ]
    return sheets


def orders():
    """Rows that come too early, and a second head."""
    return [sheet_of(rows) for rows in [
        [SCAN], [DEMAND], [AFTER], [HEAD, DEMAND], [HEAD, AFTER], [HEAD, HEAD],
        GOOD + [HEAD], [HEAD, ("C", 1, 99, 1, 1, 20)], [("T", 9, 0, 0, b"x")],
        [HEAD, ("M", 9, 0)], [HEAD, SCAN, AFTER],
        [HEAD, SCAN, STEAM, AFTER, DEMAND], [HEAD, SCAN, STEAM, DEMAND, AFTER],
    ]]


def ranges():
    """Each value just below, at and just above its limits."""
    heads = [HEAD[:at] + (value,) + HEAD[at + 1:] for at, value in [
        (2, 0), (2, 32), (2, 33), (2, AS_ONE), (3, 0), (3, 16), (3, 17), (3, AS_ONE),
        (4, 0), (4, 64), (4, 65), (4, AS_ONE), (5, 0), (5, LATEST), (5, LATEST + 1),
        (5, LARGEST_FIELD),
    ]]
    tasks = [SCAN[:at] + (value,) + SCAN[at + 1:] for at, value in [
        (2, 0), (2, 1), (2, 1_000_000), (2, 1_000_001), (2, AS_ONE), (3, 20), (3, LATEST),
        (3, LATEST + 1), (3, AS_ZERO),
    ]]
    counts = [("M", 0, count) for count in (0, 1, 65_535, 65_536, AS_ONE)]
    roomy = HEAD[:5] + (LATEST,)
    return (
        [sheet_of([head, ("T", 0, 5, 0, b"scan")]) for head in heads]
        + [sheet_of([roomy, task, DEMAND]) for task in tasks]
        + [sheet_of([roomy, SCAN, count]) for count in counts]
    )


def unknowns():
    """Places, banks and rows that are not there."""
    return [sheet_of(GOOD[:3] + [row]) for row in [
        ("T", 2, 5, 0, b"x"), ("T", AS_ZERO, 5, 0, b"x"), ("T", LARGEST_FIELD, 5, 0, b"x"),
        ("M", 1, 3), ("M", AS_ZERO, 3), ("D", 0), ("D", 1), ("D", AS_ZERO), ("D", LARGEST_FIELD),
    ]] + [sheet_of(GOOD[:4] + [("D", k)]) for k in (1, 2)]


def twices():
    same_place = ("T", 0, 4, 0, b"steam")
    return [sheet_of(rows) for rows in [
        [HEAD, SCAN, DEMAND, DEMAND],
        [HEAD, SCAN, DEMAND, ("M", 0, 1)],
        [HEAD, SCAN, STEAM, AFTER, AFTER],
        # Naming the task before it at its place is allowed.
        [HEAD, SCAN, same_place, AFTER],
        [HEAD, SCAN, same_place, AFTER, AFTER],
        # The next task may demand and name the same again.
        [HEAD, SCAN, DEMAND, STEAM, DEMAND, AFTER, ("T", 1, 1, 0, b"last"), DEMAND, AFTER],
    ]]


def first_questions():
    """Where several questions are answered by no, the first counts; and the first line."""
    return [sheet_of(rows) for rows in [
        [HEAD, ("T", 2, 0, 0, b"x")],
        [HEAD, ("T", 2, 5, LATEST + 1, b"x")],
        [HEAD, SCAN, ("M", 1, 0)],
        [HEAD, SCAN, DEMAND, ("M", 1, 70_000)],
        [HEAD, SCAN, DEMAND, ("M", 0, 0)],
        [HEAD, SCAN, ("M", 1, 3), DEMAND, DEMAND],
        [("C", 2, 33, 1, 1, 20), SCAN],
    ]] + [
        sheet_of([HEAD, ("T", 2, 5, 0, b"x")]) + b"\n",
        line(HEAD) + b"Z\n" + line(HEAD),
        in_field(line(SCAN), 0, ILL_FORMED[0]),
        line(DEMAND)[:-2] + b"\n",
    ]


def whole_sheets():
    """Without a task, on the pile with too many places, and of the largest size."""
    at_receive = ("T", 19, 5, 0, b"receive")
    full = full_sheet()
    return [
        b"",
        sheet_of([HEAD]),
        sheet_of([("C", 2, 20, 1, 1, 20)]),
        sheet_of([("C", 2, 21, 1, 1, 20)]),
        sheet_of([("C", 2, 20, 16, 64, 20), at_receive]),
        sheet_of([("C", 2, 21, 1, 1, 20), at_receive]),
        sheet_of([("C", 2, 32, 1, 1, 20), SCAN, DEMAND]),
        sheet_of([("C", 1, 32, 1, 1, 20), at_receive, DEMAND]),
        full,
        b"\n" + full,
    ]


def full_sheet():
    """Exactly 65,536 bytes: 252 tasks at 32 places, 2,048 named rows, 1,344 demands on 16 banks."""
    dice = Dice("full sheet")
    tasks, demands = 252, 1344
    named = spread(dice, MOST_NAMED, lambda: dice.below(tasks), lambda i: dice.below(max(i, 1)))
    counts = spread(dice, demands, lambda: dice.below(tasks), lambda i: dice.below(16))
    rows = [("C", 1, 32, 16, 3, 400_000)]
    for i in range(tasks):
        rows.append(("T", dice.below(32), dice.between(1, 500), 0, b"task%d" % i))
        rows += [("M", bank, dice.between(1, 20)) for bank in counts.get(i, [])]
        rows += [("D", k) for k in named.get(i, [])]
    return sheet_of(rows)


def spread(dice, total, task, thing):
    """`total` different pairs of a task and a thing, as lists by task. Row 0 can name nothing."""
    pairs = {}
    while len(pairs) < total:
        i = task()
        if i > 0:
            pairs[i, thing(i)] = True
    by_task = {}
    for i, k in pairs:
        by_task.setdefault(i, []).append(k)
    return by_task


def late_sheets():
    """The lowest late row counts, not the latest; finishes of ten digits, and above 32 bits."""
    return [sheet_of(rows) for rows in [
        [HEAD, ("T", 0, 21, 0, b"late"), ("T", 1, 30, 0, b"later")],
        [HEAD, ("T", 0, 20, 0, b"just"), ("T", 1, 21, 0, b"late"), ("T", 0, 1, 0, b"later")],
        [HEAD, ("T", 1, 1, LATEST, b"far")],
        [HEAD[:5] + (LATEST,), ("T", 1, 1, LATEST - 1, b"in-time")],
        [HEAD[:5] + (LATEST,), ("T", 1, 2, LATEST - 1, b"late")],
        [("C", 1, 1, 16, 64, LATEST)] + 15 * heavy(0) + [("T", 0, 1, LATEST, b"last")],
        above_32_bits(),
    ]]


def heavy(place, earliest=0):
    """The most accesses to all banks."""
    return [("T", place, 1_000_000, earliest, b"heavy")] + [
        ("M", bank, 65_535) for bank in range(16)
    ]


def above_32_bits(receives=50, earliest=LATEST):
    """On the pile, one core waits for all accesses of network receive.

    Only the lowest late row is listed, and what it waits for is in time. So its response alone
    must be so long; a ring has no such bound.
    """
    rows = [("C", 2, 20, 16, 64, LATEST), ("T", 0, 1_000_000, earliest, b"core")]
    rows += [("M", bank, 1) for bank in range(16)]
    for _ in range(receives):
        rows += [("T", 19, 1, earliest, b"receive")] + heavy(19)[1:]
    return rows


def limits():
    """The 257th task and the 2,049th named row, with the questions that come before theirs."""
    head = ("C", 1, 32, 16, 1, LATEST)
    tasks = [head] + [("T", 0, 1, 0, b"t")] * MOST_TASKS
    named = [head]
    for i in range(65):
        named += [("T", 0, 1, 0, b"t")] + [("D", k) for k in range(i)]
    full = named[:1 + 65 + MOST_NAMED]
    missing = 64 * 65 // 2 - MOST_NAMED
    return [
        sheet_of(tasks + [("T", 0, 1, 0, b"t")]),
        sheet_of(tasks + [("T", 0, 0, 0, b"t")]),
        sheet_of(full + [("D", 64 - missing)]),
        sheet_of(full + [("D", 0)]),
    ]
