"""Makes cases: `python3 make_cases.py SEED COUNT KIND OUTDIR` writes OUTDIR/KIND.txt.

The cases at the edges come first and are the same for each seed; random ones follow. README.md
has the formats. Prints how many cases there are of each outcome.
"""

from collections import Counter
from pathlib import Path
import sys

from case_lines import answer_line, case, date_lines, numbers_line
from check import check
from dates_program import listing_of
from edge_runs import edge_runs
from edge_sheets import edge_sheets
from edge_tables import edge_tables
from expect import outcome
from loader import load
from random_runs import random_run
from random_sheets import random_sheet
from random_tables import random_table
from rows import sheet_of
from warm_runs import edge_warm_runs, random_warm_run


def sheet_case(sheet):
    """Lengths come first, since a bad sheet may hold any bytes."""
    listing = listing_of(sheet)
    text = numbers_line(b"I", len(sheet)) + sheet + numbers_line(b"O", len(listing)) + listing
    return text, listing_outcome(listing)


def listing_outcome(listing):
    kind = listing[:1].decode()
    return f"F {int(listing[1:11])}" if kind == "F" else kind


def table_case(rows_and_table):
    rows, table = rows_and_table
    loaded = load(sheet_of(rows))
    number, row = outcome(lambda: check(loaded.plan, loaded.arbiters(), table))
    text = sheet_of(rows) + date_lines(table) + answer_line(b"V", number, row)
    return text, f"V {number}"


def run_case(script):
    number, _ = script.set_up
    if number:
        return script.text(), f"S {number}"
    return script.text(), f"breach {script.run.breach[0]}" if script.run.breach else "no breach"


# For each kind: its cases at the edges, its random cases, and how one is written.
KINDS = {
    "sheets": (edge_sheets, random_sheet, sheet_case),
    "tables": (edge_tables, random_table, table_case),
    "runs": (edge_runs, random_run, run_case),
    "warm": (edge_warm_runs, random_warm_run, run_case),
}


def make(seed, count, kind):
    """The file's bytes, and how often each outcome is in it."""
    edges, random_one, written = KINDS[kind]
    things = edges()[:count]
    things += [random_one(seed, number) for number in range(count - len(things))]
    texts, outcomes = [], Counter()
    for number, thing in enumerate(things, start=1):
        text, what = written(thing)
        texts.append(case(number, text))
        outcomes[what] += 1
    return b"".join(texts), outcomes


def main(seed, count, kind, outdir):
    data, outcomes = make(seed, int(count), kind)
    path = Path(outdir) / f"{kind}.txt"
    path.parent.mkdir(parents=True, exist_ok=True)
    path.write_bytes(data)
    print(f"{path}: {count} cases, {len(data)} bytes")
    print(", ".join(f"{what}: {often}" for what, often in sorted(outcomes.items())))


if __name__ == "__main__":
    if len(sys.argv) != 5 or sys.argv[3] not in KINDS:
        sys.exit("usage: make_cases.py SEED COUNT sheets|tables|runs|warm OUTDIR")
    main(*sys.argv[1:])
