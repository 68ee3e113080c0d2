"""Replays case files: `python3 replay.py KIND FILE`, by the formats that README.md tells.

Shows that what is stored is readable as told, and is what this program answers.
"""

from pathlib import Path
import sys

from case_files import line_cases, sheet_cases
from check import check
from dates_program import listing_of
from expect import Tally, outcome
from loader import load
from run import Run


def replay_sheets(tally, data):
    for number, sheet, listing in sheet_cases(data):
        tally.same(f"sheet {number}", listing_of(sheet), listing)


def replay_tables(tally, data):
    for number, sheet, lines in line_cases(data):
        loaded = load(sheet)
        table = [tuple(numbers) for letter, numbers in lines if letter == "A"]
        number_found, row = outcome(lambda: check(loaded.plan, loaded.arbiters(), table))
        tally.same(f"table {number}", lines[-1], ("V", [number_found, row or 0]))


def replay_runs(tally, data):
    for number, sheet, lines in line_cases(data):
        Replay(tally, number, load(sheet)).follow(lines)


class Replay:
    """One run, line by line."""

    def __init__(self, tally, number, loaded):
        self.tally = tally
        self.number = number
        self.loaded = loaded
        self.arbiters = loaded.arbiters()
        self.table = []
        self.run = None

    def follow(self, lines):
        for at, (letter, numbers) in enumerate(lines):
            found = getattr(self, f"line_{letter}")(*numbers)
            self.tally.same(f"run {self.number}, line {at}: {letter}", found, numbers)

    def line_A(self, release, response):
        self.table.append((release, response))
        return [release, response]

    def line_B(self, bank, source, picks):
        self.arbiters[bank].post(source)
        if picks:
            self.arbiters[bank].pick()
        return [bank, source, picks]

    def line_S(self, *_):
        number, row = outcome(self.set_up)
        return [number, row or 0]

    def set_up(self):
        self.run = Run(self.loaded.plan, self.arbiters, self.table)

    def line_Q(self, place, bank, _):
        return [place, bank, outcome(lambda: self.run.ask(place, bank))[0]]

    def line_Y(self, count, _):
        answers = [outcome(self.run.cycle)[0] for _ in range(count)]
        return [count, answers[-1]]

    def line_W(self, *_):
        return [self.run.time, *(self.run.breach or (0, 0))]

    def line_P(self, place, _):
        return [place, question(lambda: self.run.place(place))]

    def line_K(self, row, _):
        return [row, question(lambda: self.run.task(row))]


def question(call):
    """The answer, or the number of the refusal."""
    answers = []
    number, _ = outcome(lambda: answers.append(call()))
    return number or answers[0]


KINDS = {
    "sheets": replay_sheets,
    "tables": replay_tables,
    "runs": replay_runs,
    "warm": replay_runs,
}


def main(kind, path):
    tally = Tally()
    KINDS[kind](tally, Path(path).read_bytes())
    print(f"{path}: {tally.passed} passed, {tally.failed} failed")
    return tally.failed


if __name__ == "__main__":
    sys.exit(1 if main(*sys.argv[1:]) else 0)
