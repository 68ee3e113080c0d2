"""Compares a program `dates` with stored cases: `python3 compare_dates.py FILE PROGRAM [ARGUMENT..]`.

Each sheet of a `sheets` file goes to the program's standard input; what it prints must be the
stored listing, byte for byte.
"""

from pathlib import Path
import subprocess
import sys

from case_files import sheet_cases
from expect import Tally


def main(path, *command):
    tally = Tally()
    for number, sheet, listing in sheet_cases(Path(path).read_bytes()):
        printed = subprocess.run(command, input=sheet, stdout=subprocess.PIPE, check=False).stdout
        tally.same(f"sheet {number}", printed, listing)
    print(f"{path}: {tally.passed} passed, {tally.failed} failed")
    return tally.failed


if __name__ == "__main__":
    sys.exit(1 if main(*sys.argv[1:]) else 0)
