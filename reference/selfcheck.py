"""Checks the reference program: `python3 selfcheck.py [SEED [PLANS]]`.

First the cases that are worked by hand, then definitions against each other on PLANS small
random plans, then false rules that have to be found out. Prints what differs, and the counts.
"""

import sys

from check_brute import all_brute
from check_false import all_false
from check_worked import all_worked
from expect import Tally


def main(seed="1", plans="100"):
    worked, brute, false = Tally(), Tally(), Tally()
    all_worked(worked)
    print(f"worked by hand: {worked.passed} passed, {worked.failed} failed")
    all_brute(brute, seed, int(plans))
    print(f"random plans: {brute.passed} passed, {brute.failed} failed")
    all_false(false)
    print(f"false rules: {false.passed} found out, {false.failed} missed")
    return worked.failed + brute.failed + false.failed


if __name__ == "__main__":
    sys.exit(1 if main(*sys.argv[1:]) else 0)
