"""The program `dates`: a sheet from standard input, its listing to standard output."""

import sys

import listing
from dates import analyse
from loader import load
from plan import MOST_TASKS
from refused import Refused
from sheet import Fault

LONGEST_SHEET = 65_536


def listing_of(sheet):
    # The length of the whole sheet is asked before any line is read.
    if len(sheet) > LONGEST_SHEET:
        return listing.fault(11, 0, 0)
    try:
        loaded = load(sheet)
    except Fault as fault:
        return listing.fault(fault.number, fault.line, fault.column)
    try:
        dates, count = analyse(loaded.plan, loaded.arbiters(), MOST_TASKS)
    except Refused as refused:
        return refusal(refused)
    return listing.granted(count, dates, loaded.names)


def refusal(refused):
    if refused.number == 12:
        return listing.late(refused.row, refused.finish)
    return listing.fault(refused.number, 0, 0)


if __name__ == "__main__":
    sys.stdout.buffer.write(listing_of(sys.stdin.buffer.read()))
