"""Random sheets: granted, late, and with bytes or lines changed."""

from dates_program import LONGEST_SHEET
from dice import Dice
from random_plans import GREAT, SMALL, SMALL_PILE, WIDE, Shape, fitted, random_rows
from rows import sheet_of, with_period

# Many tasks that wait for each other, so that releases move in several rounds.
TANGLED = Shape(tasks=10, places=3, banks=2, latency=10, cycles=60, count=30, earliest=200, named=2)
TANGLED_PILE = Shape(tasks=10, places=3, banks=2, latency=10, cycles=60, count=30, earliest=200,
                     named=2, make=2)
LARGE = Shape(tasks=256, places=32, banks=16, latency=64, cycles=5000, count=200, earliest=90_000,
              named=3)
# Bytes that are the likeliest to be mistaken for something else.
TELLING = b" \n\r\t0123456789+-.CTMDXctmd~!\x00\x1f\x7f\x80\xff"
EVERY_LARGE = 150


def random_sheet(seed, number):
    """Sheet `number` of a seed; one in 150 is large."""
    dice = Dice("sheet", seed, number)
    if number % EVERY_LARGE == EVERY_LARGE - 1:
        return large(dice)
    recipe = dice.one_of([granted, granted, granted_pile, granted_pile, late, great, changed,
                          changed, changed, changed_rows])
    return recipe(dice)


def granted(dice):
    return sheet_of(fitted(random_rows(dice, dice.one_of([SMALL, TANGLED])), dice.below(3)))


def granted_pile(dice):
    return sheet_of(fitted(random_rows(dice, dice.one_of([SMALL_PILE, TANGLED_PILE])), 0))


def late(dice):
    rows = random_rows(dice, dice.one_of([SMALL, SMALL_PILE, TANGLED]))
    return sheet_of(fitted(rows, -dice.between(1, 5)))


def great(dice):
    """Large numbers; mostly late."""
    rows = random_rows(dice, dice.one_of([WIDE, GREAT]))
    return sheet_of(rows if dice.chance(50) else with_period(rows, dice.between(1, 10_000)))


def large(dice):
    """As many tasks as a sheet can hold, or one too long to be read."""
    rows = random_rows(dice, LARGE)
    while len(sheet_of(rows)) > LONGEST_SHEET and dice.chance(90):
        rows = random_rows(dice, LARGE)
    return sheet_of(rows)


def changed(dice):
    """One or two bytes of a good sheet are replaced, put in or left out."""
    sheet = granted(dice)
    for _ in range(dice.between(1, 2)):
        at = dice.below(len(sheet))
        byte = bytes([dice.one_of(TELLING)])
        sheet = sheet[:at] + dice.one_of([byte, byte, b"", byte + sheet[at:at + 1]]) + sheet[at + 1:]
    return sheet


def changed_rows(dice):
    """A row is repeated, left out, moved, or has another number."""
    rows = random_rows(dice, SMALL)
    at = dice.below(len(rows))
    what = dice.below(4)
    if what == 0:
        rows.insert(at, rows[at])
    elif what == 1:
        del rows[at]
    elif what == 2:
        rows.insert(dice.below(len(rows)), rows.pop(at))
    else:
        rows[at] = with_other_number(dice, rows[at])
    return sheet_of(rows)


def with_other_number(dice, row):
    at = dice.between(1, len(row) - (2 if row[0] == "T" else 1))
    number = dice.one_of([0, 1, 2, 3, 33, 65, 256, 65_536, 1_000_001, 2**32, 2**32 + 1, 10**10 - 1])
    return row[:at] + (number,) + row[at + 1:]
