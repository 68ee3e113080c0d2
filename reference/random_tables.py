"""Consistent dates of random plans, as they are and slightly changed."""

from dice import Dice
from random_plans import SMALL, SMALL_PILE, WIDE, dates_of, fitted, random_rows
from random_sheets import TANGLED, TANGLED_PILE


def random_table(seed, number):
    dice = Dice("table", seed, number)
    shape = dice.one_of([SMALL, SMALL, TANGLED, SMALL_PILE, TANGLED_PILE, WIDE])
    rows = fitted(random_rows(dice, shape), dice.one_of([0, 3, 30, 1000, 1000, 1000, -1]))
    change = dice.one_of([same, later, longer, moved, moved, moved, loose, several, resized])
    table = [max_zero(date) for date in change(dice, dates_of(rows))]
    return rows, table


def max_zero(date):
    return max(date[0], 0), max(date[1], 0)


def same(dice, dates):
    return dates


def moved(dice, dates):
    """One number is one more or one less."""
    row = dice.below(len(dates))
    release, response = dates[row]
    step = dice.one_of([1, -1])
    one = (release + step, response) if dice.chance(50) else (release, response + step)
    return dates[:row] + [one] + dates[row + 1:]


def later(dice, dates):
    """All releases by as much."""
    by = dice.between(1, 4)
    return [(release + by, response) for release, response in dates]


def longer(dice, dates):
    """One response by some cycles, and all later releases with it, to stay in order."""
    row = dice.below(len(dates))
    by = dice.between(1, 6)
    moved_release, moved_response = dates[row]
    return [
        (release + (by if release > moved_release else 0), response + (by if i == row else 0))
        for i, (release, response) in enumerate(dates)
    ]


def loose(dice, dates):
    """All dates stretched: windows that met still meet, so this stays sound in a long period."""
    factor = dice.between(2, 3)
    return [(factor * release, factor * response) for release, response in dates]


def several(dice, dates):
    for _ in range(dice.between(2, 4)):
        dates = moved(dice, dates)
    return dates


def resized(dice, dates):
    """A row too few, or rows behind."""
    if dice.chance(50):
        return dates[:-1]
    return dates + [(dice.below(50), dice.below(50)) for _ in range(dice.between(1, 3))]
