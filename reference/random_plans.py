"""Random good plans, as rows."""

from dates import consistent_dates
from loader import load
from plan import LATEST
from rows import sheet_of, with_period

PILE_WIDTH = 20
NAME_BYTES = bytes(range(33, 127))


class Shape:
    """How large the numbers of a random plan may get."""

    def __init__(self, tasks=6, places=4, banks=3, latency=4, cycles=8, count=5,
                 earliest=20, named=2, make=1):
        self.tasks = tasks
        self.places = places
        self.banks = banks
        self.latency = latency
        self.cycles = cycles
        self.count = count
        self.earliest = earliest
        self.named = named
        self.make = make


# Small enough to scan all numbers below a response, and to run cycle by cycle.
SMALL = Shape()
SMALL_PILE = Shape(make=2)
WIDE = Shape(tasks=24, places=12, banks=8, latency=20, cycles=300, count=40, earliest=2000,
             named=3)
GREAT = Shape(tasks=12, places=32, banks=16, latency=64, cycles=1_000_000, count=65_535,
              earliest=LATEST, named=4)


def random_rows(dice, shape):
    """The period is the largest that there is."""
    places = dice.between(1, shape.places) if shape.make == 1 else PILE_WIDTH
    banks = dice.between(1, shape.banks)
    latency = dice.between(1, shape.latency)
    rows = [("C", shape.make, places, banks, latency, LATEST)]
    used = used_places(dice, shape, places)
    for row in range(dice.between(1, shape.tasks)):
        rows += task_rows(dice, shape, row, dice.one_of(used), banks)
    return rows


def used_places(dice, shape, places):
    """On the pile some cores and units; so few that tasks come to share places."""
    if shape.make == 1:
        return list(range(places))
    return dice.shuffled(range(places))[:shape.places] + [dice.between(16, 19)]


def task_rows(dice, shape, row, place, banks):
    earliest = dice.between(0, shape.earliest) if dice.chance(25) else 0
    head = ("T", place, dice.between(1, shape.cycles), earliest, random_name(dice))
    demands = [
        ("M", bank, dice.between(1, shape.count))
        for bank in dice.some_of(range(banks), min(banks, 16))
    ]
    named = [("D", k) for k in dice.some_of(range(row), shape.named)] if dice.chance(60) else []
    return [head] + dice.shuffled(demands + named)


def random_name(dice):
    return bytes(dice.one_of(NAME_BYTES) for _ in range(dice.between(1, 12)))


def dates_of(rows):
    """The consistent dates, in time or not."""
    loaded = load(sheet_of(rows))
    return consistent_dates(loaded.plan, loaded.arbiters())[0]


def fitted(rows, slack):
    """The same rows with a period `slack` cycles after the last consistent finish."""
    period = max(sum(date) for date in dates_of(rows)) + slack
    return with_period(rows, min(max(period, 1), LATEST))
