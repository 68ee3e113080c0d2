"""Runs of random plans: under consistent dates, and under spoiled ones until they breach."""

from dice import Dice
from random_calls import end, play
from random_plans import Shape, dates_of, fitted, random_rows
from rows import with_period
from run_script import Script

# Short periods, so that a run of several periods has few lines.
SHORT = Shape(tasks=7, places=4, banks=2, latency=3, cycles=4, count=3, earliest=6, named=2)
SHORT_PILE = Shape(tasks=8, places=4, banks=2, latency=2, cycles=4, count=2, earliest=6, named=2,
                   make=2)
SHORT_PERIOD = 60


def random_run(seed, number):
    """Of ten runs, five are under consistent dates."""
    dice = Dice("run", seed, number)
    kinds = [sound] * 5 + [late_run, late_run, late_at_the_period, blocked, blocked_at_set_up]
    return kinds[number % len(kinds)](dice)


def sound(dice):
    rows = short_plan(dice)
    script = Script(rows, dates_of(rows))
    play(dice, script, dice.between(2, 3) * rows[0][5])
    end(dice, script)
    return script


def late_run(dice):
    return breached(dice, shortened, lambda run: run.breach[0] == 1)


def late_at_the_period(dice):
    return breached(dice, shortened_to_the_period,
                    lambda run: run.breach[0] == 1 and run.time == run.plan.head.period)


def blocked(dice):
    return breached(dice, hurried, lambda run: run.breach[0] == 2 and run.time > 0)


def blocked_at_set_up(dice):
    return breached(dice, all_at_once, lambda run: run.breach[0] == 2 and run.time == 0)


def breached(dice, spoiled, wanted):
    """Tries spoiled dates until a run of them comes to the wanted breach."""
    while True:
        rows, table = spoiled(dice, short_plan(dice))
        script = Script(rows, table)
        if script.run is None:
            continue
        play(dice, script, 2 * rows[0][5])
        if script.run.breach is not None and wanted(script.run):
            end(dice, script)
            return script


# Plans and dates

def short_plan(dice):
    """A plan of some tasks whose consistent dates fit a short period."""
    while True:
        shape = dice.one_of([SHORT, SHORT, SHORT_PILE])
        rows = fitted(random_rows(dice, shape), dice.below(3))
        places = {row[1] for row in rows if row[0] == "T"}
        if rows[0][5] <= SHORT_PERIOD and len(places) > 1:
            return rows


def shortened(dice, rows):
    """One response is too short."""
    dates = dates_of(rows)
    row = dice.below(len(dates))
    release, response = dates[row]
    dates[row] = (release, max(1, response - dice.between(1, 4)))
    return rows, dates


def shortened_to_the_period(dice, rows):
    """The period ends where the last window ends, so that a late task may be late there."""
    rows, dates = shortened(dice, rows)
    return with_period(rows, max(sum(date) for date in dates)), dates


def hurried(dice, rows):
    """Some releases are too early."""
    dates = [
        (max(0, release - dice.below(6)), response) for release, response in dates_of(rows)
    ]
    return rows, dates


def all_at_once(dice, rows):
    return rows, [(0, response) for _, response in dates_of(rows)]
