"""Runs whose arbiters were used before the set-up, and questions about what is not there."""

from dice import Dice
from random_calls import end, play
from random_plans import dates_of
from random_runs import short_plan
from run_script import Script
import worked_plans


def edge_warm_runs():
    return [waits_already(), last_pick_stays(0), last_pick_stays(1), in_order(), unknown()]


def waits_already():
    return Script(worked_plans.scan_and_steam(20), [(0, 10), (0, 8)], [(0, 1, 0)])


def last_pick_stays(last):
    """Who asked first is not served first if it was picked last."""
    script = Script(worked_plans.scan_and_steam(20), [(0, 10), (0, 8)], [(0, last, 1)])
    script.ask(last, 0)
    script.ask(1 - last, 0)
    for _ in range(2):
        script.cycles(1)
        script.look_at_all()
    return script


def in_order():
    """Somebody waits (15): asked before the dates' ranges (5) and finishes (12)."""
    return Script(worked_plans.scan_and_steam(20), [(0, 0), (20, 20)], [(0, 0, 1), (0, 1, 0)])


def unknown():
    script = Script(worked_plans.sample(), [(0, 10), (0, 8), (10, 3)])
    for number in (0, 1, 2, 3, 31, 2**32):
        script.look_at_place(number)
        script.look_at_task(number)
    return script


def random_warm_run(seed, number):
    """One in four has somebody left waiting."""
    dice = Dice("warm", seed, number)
    rows = short_plan(dice)
    uses = [random_use(dice, rows) for _ in range(dice.between(1, 5))]
    if number % 4 == 3:
        uses.append(random_use(dice, rows)[:2] + (0,))
    script = Script(rows, dates_of(rows), uses)
    if script.run is not None:
        play(dice, script, 2 * rows[0][5])
        end(dice, script)
    return script


def random_use(dice, rows):
    """A source of the bank's arbiter, also one that is no place's."""
    _, make, places, banks, _, _ = rows[0]
    return dice.below(banks), dice.below(places if make == 1 else 20), 1
