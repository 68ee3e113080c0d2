"""Definitions against each other on small random plans and arbiters.

Each check here goes another way than the program does: it tries all smaller numbers, starts
the rounds elsewhere, solves one equation after the other, or lets the plan run.
"""

from itertools import product

from arbiters import Alternation, Precedence, Ring, WIDEST, pile
from check import check, may_start
from dates import consistent_dates, rounds
from dice import Dice
from expect import outcome
from loader import load
from random_plans import SMALL, SMALL_PILE, Shape, fitted, random_rows
from random_calls import random_asks
from rows import sheet_of
from run import Run
from worst import meeting, takes_at_worst


def all_brute(tally, seed, plans):
    for number in range(plans):
        dice = Dice("brute", seed, number)
        shape = SMALL_PILE if number % 4 == 3 else SMALL
        one_plan(tally, dice, fitted(random_rows(dice, shape), dice.below(3)))
    for number in range(plans // 4):
        all_tables(tally, Dice("tables", seed, number))
    for number in range(plans * 5):
        dice = Dice("traces", seed, number)
        arbiter = random_arbiter(dice, 3)
        one_trace(tally, dice, arbiter)
        bound_laws(tally, dice, arbiter)


# Dates

def one_plan(tally, dice, rows):
    loaded = load(sheet_of(rows))
    plan, arbiters = loaded.plan, loaded.arbiters()
    dates, count = consistent_dates(plan, arbiters)
    tally.holds(f"consistent: {rows}", is_consistent(plan, arbiters, dates))
    tally.holds(f"rounds: {rows}", count <= 2 * len(dates) - 1)
    tally.same(f"sound: {rows}", outcome(lambda: check(plan, arbiters, dates)), (0, None))
    other_starts(tally, dice, plan, arbiters, dates)
    responses = by_release_order(plan, arbiters, [release for release, _ in dates])
    tally.same(f"one by one: {rows}", responses, [response for _, response in dates])
    for eagerness in (100, 60, 20):
        tally.same(f"breach: {rows}", run_of(dice, loaded, dates, eagerness), None)


def is_consistent(plan, arbiters, dates):
    return all(
        dates[i][0] == may_start(plan, dates, i)
        and dates[i][1] == smallest_equal(plan, arbiters, dates, i)
        for i in range(len(dates))
    )


def smallest_equal(plan, arbiters, dates, i):
    """The smallest response of i that equals what i takes at worst, all else fixed."""
    response = 0
    while response != worst_with(plan, arbiters, dates, i, response):
        response += 1
    return response


def worst_with(plan, arbiters, dates, i, response):
    tried = list(dates)
    tried[i] = (dates[i][0], response)
    return takes_at_worst(plan, arbiters, i, meeting(plan, tried, i))


def other_starts(tally, dice, plan, arbiters, dates):
    """Rounds from any releases come to the same dates."""
    latest = max(sum(date) for date in dates)
    for _ in range(3):
        releases = [dice.between(0, latest) for _ in dates]
        found, _ = rounds(plan, arbiters, releases)
        tally.same(f"other start {releases}", found, dates)


def by_release_order(plan, arbiters, releases):
    """One equation in one unknown after the other, in the order of release.

    A task that is not yet solved gets a response of one cycle: enough to be met by all that
    reach its release.
    """
    dates = [(release, 1) for release in releases]
    for i in sorted(range(len(dates)), key=lambda i: releases[i]):
        dates[i] = (releases[i], smallest_equal(plan, arbiters, dates, i))
    return [response for _, response in dates]


def all_tables(tally, dice):
    """Of all tables of a tiny plan exactly one is consistent, and it is the one found."""
    tiny = Shape(tasks=2, places=2, banks=1, latency=1, cycles=3, count=2, earliest=4, named=1)
    loaded = load(sheet_of(random_rows(dice, tiny)))
    plan, arbiters = loaded.plan, loaded.arbiters()
    found, _ = consistent_dates(plan, arbiters)
    # No release is later, and no response longer, than all work one after the other.
    top = 4 + sum(task.cycles + sum(task.demands.values()) for task in plan.tasks)
    every_date = product(range(top + 1), range(1, top + 1))
    every_table = product(list(every_date), repeat=len(plan.tasks))
    consistent = [t for t in every_table if starts_right(plan, t)
                  and is_consistent(plan, arbiters, t)]
    tally.same("all tables", [list(t) for t in consistent], [found])


def starts_right(plan, dates):
    """Asked first, since it is quick and most tables fail it."""
    return all(dates[i][0] == may_start(plan, dates, i) for i in range(len(dates)))


# Runs

def run_of(dice, loaded, dates, eagerness):
    """The breach of a random run over three periods, or None."""
    run = Run(loaded.plan, loaded.arbiters(), dates)
    for _ in range(3 * loaded.plan.head.period):
        for place, bank in random_asks(dice, run, eagerness):
            run.ask(place, bank)
        run.cycle()
        if run.breach is not None:
            return run.breach
    return None


# Arbiters

def random_arbiter(dice, depth):
    if depth == 0 or dice.chance(25):
        return Ring(dice.between(1, 4))
    if dice.chance(10):
        return pile()
    layer = dice.one_of([Alternation, Precedence])
    return layer(random_arbiter(dice, depth - 1), random_arbiter(dice, depth - 1))


def one_trace(tally, dice, arbiter):
    """The third law: services that end while s waits, and those of s, are within the bound."""
    in_service = warm_up(dice, arbiter)
    s = dice.below(arbiter.width)
    if arbiter.waits(s) or in_service == s:
        return
    counts = [int(o < arbiter.width and arbiter.waits(o)) for o in range(WIDEST)]
    if in_service is not None:
        counts[in_service] += 1
    own, ended = follow(dice, arbiter, s, in_service, counts)
    tally.holds("third law", ended <= arbiter.bound(s, own, counts))


def warm_up(dice, arbiter):
    """Some posts and picks. Answers the source that is left in service, if any."""
    for _ in range(dice.below(8)):
        s = dice.below(arbiter.width)
        if not arbiter.waits(s):
            arbiter.post(s)
    picked = None
    for _ in range(dice.below(4)):
        picked = arbiter.pick()
    return picked if dice.chance(70) else None


def follow(dice, arbiter, s, in_service, counts):
    """A random list of events. Counts the posts of s, and the services that the law counts."""
    own = ended = 0
    for _ in range(dice.between(1, 40)):
        if dice.chance(55):
            o = s if dice.chance(40) else dice.below(arbiter.width)
            if o != in_service and not arbiter.waits(o):
                arbiter.post(o)
                own += o == s
                counts[o] += 1
        elif in_service is not None:
            ended += in_service == s or arbiter.waits(s)
            in_service = None
        else:
            in_service = arbiter.pick()
    return own, ended


def bound_laws(tally, dice, arbiter):
    """The first two laws, for random numbers and one of them raised."""
    s = dice.below(arbiter.width)
    own = dice.below(9)
    counts = [dice.below(9) for _ in range(WIDEST)]
    others = sum(counts[:arbiter.width]) - counts[s]
    bound = arbiter.bound(s, own, counts)
    tally.holds("first law", bound == 0 if own == 0 else own <= bound <= own + others)
    raised = list(counts)
    raised[dice.below(WIDEST)] += dice.between(1, 5)
    tally.holds("second law, counts", bound <= arbiter.bound(s, own, raised))
    tally.holds("second law, own", bound <= arbiter.bound(s, own + 1, counts))
