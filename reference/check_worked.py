"""The cases that are worked by hand, against this program."""

from arbiters import Alternation, Precedence, Ring, WIDEST, pile
from check import check
from dates import (
    consistent_dates, first_releases, renewed, responses_alone, smallest_responses,
)
from dates_program import listing_of
from expect import outcome
from loader import load
from rows import sheet_of
from run import DONE, IDLE, Run
import worked_plans


def all_worked(tally):
    bounds(tally)
    picks(tally)
    listings(tally)
    dates_by_hand(tally)
    rounds_by_hand(tally)
    checks(tally)
    breach(tally)


def counts(**by_source):
    """counts(s1=4) has 4 at source 1 and 0 elsewhere."""
    return [by_source.get(f"s{s}", 0) for s in range(WIDEST)]


def bounds(tally):
    core = counts(s1=4, s2=30, s16=50, s19=7)
    low = Alternation(Ring(16), Ring(3))
    tally.same("ring level", Ring(16).bound(0, 10, core), 24)
    tally.same("alternated", low.bound(0, 10, core), 48)
    tally.same("core 0 on the pile", pile().bound(0, 10, core), 55)
    tally.same("receive on the pile", pile().bound(19, 3, counts(s0=2, s1=5)), 6)
    tally.same("receive alone", Ring(1).bound(0, 3, counts()), 3)
    tally.same("width of the pile", pile().width, 20)
    tally.same("no own access", pile().bound(0, 0, core), 0)
    bound_refusals(tally)


def bound_refusals(tally):
    limit = 16_776_960
    ring = Ring(2)
    tally.same("source", outcome(lambda: ring.bound(2, limit + 1, [])), (7, None))
    tally.same("31 counts", outcome(lambda: ring.bound(1, limit + 1, [0] * 31)), (10, None))
    tally.same("own", outcome(lambda: ring.bound(1, limit + 1, counts())), (5, None))
    tally.same("count", outcome(lambda: ring.bound(1, 1, counts(s31=limit + 1))), (5, None))
    tally.same("limit", ring.bound(1, limit, counts(s0=limit, s1=limit, s31=limit)), 2 * limit)


def served(arbiter, posts):
    """Posts, then the picks until nobody waits."""
    for s in posts:
        arbiter.post(s)
    picked = []
    while arbiter.anyone():
        picked.append(arbiter.pick())
    return picked


def picks(tally):
    tally.same("new ring", served(Ring(4), [3, 1]), [1, 3])
    ring = Ring(4)
    tally.same("nobody waits", ring.pick(), None)
    tally.same("after 2", served(ring, [2]) + served(ring, [0, 1, 2, 3]), [2, 3, 0, 1, 2])
    tally.same("alternation", served(Alternation(Ring(2), Ring(2)), [0, 1, 2, 3]), [0, 2, 1, 3])
    tally.same("precedence", served(Precedence(Ring(2), Ring(1)), [0, 1, 2]), [2, 0, 1])
    tally.same("pile", served(pile(), [5, 4, 18, 16, 19]), [19, 4, 16, 5, 18])
    tally.same("posted twice", outcome(lambda: [ring.post(1), ring.post(1)]), (18, None))
    wide = Alternation(Ring(20), Ring(13))
    tally.same("too wide is its first side", (wide.width, served(wide, [7, 3])), (20, [3, 7]))
    tally.same("widths of rings", [Ring(n).width for n in (0, 1, 32, 33)], [1, 1, 32, 32])


def listings(tally):
    tally.same("sample", listing_of(sheet_of(worked_plans.sample())), (
        b"G         2\n"
        b"R         0         0        10        10         scan\n"
        b"R         1         0         8         8        steam\n"
        b"R         2        10         3        13       filter\n"))
    tally.same("period 10", listing_of(sheet_of(worked_plans.scan_and_steam(10))), (
        b"G         1\n"
        b"R         0         0        10        10         scan\n"
        b"R         1         0         8         8        steam\n"))
    tally.same("period 9", listing_of(sheet_of(worked_plans.scan_and_steam(9))),
               b"L         0              10\n")
    tally.same("empty sheet", listing_of(b""), b"F         9         0         0\n")


def dates_of(rows):
    loaded = load(sheet_of(rows))
    return consistent_dates(loaded.plan, loaded.arbiters())


def dates_by_hand(tally):
    for earliest, wanted in [
        (0, [(0, 10), (0, 8)]),
        (7, [(0, 10), (7, 8)]),
        (8, [(0, 8), (8, 6)]),
    ]:
        dates, _ = dates_of(worked_plans.scan_and_steam(20, earliest))
        tally.same(f"steam not before {earliest}", dates, wanted)
    dates, _ = dates_of(worked_plans.six_tasks())
    # The rows have the tasks 1, 2, 4, 5, 6, 3.
    by_task = [dates[row] for row in (0, 1, 5, 2, 3, 4)]
    tally.same("six responses", [r for _, r in by_task], [745, 908, 200, 1325, 308, 1600])
    tally.same("six releases", [d for d, _ in by_task], [0, 745, 2070, 745, 0, 308])


def rounds_by_hand(tally):
    """The release of row 2 that each round takes, and the response of row 1 that it finds."""
    loaded = load(sheet_of(worked_plans.three_rounds()))
    plan, arbiters = loaded.plan, loaded.arbiters()
    tally.same("row 1 alone", responses_alone(plan, arbiters)[1], 502)
    releases = first_releases(plan, arbiters)
    for release, response in [(502, 702), (702, 512), (512, 512)]:
        responses = smallest_responses(plan, arbiters, releases)
        tally.same("a round", (releases[2], responses[1]), (release, response))
        releases = renewed(plan, responses)
    tally.same("three rounds", consistent_dates(plan, arbiters)[1], 3)


def checks(tally):
    loaded = load(sheet_of(worked_plans.scan_and_steam(20, 8)))
    for table, wanted in [
        ([(0, 10), (8, 8)], (0, None)),
        ([(0, 10), (8, 6)], (14, 1)),
        ([(0, 10), (7, 8)], (13, 1)),
        ([(0, 8), (8, 6)], (0, None)),
        ([(0, 8), (15, 6)], (12, 1)),
    ]:
        found = outcome(lambda: check(loaded.plan, loaded.arbiters(), table))
        tally.same(f"check of {table}", found, wanted)


def breach(tally):
    loaded = load(sheet_of(worked_plans.scan_and_steam(20)))
    run = Run(loaded.plan, loaded.arbiters(), [(0, 8), (0, 6)])
    run.ask(0, 0)
    run.ask(1, 0)
    run.cycle()
    run.ask(0, 0)
    cycles(run, 2)
    run.ask(0, 0)
    cycles(run, 5)
    tally.same("breach", (run.time, run.breach), (8, (1, 0)))
    tally.same("steam is done", (run.task(1), run.place(1)), (DONE, IDLE))
    tally.same("no cycle after a breach", outcome(run.cycle), (16, None))


def cycles(run, count):
    for _ in range(count):
        run.cycle()
