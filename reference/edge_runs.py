"""Runs at the edges of the rules, call by call."""

from plan import LATEST
from rows import with_period
from run_script import Script
import worked_plans


def edge_runs():
    return [
        breach_by_hand(),
        every_ask(),
        no_access_used(),
        both_late(),
        late_and_blocked(),
        all_at_the_period(),
        releases_stop(),
        done_in_time(),
        alone_at_receive(),
    ] + refused_set_ups()


def breach_by_hand():
    script = Script(worked_plans.scan_and_steam(20), [(0, 8), (0, 6)])
    script.ask(0, 0)
    script.ask(1, 0)
    script.cycles(1)
    script.ask(0, 0)
    script.cycles(2)
    script.ask(0, 0)
    script.cycles(5)
    script.look_at_all()
    script.cycles(1)
    return script


def every_ask():
    """Each refusal of an ask, in its order, at latency 2."""
    rows = [("C", 1, 3, 2, 2, 40)] + worked_plans.scan_and_steam(20)[1:]
    script = Script(rows, [(0, 30), (0, 30)])
    for place, bank in [(3, 0), (0, 2), (3, 2), (2, 0), (2, 2), (0, 1), (1, 1), (0, 0), (0, 0), (0, 1)]:
        script.ask(place, bank)
    script.look_at_all()
    script.cycles(1)
    script.ask(0, 0)
    script.look_at_all()
    script.cycles(1)
    script.look_at_all()
    for _ in range(3):
        script.ask(0, 0)
        script.cycles(2)
    script.ask(0, 1)
    script.look_at_all()
    return script


def no_access_used():
    """Tasks are done with their last cycle, although all accesses are left; again each period."""
    script = Script(worked_plans.sample(), [(0, 10), (0, 8), (10, 3)])
    for count in (3, 1, 1, 5, 1, 1, 8, 20, 40, 5):
        script.cycles(count)
        script.look_at_all()
    return script


def both_late():
    """Two tasks are late at the same time: the lowest row stands."""
    rows = [("C", 1, 2, 1, 1, 20), ("T", 1, 5, 0, b"a"), ("T", 0, 5, 0, b"b")]
    script = Script(rows, [(0, 4), (0, 4)])
    script.cycles(4)
    script.look_at_all()
    return script


def late_and_blocked():
    """One task is late when the next cannot start: the cycle ends before the releases."""
    rows = [("C", 1, 1, 1, 1, 20), ("T", 0, 5, 0, b"a"), ("T", 0, 5, 0, b"b")]
    script = Script(rows, [(0, 4), (4, 5)])
    script.cycles(6)
    script.look_at_all()
    return script


def all_at_the_period():
    """Late at the period's end: the time stays at the period."""
    script = Script(worked_plans.scan_and_steam(8), [(0, 8), (0, 8)])
    script.ask(0, 0)
    script.ask(1, 0)
    script.cycles(1)
    script.ask(0, 0)
    script.cycles(2)
    script.ask(0, 0)
    script.cycles(5)
    script.look_at_all()
    script.ask(0, 0)
    script.cycles(1)
    script.look_at_all()
    return script


def releases_stop():
    """At time 0 row 1 cannot start; row 0 has started, row 2 has not."""
    rows = [("C", 1, 2, 1, 1, 20), ("T", 0, 5, 0, b"a"), ("T", 0, 5, 0, b"b"), ("T", 1, 5, 0, b"c")]
    script = Script(rows, [(0, 5), (0, 5), (0, 5)])
    script.look_at_all()
    script.ask(0, 0)
    script.cycles(1)
    script.look_at_all()
    return script


def done_in_time():
    """A task ends in the very cycle in which the next one at another place begins, and at the period."""
    rows = [("C", 1, 2, 1, 3, 14), ("T", 0, 5, 0, b"a"), ("M", 0, 1), ("T", 1, 3, 0, b"b"),
            ("M", 0, 1), ("D", 0)]
    script = Script(rows, [(0, 8), (8, 6)])
    for _ in range(3):
        script.cycles(4)
        script.ask(0, 0)
        script.cycles(3)
        script.look_at_all()
        script.cycles(1)
        script.look_at_all()
        script.ask(1, 0)
        script.cycles(5)
        script.look_at_all()
        script.cycles(1)
        script.look_at_all()
    return script


def alone_at_receive():
    """On the pile, network receive is served first, but not before a service in progress ends."""
    rows = [("C", 2, 20, 1, 4, 60)]
    for place in (0, 1, 16, 17, 19):
        rows += [("T", place, 3, 0, b"at%d" % place), ("M", 0, 2)]
    script = Script(rows, [(0, 60)] * 5)
    script.ask(1, 0)
    script.cycles(1)
    for place in (19, 17, 16, 0):
        script.ask(place, 0)
    for _ in range(6):
        script.cycles(4)
        script.look_at_all()
        script.ask(1, 0)
        script.ask(19, 0)
    script.cycles(12)
    script.look_at_all()
    return script


def refused_set_ups():
    """9, 10, 11, 5 and 12, alone and in order; and dates that are just accepted."""
    rows = worked_plans.scan_and_steam(20)
    far = with_period(rows, LATEST)
    too_wide = [("C", 2, 21, 1, 1, 20)] + rows[1:]
    beyond = (2**32 - 1, 2**32 - 1)
    return [Script(plan, table) for plan, table in [
        ([], []), (rows[:1], [(0, 1)]), (too_wide[:1], []), (too_wide, []), (too_wide, [beyond] * 2),
        (rows, []), (rows, [beyond]), (rows, [(0, 0), (0, 8)]), (rows, [(0, 10), (0, 0)]),
        (rows, [(0, 21), (0, 0)]), (rows, [(0, 10), (13, 8)]), (rows, [(11, 10), (13, 8)]),
        (rows, [(0, 10), (0, LATEST + 1)]), (rows, [(LATEST + 1, 1), (0, 1)]),
        (rows, [(LATEST, LATEST), (0, 1)]), (rows, [(0, 20), (12, 8), beyond]),
        (far, [(LATEST - 1, 1), (0, LATEST)]), (far, [(LATEST, 1), (0, 1)]),
    ]]
