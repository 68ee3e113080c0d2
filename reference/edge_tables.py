"""Tables of dates at the edges of the check's questions.

A case is a plan as rows and a table of pairs (release, response).
"""

from edge_sheets import above_32_bits
from plan import LATEST
from random_plans import dates_of
from rows import with_period
import worked_plans

LARGEST_DATE = 2**32 - 1


def edge_tables():
    return (
        by_hand()
        + wrong_sizes()
        + out_of_range()
        + rows_in_order()
        + touching()
        + [too_long_for_32_bits()]
    )


def by_hand():
    late_steam = worked_plans.scan_and_steam(20, 8)
    tables = [
        [(0, 10), (8, 8)], [(0, 10), (8, 6)], [(0, 10), (7, 8)], [(0, 8), (8, 6)], [(0, 8), (15, 6)],
        [(0, 8), (8, 7)], [(0, 9), (8, 8)], [(1, 8), (9, 6)], [(0, 8), (14, 6)], [(0, 7), (8, 6)],
    ]
    plans = [worked_plans.sample(), worked_plans.three_rounds(), worked_plans.six_tasks()]
    return [(late_steam, table) for table in tables] + [(rows, dates_of(rows)) for rows in plans]


def wrong_sizes():
    """9 before 10 before 11 before 5; rows behind the tasks' are not read."""
    rows = worked_plans.scan_and_steam(20)
    sound = [(0, 10), (0, 8)]
    too_wide = [("C", 2, 21, 1, 1, 20)] + rows[1:]
    beyond = [(LARGEST_DATE, LARGEST_DATE)]
    return [
        ([], []), ([], sound), (rows[:1], []), (too_wide[:1], sound),
        (too_wide, sound), (too_wide, []), (too_wide, beyond * 2),
        (rows, []), (rows, sound[:1]), (rows, beyond), (rows, sound + beyond),
        ([("C", 2, 20, 1, 1, 20)] + rows[1:], sound),
    ]


def out_of_range():
    rows = worked_plans.scan_and_steam(LATEST)
    return [(rows, table) for table in [
        [(0, LATEST), (0, 8)], [(0, LATEST + 1), (0, 8)], [(LATEST, 10), (0, 8)],
        [(LATEST + 1, 10), (0, 8)], [(0, 1), (0, LATEST + 1)], [(0, 0), (LARGEST_DATE, 8)],
        [(0, 0), (0, 8)], [(0, 10), (0, 0)], [(0, 0), (0, 0)], [(LATEST - 8, 8), (0, 6)],
        [(LATEST - 7, 8), (0, 6)], [(0, LATEST), (LATEST, LATEST)], [(LATEST, LATEST), (0, 6)],
    ]]


def rows_in_order():
    """Row 0's three questions come before row 1's, in the order 13, 14, 12."""
    rows = with_period(worked_plans.sample(), 13)
    early_scan = rows[:1] + [("T", 0, 5, 2, b"scan")] + rows[2:]
    return [(plan, table) for plan, table in [
        (rows, [(0, 10), (0, 8), (10, 3)]),
        (rows, [(0, 10), (0, 8), (9, 3)]),
        (rows, [(0, 10), (0, 8), (10, 4)]),
        (rows, [(0, 10), (0, 7), (9, 9)]),
        (rows, [(0, 9), (0, 7), (9, 3)]),
        (rows, [(6, 9), (0, 8), (15, 3)]),
        (rows, [(6, 8), (0, 6), (14, 2)]),
        (early_scan, [(1, 20), (0, 1), (0, 1)]),
        (early_scan, [(2, 20), (0, 1), (0, 1)]),
        (early_scan, [(2, 9), (0, 8), (11, 2)]),
        (early_scan, [(1, 9), (0, 8), (11, 2)]),
    ]]


def touching():
    """Steam's window ends, or begins, where scan's begins or ends, and one cycle to each side."""
    rows = worked_plans.scan_and_steam(30)
    return [(rows, table) for table in [
        [(6, 8), (0, 6)], [(5, 8), (0, 6)], [(7, 8), (0, 6)], [(6, 8), (14, 6)], [(6, 8), (13, 6)],
        [(6, 8), (15, 6)], [(5, 10), (0, 8)], [(7, 10), (0, 8)], [(8, 10), (0, 8)], [(8, 8), (0, 8)],
        [(24, 8), (0, 6)], [(22, 8), (0, 6)], [(0, 8), (24, 6)], [(0, 30), (0, 30)],
    ]]


def too_long_for_32_bits():
    """What row 0 takes at worst is above 32 bits; its response is what 32 bits would leave of it."""
    receives = 64
    worst = 1_000_000 + 64 * 16 * (1 + 65_535 * receives)
    table = [(0, worst % 2**32)] + [(0, LATEST)] * receives
    return above_32_bits(receives, 0), table
