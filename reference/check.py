"""The check: are these dates sound? It knows nothing of how they were found."""

from fits import require_fit
from plan import LATEST
from refused import require
from worst import meeting, takes_at_worst


def check(plan, arbiters, table):
    """Comes back if the dates are sound, and is refused otherwise."""
    require_fit(plan, arbiters, len(table))
    dates = table[:len(plan.tasks)]
    require(all(max(date) <= LATEST for date in dates), 5)
    for row in range(len(dates)):
        check_row(plan, arbiters, dates, row)


def check_row(plan, arbiters, dates, row):
    release, response = dates[row]
    require(release >= may_start(plan, dates, row), 13, row)
    met = meeting(plan, dates, row)
    require(response >= takes_at_worst(plan, arbiters, row, met), 14, row)
    require(release + response <= plan.head.period, 12, row)


def may_start(plan, dates, row):
    """The largest of the earliest date and the finishes that the task waits for."""
    finishes = [sum(dates[j]) for j in plan.waits[row]]
    return max([plan.tasks[row].earliest] + finishes)
