"""What a task takes at worst, given which tasks meet it.

Dates are a list with a pair (release, response) for each task.
"""

from arbiters import WIDEST


def meet(plan, dates, i, j):
    """Windows that only touch do not meet."""
    release_i, response_i = dates[i]
    release_j, response_j = dates[j]
    return (
        plan.tasks[i].place != plan.tasks[j].place
        and release_i < release_j + response_j
        and release_j < release_i + response_i
    )


def meeting(plan, dates, i):
    """The rows that meet row i."""
    return [j for j in range(len(plan.tasks)) if meet(plan, dates, i, j)]


def loads(plan, met, bank):
    """For each place, the accesses to the bank of all met tasks there."""
    by_place = [0] * WIDEST
    for j in met:
        by_place[plan.tasks[j].place] += plan.demand(j, bank)
    return by_place


def takes_at_worst(plan, arbiters, i, met):
    task = plan.tasks[i]
    # Without an own access the bound is 0, so the other banks add nothing.
    services = sum(
        arbiters[bank].bound(task.place, own, loads(plan, met, bank))
        for bank, own in task.demands.items()
    )
    return task.cycles + plan.head.latency * services
