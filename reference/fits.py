"""The questions that the check, the set-up of a run and the analysis share."""

from refused import require


def require_fit(plan, arbiters, rows):
    """`rows` is how many rows the table of dates has; only the first ones are used."""
    require(plan.tasks, 9)
    one_per_bank = len(arbiters) == plan.head.banks
    wide_enough = all(arbiter.width >= plan.head.places for arbiter in arbiters)
    require(one_per_bank and wide_enough, 10)
    require(rows >= len(plan.tasks), 11)
