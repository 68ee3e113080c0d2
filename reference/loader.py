"""Sheets into plans: each row goes into the plan before the next line is read."""

from arbiters import Ring, pile
from plan import OpenPlan
from refused import Refused
from sheet import Fault, rows


class Loaded:
    """A closed plan, the make of its arbiters and the names of its tasks."""

    def __init__(self, plan, make, names):
        self.plan = plan
        self.make = make
        self.names = names

    def arbiters(self):
        """New arbiters, one for each bank. A plan without a head has no bank."""
        head = self.plan.head
        if head is None:
            return []
        return [self.arbiter() for _ in range(head.banks)]

    def arbiter(self):
        return Ring(self.plan.head.places) if self.make == 1 else pile()


def load(sheet):
    plan = OpenPlan()
    make = None
    names = []
    for line, row in rows(sheet):
        try:
            put(plan, row)
        except Refused as refused:
            raise Fault(refused.number, line, 1) from None
        if row[0] == "C":
            make = row[1]
        if row[0] == "T":
            names.append(row[-1])
    return Loaded(plan.close(), make, names)


def put(plan, row):
    letter, *numbers = row
    if letter == "C":
        plan.head(*numbers[1:])
    elif letter == "T":
        plan.task(*numbers[:3])
    elif letter == "M":
        plan.demand(*numbers)
    else:
        plan.after(*numbers)
