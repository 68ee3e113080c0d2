"""Counts what was compared, and shows what differs."""

from refused import Refused


class Tally:
    def __init__(self):
        self.passed = 0
        self.failed = 0

    def same(self, what, found, wanted):
        if found == wanted:
            self.passed += 1
            return
        self.failed += 1
        print(f"{what}: found {found!r}, wanted {wanted!r}")

    def holds(self, what, fact):
        self.same(what, bool(fact), True)


def outcome(call):
    """(0, None) if the call is accepted, else the number of its refusal and its row."""
    try:
        call()
    except Refused as refused:
        return refused.number, refused.row
    return 0, None
