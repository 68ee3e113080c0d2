"""Rules that are plausible but false: the brute checks must find them out.

This shows that the random traces are sharp enough to mean something.
"""

from arbiters import Alternation, Precedence, Ring
from check_brute import one_trace
from dice import Dice
from expect import Tally


class RestartingRing(Ring):
    """Starts each pick at 0."""

    def pick(self):
        self.last = None
        return super().pick()


class HastyAlternation(Alternation):
    """Takes the smaller of S, not B, and T."""

    def bound_in_first(self, own, inner, others):
        return inner + min(own, others)

    bound_in_second = bound_in_first


class ForgetfulPrecedence(Precedence):
    """Forgets the service in progress at a post."""

    def bound_in_second(self, own, inner, others):
        return inner


def all_false(tally):
    for name, make in [
        ("starting each pick at 0", lambda: RestartingRing(3)),
        ("the smaller of S and T", lambda: HastyAlternation(Ring(3), Ring(1))),
        ("forgetting the service", lambda: ForgetfulPrecedence(Ring(2), Ring(1))),
    ]:
        tally.holds(f"found out: {name}", is_found_out(make))


def is_found_out(make):
    for number in range(20_000):
        found = Quiet()
        one_trace(found, Dice("false", number), make())
        if found.failed:
            return True
    return False


class Quiet(Tally):
    """Here a failure is what is looked for, so it is not printed."""

    def holds(self, what, fact):
        self.failed += not fact
