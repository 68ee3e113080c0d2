"""Random numbers that depend on the seed alone, on every machine and Python version."""

import hashlib

MASK = (1 << 64) - 1


class Dice:
    def __init__(self, *seed):
        text = " ".join(str(part) for part in seed).encode()
        self.state = int.from_bytes(hashlib.sha256(text).digest()[:8], "big")

    def _next(self):
        # splitmix64: a counter whose values are stirred well.
        self.state = (self.state + 0x9E3779B97F4A7C15) & MASK
        z = self.state
        z = ((z ^ (z >> 30)) * 0xBF58476D1CE4E5B9) & MASK
        z = ((z ^ (z >> 27)) * 0x94D049BB133111EB) & MASK
        return z ^ (z >> 31)

    def below(self, n):
        return self._next() % n

    def between(self, low, high):
        """Low and high are both possible."""
        return low + self.below(high - low + 1)

    def chance(self, percent):
        return self.below(100) < percent

    def one_of(self, things):
        return things[self.below(len(things))]

    def shuffled(self, things):
        rest = list(things)
        return [rest.pop(self.below(len(rest))) for _ in range(len(rest))]

    def some_of(self, things, most):
        """Up to `most` different ones of the things."""
        return self.shuffled(things)[:self.below(most + 1)]
