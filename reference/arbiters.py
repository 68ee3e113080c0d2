"""Arbiters: who is served next at a bank, and how many services may pass at worst."""

from refused import require

WIDEST = 32
MOST_ACCESSES = 256 * 65_535


def accept(width, s, own, counts):
    """The questions of a bound. All 32 counts are asked, also those that then count as 0."""
    require(s < width, 7)
    require(len(counts) == WIDEST, 10)
    require(own <= MOST_ACCESSES and all(count <= MOST_ACCESSES for count in counts), 5)


def padded(counts):
    """A side's counts, filled up with 0 to the 32 entries that a bound asks for."""
    return list(counts) + [0] * (WIDEST - len(counts))


class Ring:
    """Picks upwards from the source after the last picked, and round to 0."""

    def __init__(self, n):
        self.width = min(max(n, 1), WIDEST)
        self.last = None
        self._waiting = set()

    def waits(self, s):
        require(s < self.width, 7)
        return s in self._waiting

    def anyone(self):
        return bool(self._waiting)

    def post(self, s):
        require(s < self.width, 7)
        require(s not in self._waiting, 18)
        self._waiting.add(s)

    def pick(self):
        start = 0 if self.last is None else self.last + 1
        for step in range(self.width):
            s = (start + step) % self.width
            if s in self._waiting:
                self._waiting.remove(s)
                self.last = s
                return s
        return None

    def bound(self, s, own, counts):
        accept(self.width, s, own, counts)
        others = (counts[o] for o in range(self.width) if o != s)
        return own + sum(min(count, own) for count in others)


class Layer:
    """Two arbiters as one. The sources of the first side come first.

    If their widths add to more than 32, the layer is its first side alone.
    """

    def __init__(self, first, second):
        self.first = first
        self.second = second
        self.alone = first.width + second.width > WIDEST
        self.width = first.width + (0 if self.alone else second.width)
        self.last = None

    def waits(self, s):
        require(s < self.width, 7)
        side, within = self.side_of(s)
        return side.waits(within)

    def anyone(self):
        return self.first.anyone() or (not self.alone and self.second.anyone())

    def post(self, s):
        require(s < self.width, 7)
        side, within = self.side_of(s)
        side.post(within)

    def pick(self):
        if self.alone:
            picked = self.first.pick()
        else:
            picked = self.pick_of_two()
        if picked is not None:
            self.last = picked
        return picked

    def pick_of_two(self):
        if not self.anyone():
            return None
        if self.picks_first():
            return self.first.pick()
        return self.first.width + self.second.pick()

    def bound(self, s, own, counts):
        accept(self.width, s, own, counts)
        if self.alone:
            return self.first.bound(s, own, counts)
        split = self.first.width
        counts_of_first = counts[:split]
        counts_of_second = counts[split:self.width]
        if s < split:
            inner = self.first.bound(s, own, padded(counts_of_first))
            return self.bound_in_first(own, inner, sum(counts_of_second))
        inner = self.second.bound(s - split, own, padded(counts_of_second))
        return self.bound_in_second(own, inner, sum(counts_of_first))

    def side_of(self, s):
        """The side of a source, and its number within that side."""
        if s < self.first.width:
            return self.first, s
        return self.second, s - self.first.width


class Alternation(Layer):
    """If somebody waits on both sides, picks the side not picked from last, at first left."""

    def picks_first(self):
        left, right = self.first, self.second
        if not (left.anyone() and right.anyone()):
            return left.anyone()
        last_was_left = self.last is not None and self.last < left.width
        return not last_was_left

    def bound_in_first(self, own, inner, others):
        return inner + min(inner, others)

    bound_in_second = bound_in_first


class Precedence(Layer):
    """The first side is low, the second high: picks from high if somebody waits there."""

    def picks_first(self):
        return not self.second.anyone()

    def bound_in_first(self, own, inner, others):
        # Every access of high may pass, but only if there is an own one to wait for.
        return 0 if own == 0 else inner + others

    def bound_in_second(self, own, inner, others):
        # Low only passes by being in service already when a high access is posted.
        return inner + min(own, others)


def pile():
    """A memory bank of a Bostan cluster: 16 cores, 3 units, and network receive above all."""
    return Precedence(Alternation(Ring(16), Ring(3)), Ring(1))
