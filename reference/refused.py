"""Every call puts its questions in order; the first "no" refuses it."""


class Refused(Exception):
    """The number of a refusal, with the row (and the finish) that it names, if any."""

    def __init__(self, number, row=None, finish=None):
        super().__init__(number, row, finish)
        self.number = number
        self.row = row
        self.finish = finish


def require(fact, number, row=None):
    if not fact:
        raise Refused(number, row)
