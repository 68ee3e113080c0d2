"""Makes the calls of a run and writes them down with their answers, as the lines of a case."""

from case_lines import answer_line, date_lines, numbers_line
from expect import outcome
from loader import load
from rows import sheet_of
from run import Run


class Script:
    """One case: a plan, its dates, perhaps uses of the arbiters before, the set-up and calls."""

    def __init__(self, rows, table, warm_up=()):
        self.rows = rows
        self.table = table
        self.lines = []
        self.run = None
        loaded = load(sheet_of(rows))
        arbiters = loaded.arbiters()
        for use in warm_up:
            self.use(arbiters, *use)
        self.set_up = outcome(lambda: self.start(loaded.plan, arbiters))
        self.lines.append(answer_line(b"S", *self.set_up))

    def text(self):
        return sheet_of(self.rows) + date_lines(self.table) + b"".join(self.lines)

    def start(self, plan, arbiters):
        self.run = Run(plan, arbiters, self.table)

    def use(self, arbiters, bank, source, picks):
        """Before the set-up: the source posts, and perhaps the arbiter picks once."""
        arbiters[bank].post(source)
        if picks:
            arbiters[bank].pick()
        self.lines.append(numbers_line(b"B", bank, source, picks))

    def ask(self, place, bank):
        number, _ = outcome(lambda: self.run.ask(place, bank))
        self.lines.append(numbers_line(b"Q", place, bank, number))

    def cycles(self, count):
        for _ in range(count):
            number, _ = outcome(self.run.cycle)
        self.lines.append(numbers_line(b"Y", count, number))

    def look(self):
        kind, row = self.run.breach or (0, 0)
        self.lines.append(numbers_line(b"W", self.run.time, kind, row))

    def look_at_place(self, place):
        self.lines.append(numbers_line(b"P", place, answer(lambda: self.run.place(place))))

    def look_at_task(self, row):
        self.lines.append(numbers_line(b"K", row, answer(lambda: self.run.task(row))))

    def look_at_all(self):
        self.look()
        for place in sorted({task.place for task in self.run.plan.tasks}):
            self.look_at_place(place)
        for row in range(len(self.run.stages)):
            self.look_at_task(row)


def answer(question):
    """What a question answers, or the number of its refusal."""
    answers = []
    number, _ = outcome(lambda: answers.append(question()))
    return number or answers[0]
