"""The plan: rows go into an open plan one by one; a closed plan is only read."""

from collections import namedtuple

from refused import require

Head = namedtuple("Head", "places banks latency period")
Task = namedtuple("Task", "place cycles earliest demands named")

LATEST = 1_000_000_000
MOST_TASKS = 256
MOST_NAMED = 2048


class OpenPlan:
    """Each call asks its questions before it changes anything."""

    def __init__(self):
        self._head = None
        self._tasks = []

    def head(self, places, banks, latency, period):
        require(self._head is None, 4)
        in_range = (
            1 <= places <= 32
            and 1 <= banks <= 16
            and 1 <= latency <= 64
            and 1 <= period <= LATEST
        )
        require(in_range, 5)
        self._head = Head(places, banks, latency, period)

    def task(self, place, cycles, earliest):
        """Answers the new task's row."""
        require(self._head is not None, 4)
        require(place < self._head.places, 7)
        require(1 <= cycles <= 1_000_000 and earliest <= LATEST, 5)
        require(len(self._tasks) < MOST_TASKS, 6)
        self._tasks.append(Task(place, cycles, earliest, {}, []))
        return len(self._tasks) - 1

    def demand(self, bank, count):
        require(self._tasks, 4)
        newest = self._tasks[-1]
        require(bank < self._head.banks, 7)
        require(1 <= count <= 65_535, 5)
        require(bank not in newest.demands, 8)
        newest.demands[bank] = count

    def after(self, k):
        require(self._tasks, 4)
        newest = self._tasks[-1]
        require(k < len(self._tasks) - 1, 7)
        require(k not in newest.named, 8)
        # The limit is on the named rows of all tasks together.
        require(sum(len(task.named) for task in self._tasks) < MOST_NAMED, 6)
        newest.named.append(k)

    def close(self):
        return ClosedPlan(self._head, self._tasks)


class ClosedPlan:
    """`waits[i]` has the rows that task i waits for."""

    def __init__(self, head, tasks):
        self.head = head
        self.tasks = tuple(tasks)
        self.waits = tuple(waits_for(self.tasks, i) for i in range(len(self.tasks)))

    def demand(self, i, bank):
        return self.tasks[i].demands.get(bank, 0)


def waits_for(tasks, i):
    """The rows that i names, and the task before it at its place."""
    waits = set(tasks[i].named)
    same_place = [j for j in range(i) if tasks[j].place == tasks[i].place]
    if same_place:
        waits.add(same_place[-1])
    return waits
