"""The run of a cluster under fixed dates, cycle by cycle."""

from fits import require_fit
from plan import LATEST
from refused import require

# What a place does.
IDLE, WORKING, WAITING, SERVED = range(4)
# How far a task is in this period.
AHEAD, AT_WORK, DONE = range(3)
# Breaches: still at work at its finish date; cannot start at its release date.
UNFINISHED, UNSTARTED = 1, 2


class Run:
    """Only `ask` and `cycle` change it. `breach` is None or a pair (kind, row)."""

    def __init__(self, plan, arbiters, table):
        require_set_up(plan, arbiters, table)
        tasks = len(plan.tasks)
        self.plan = plan
        self.dates = list(table[:tasks])
        self.arbiters = arbiters
        self.time = 0
        self.breach = None
        self.places = [IDLE] * plan.head.places
        self.task_at = [None] * plan.head.places
        self.stages = [AHEAD] * tasks
        self.cycles_left = [0] * tasks
        self.accesses_left = [{} for _ in range(tasks)]
        # A bank's service is its place and the cycles it still takes.
        self.services = [None] * plan.head.banks
        self._release()

    # Questions

    def place(self, place):
        require(place < len(self.places), 7)
        return self.places[place]

    def task(self, row):
        require(row < len(self.stages), 7)
        return self.stages[row]

    # Calls

    def ask(self, place, bank):
        """The task at work there makes one access."""
        require(self.breach is None, 16)
        require(place < len(self.places) and bank < len(self.services), 7)
        require(self.places[place] != IDLE, 17)
        require(self.places[place] == WORKING, 18)
        left = self.accesses_left[self.task_at[place]]
        require(left.get(bank, 0) > 0, 19)
        left[bank] -= 1
        self.arbiters[bank].post(place)
        self.places[place] = WAITING

    def cycle(self):
        """A cycle that brings a breach about is not refused; the next call is."""
        require(self.breach is None, 16)
        self._pick()
        self._use_one_cycle()
        self._end_services()
        self._end_tasks()
        self._let_time_pass()

    # The five steps of a cycle

    def _pick(self):
        for bank, service in enumerate(self.services):
            if service is None:
                place = self.arbiters[bank].pick()
                if place is not None:
                    self.places[place] = SERVED
                    self.services[bank] = (place, self.plan.head.latency)

    def _use_one_cycle(self):
        for bank, service in enumerate(self.services):
            if service is not None:
                place, left = service
                self.services[bank] = (place, left - 1)
        for place, state in enumerate(self.places):
            if state == WORKING:
                self.cycles_left[self.task_at[place]] -= 1

    def _end_services(self):
        for bank, service in enumerate(self.services):
            if service is not None and service[1] == 0:
                self.places[service[0]] = WORKING
                self.services[bank] = None

    def _end_tasks(self):
        # A task is done with its last cycle, although accesses may be left.
        for place, state in enumerate(self.places):
            row = self.task_at[place]
            if state == WORKING and self.cycles_left[row] == 0:
                self.places[place] = IDLE
                self.task_at[place] = None
                self.stages[row] = DONE

    def _let_time_pass(self):
        self.time += 1
        for row, date in enumerate(self.dates):
            if self.stages[row] == AT_WORK and sum(date) == self.time:
                # The cycle ends here, also at the period: the time stays.
                self.breach = (UNFINISHED, row)
                return
        if self.time == self.plan.head.period:
            self.time = 0
            self.stages = [AHEAD] * len(self.stages)
        self._release()

    # Releases

    def _release(self):
        for row, (release, _) in enumerate(self.dates):
            if release == self.time:
                if not self._may_start(row):
                    self.breach = (UNSTARTED, row)
                    return
                self._start(row)

    def _may_start(self, row):
        idle = self.places[self.plan.tasks[row].place] == IDLE
        return idle and all(self.stages[j] == DONE for j in self.plan.waits[row])

    def _start(self, row):
        task = self.plan.tasks[row]
        self.places[task.place] = WORKING
        self.task_at[task.place] = row
        self.stages[row] = AT_WORK
        self.cycles_left[row] = task.cycles
        self.accesses_left[row] = dict(task.demands)


def require_set_up(plan, arbiters, table):
    require_fit(plan, arbiters, len(table))
    require(not any(arbiter.anyone() for arbiter in arbiters), 15)
    dates = table[:len(plan.tasks)]
    in_range = all(
        release <= LATEST and 1 <= response <= LATEST for release, response in dates
    )
    require(in_range, 5)
    for row, date in enumerate(dates):
        require(sum(date) <= plan.head.period, 12, row)
