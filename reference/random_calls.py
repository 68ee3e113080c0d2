"""Random calls of a run."""

from run import WORKING

# A run that asks often stops here, so that its file stays short.
MOST_LINES = 250


def random_asks(dice, run, eagerness):
    """For each working place, in a random order, perhaps one ask. Eagerness is in percent."""
    asks = []
    for place in dice.shuffled(range(len(run.places))):
        if run.places[place] == WORKING and dice.chance(eagerness):
            banks = banks_left(run, place)
            if banks:
                asks.append((place, dice.one_of(banks)))
    return asks


def banks_left(run, place):
    """The banks to which the task at work there has accesses left."""
    left = run.accesses_left[run.task_at[place]]
    return [bank for bank, count in sorted(left.items()) if count > 0]


def play(dice, script, cycles):
    """Random asks, right and wrong, and cycles, until enough cycles have passed."""
    run = script.run
    eagerness = dice.one_of([100, 100, 70, 30])
    while cycles > 0 and run.breach is None and len(script.lines) < MOST_LINES:
        for place, bank in random_asks(dice, run, eagerness):
            script.ask(place, bank)
        if dice.chance(15):
            script.ask(*any_ask(dice, run))
        if dice.chance(10):
            look_somewhere(dice, script)
        count = min(cycles, some_cycles(dice, run))
        script.cycles(count)
        cycles -= count
        if dice.chance(15):
            look_somewhere(dice, script)


def some_cycles(dice, run):
    """Several at once where nobody could ask, else mostly one."""
    if WORKING not in run.places:
        return dice.between(1, 2)
    return 1 if dice.chance(85) else dice.between(2, 5)


def any_ask(dice, run):
    """Perhaps of a place or bank that is not there, idle, waiting, or without an access left."""
    if dice.chance(15):
        return dice.one_of([(len(run.places), 0), (0, len(run.services)), (2**32, 0), (0, 2**32)])
    return dice.one_of(run.plan.tasks).place, dice.below(len(run.services))


def look_somewhere(dice, script):
    """At the time, at a place that is used, and at a task."""
    script.look()
    script.look_at_place(dice.one_of(script.run.plan.tasks).place)
    script.look_at_task(dice.below(len(script.run.stages)))


def end(dice, script):
    """The state at the end; after a breach, that nothing goes on."""
    script.look_at_all()
    if script.run.breach is None:
        script.cycles(dice.between(1, 4 * script.run.plan.head.period))
    else:
        script.ask(*any_ask(dice, script.run))
        script.cycles(dice.between(1, 3))
    script.look_at_all()
