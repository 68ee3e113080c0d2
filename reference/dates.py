"""The analysis: consistent dates, found by rounds."""

from fits import require_fit
from refused import Refused
from worst import meeting, takes_at_worst


def analyse(plan, arbiters, rows):
    """Answers the consistent dates and the number of rounds, if all is in time."""
    require_fit(plan, arbiters, rows)
    dates, count = consistent_dates(plan, arbiters)
    for row, date in enumerate(dates):
        if sum(date) > plan.head.period:
            raise Refused(12, row, sum(date))
    return dates, count


def consistent_dates(plan, arbiters):
    return rounds(plan, arbiters, first_releases(plan, arbiters))


def first_releases(plan, arbiters):
    return renewed(plan, responses_alone(plan, arbiters))


def rounds(plan, arbiters, releases):
    """Rounds until one changes no release. That one is counted too."""
    count = 0
    while True:
        count += 1
        responses = smallest_responses(plan, arbiters, releases)
        new_releases = renewed(plan, responses)
        if new_releases == releases:
            return list(zip(releases, responses)), count
        releases = new_releases


def responses_alone(plan, arbiters):
    """What each task takes at worst without meetings."""
    return [takes_at_worst(plan, arbiters, i, []) for i in range(len(plan.tasks))]


def smallest_responses(plan, arbiters, releases):
    """All responses together, raised from below until none is too small."""
    responses = responses_alone(plan, arbiters)
    while True:
        dates = list(zip(releases, responses))
        raised = [
            takes_at_worst(plan, arbiters, i, meeting(plan, dates, i))
            for i in range(len(dates))
        ]
        if raised == responses:
            return responses
        responses = raised


def renewed(plan, responses):
    """Releases by rows: each uses the responses and the new releases of earlier rows."""
    releases = []
    for i, task in enumerate(plan.tasks):
        finishes = [releases[j] + responses[j] for j in plan.waits[i]]
        releases.append(max([task.earliest] + finishes))
    return releases
