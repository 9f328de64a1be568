"""Needs above a ceiling, by each way in which the jobs of a need can start. Made from 'racp whatif' in
docs/FORMATS.md."""

import itertools
import random

from slow.certificates import root_window

# How many ways are looked at; if there are more, as many of them by chance.
MOST_WAYS = 3000


def overlap(start, duration, first, behind):
    """For how many of these times a job runs that starts then."""
    return max(0, min(start + duration, behind) - max(start, first))


def ways_of(window, jobs):
    """Starts of these jobs in their windows."""
    ranges = [range(window[0][j], window[1][j] + 1) for j in jobs]
    ways = 1
    for starts in ranges:
        ways *= len(starts)
    if ways <= MOST_WAYS:
        return itertools.product(*ranges)
    chance = random.Random(ways)
    return ([chance.choice(starts) for starts in ranges] for _ in range(MOST_WAYS))


def is_needed(network, window, need):
    """Whether its jobs use the units together at one of its times, whichever way they start."""
    jobs = [job - 1 for job in need["jobs"]]
    for starts in ways_of(window, jobs):
        if not any(sum(network.requests[j][need["resource"] - 1] for j, start in zip(jobs, starts)
                       if start <= time < start + network.durations[j]) >= need["units"]
                   for time in range(need["from"], need["until"])):
            return False
    return jobs == sorted(set(jobs))


def fits(network, window, k, ceiling, first, behind):
    """Whether the least work of all jobs between two times is no more than the ceiling can do."""
    work = 0
    for j, duration in enumerate(network.durations):
        starts = range(window[0][j], window[1][j] + 1)
        work += network.requests[j][k] * min(overlap(start, duration, first, behind) for start in starts)
    return work <= ceiling * (behind - first)


def all_fits(network, window, k, ceiling):
    """Whether each request fits the ceiling, and the work at the times that are looked at."""
    early, late = window
    jobs = range(len(early))
    ends = [late[j] + network.durations[j] for j in jobs]
    return (all(network.requests[j][k] <= ceiling for j in jobs if network.durations[j] > 0)
            and all(fits(network, window, k, ceiling, time, time + 1) for time in late)
            and all(fits(network, window, k, ceiling, first, behind) for first in early for behind in ends if first < behind))


def wrong_need(network, order, need):
    """What is wrong with the need that is told of an order without a plan, or with its lack, or nothing."""
    window = root_window(network, order)
    if need is None:
        is_right = all(all_fits(network, window, k, ceiling) for k, ceiling in enumerate(order.ceilings))
        return None if is_right else "no need is told"
    if need["units"] <= order.ceilings[need["resource"] - 1]:
        return f"{need} is not above the ceiling"
    return None if is_needed(network, window, need) else f"{need} is not needed"


def need_words(need):
    """How a need is told behind `not possible`, where jobs and resources have no names."""
    if need is None:
        return ""
    jobs = ", ".join(f"job {job}" for job in need["jobs"])
    if len(need["jobs"]) > 8:
        jobs = f"{len(need['jobs'])} jobs"
    times = f" between {need['from']} and {need['until']}" if len(need["jobs"]) > 1 else ""
    return f"; {need['units']} of resource {need['resource']} needed{times} by {jobs}"
