"""Networks, their texts, and starts in them, pair by pair and time unit by time unit.

Made from 'The network text' in docs/FORMATS.md, and from 'Schedules' and 'Early and late starts, chains' in docs/DEFINITIONS.md."""

import collections

# How many resources there are, how long each job runs, how many units of each resource it requests, and the pairs of jobs of
# which the second succeeds the first. All count from 0.
Network = collections.namedtuple("Network", "resources durations requests pairs")

# Those of examples/a.sm, examples/b.sm and examples/c.sm.
FIVE_JOBS = Network(1, [0, 3, 2, 2, 0], [[0], [2], [1], [1], [0]], {(0, 1), (0, 2), (0, 3), (1, 4), (2, 4), (3, 4)})
SIX_JOBS = Network(2, [0, 1, 1, 1, 1, 0], [[0, 0], [1, 0], [1, 0], [0, 1], [0, 1], [0, 0]],
                   {(0, 1), (0, 2), (1, 3), (1, 4), (2, 3), (2, 4), (3, 5), (4, 5)})

CHAIN = Network(1, [0, 4, 1, 3, 4, 0], [[0], [1], [1], [2], [1], [0]], {(0, 1), (0, 2), (1, 5), (2, 3), (3, 4), (4, 5)})


def random_network(chance, most_jobs):
    jobs, resources = chance.randint(1, most_jobs), chance.randint(1, 3)
    durations = [chance.randint(0, 4) for _ in range(jobs)]
    requests = [[chance.randint(0, 3) for _ in range(resources)] for _ in range(jobs)]
    order = chance.sample(range(jobs), jobs)
    pairs = {(order[a], order[b]) for a in range(jobs) for b in range(a + 1, jobs) if chance.random() < 0.3}
    return Network(resources, durations, requests, pairs)


def network_text(network):
    jobs = range(len(network.durations))
    text = f"jobs: {len(jobs)}\n- renewable: {network.resources} R\nPRECEDENCE RELATIONS:\nheading\n"
    for i in jobs:
        successors = sorted(b + 1 for a, b in network.pairs if a == i)
        text += " ".join(map(str, [i + 1, 1, len(successors), *successors])) + "\n"
    text += "REQUESTS/DURATIONS:\nheading\n"
    for i in jobs:
        text += " ".join(map(str, [i + 1, 1, network.durations[i], *network.requests[i]])) + "\n"
    return text


def early_starts(network, release):
    """Jobs start at their release times; one that starts before another has ended that precedes it is put off."""
    starts = list(release)
    changed = True
    while changed:
        changed = False
        for i, j in network.pairs:
            if starts[j] < starts[i] + network.durations[i]:
                starts[j] = starts[i] + network.durations[i]
                changed = True
    return starts


def late_starts(network, due):
    """Jobs start as late as they end by their due times; one that ends after a job starts that succeeds it is put forward."""
    starts = [time - duration for time, duration in zip(due, network.durations)]
    changed = True
    while changed:
        changed = False
        for i, j in network.pairs:
            if starts[i] + network.durations[i] > starts[j]:
                starts[i] = starts[j] - network.durations[i]
                changed = True
    return starts


def critical_length(network, release):
    return max(start + duration for start, duration in zip(early_starts(network, release), network.durations))


def usage(network, starts, resource, time):
    return sum(network.requests[j][resource] for j in range(len(starts))
               if starts[j] <= time < starts[j] + network.durations[j])
