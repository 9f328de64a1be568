"""Orders to plan: the stored ones, and random ones of which there are few enough schedules for a slow planner. Made from 'The
order' in docs/FORMATS.md."""

import math
import random
import re

from shared import EXAMPLES, TESTS
from slow.certificates import most_units, root_window
from slow.networks import Network, critical_length, early_starts, random_network
from slow.orders import Order, order_text, read_order

MOST_SCHEDULES = 20_000

# The search that learns looks for the plan if there are more capacity vectors than these between the floors and the most units.
FEW_VECTORS = 64


def stored_plans():
    """The name, the network, the order and the plan of each case that wants a plan, and of each example."""
    for folder in sorted(TESTS.glob("plan/*")):
        if (folder / "stdout").exists() and not (folder / "status").exists():
            _, net, order, *options = (folder / "words").read_text().splitlines()
            if not options:
                yield folder.relative_to(TESTS), folder / net, folder / order, folder / "stdout"
    for plan in sorted(EXAMPLES.glob("*.plan")):
        yield plan.name, plan.with_name(re.match("[a-z]+", plan.name)[0] + ".sm"), plan.with_suffix(".toml"), plan


def random_order(chance, network):
    jobs = range(len(network.durations))
    release = [chance.choice([0, 0, 0, 1, 2]) if chance.random() < 0.3 else 0 for _ in jobs]
    ends = [start + duration for start, duration in zip(early_starts(network, release), network.durations)]
    text = f"deadline = {max(0, max(ends) + chance.choice([-1, 0, 0, 1, 1, 2, 3, 4]))}\n"
    text += f"prices = {[chance.choice([0, 1, 1, 2, 3, 9]) for _ in range(network.resources)]}\n"
    if any(release) or chance.random() < 0.5:
        text += f"version = 2\nrelease = {release}\n"
        if chance.random() < 0.4:
            text += f"owned = {[chance.randint(0, 4) for _ in range(network.resources)]}\n"
        if chance.random() < 0.4:
            text += f"ceiling = {[chance.choice([2, 3, 4, 4, 5, 9]) for _ in range(network.resources)]}\n"
        if chance.random() < 0.4:
            text += f"due = {[max(0, end + chance.choice([0, 1, 1, 2, 3, 9] * 6 + [-1])) for end in ends]}\n"
    return text


def schedules_of(network, order):
    """How many start vectors there are between the early starts and the due times."""
    early = early_starts(network, order.release)
    return math.prod(max(1, order.due[j] - network.durations[j] - start + 1) for j, start in enumerate(early))


def random_case(seed):
    """A network and the text of an order for it, with few enough schedules."""
    chance = random.Random(seed)
    while True:
        network = random_network(chance, 6)
        text = random_order(chance, network)
        if schedules_of(network, read_order(text, network.resources, len(network.durations))) <= MOST_SCHEDULES:
            return network, text


def small_network(chance, resources, jobs):
    """A network of short jobs that request little."""
    pairs = {(a, b) for b in range(jobs) for a in range(b) if chance.random() < 1 / 3}
    return Network(resources, [chance.randint(0, 3) for _ in range(jobs)],
                   [[chance.randint(0, 2) for _ in range(resources)] for _ in range(jobs)], pairs)


def random_question(seed):
    """A network and the text of an order for it: whether there are starts within the bounds of each job for which these units are
    enough."""
    chance = random.Random(seed)
    while True:
        network = small_network(chance, chance.randint(1, 2), chance.randint(2, 5))
        lower = [chance.randint(0, 1) for _ in network.durations]
        due = [chance.randint(0, 7) + duration for duration in network.durations]
        units = [chance.randint(0, 3) for _ in range(network.resources)]
        order = Order(max(due), [1] * network.resources, [0] * network.resources, units, lower, due)
        if schedules_of(network, order) <= MOST_SCHEDULES // 10:
            return network, order_text(order)


def floors(network, order, window):
    """Of each resource the units without which no plan is: for the greatest request of a job that runs, for the work until the
    deadline, and for what runs in all schedules."""
    lower, upper = window
    jobs = [j for j, duration in enumerate(network.durations) if duration > 0]
    for k in range(network.resources):
        requests = [network.requests[j][k] for j in jobs]
        work = sum(network.durations[j] * network.requests[j][k] for j in jobs)
        cores = [sum(network.requests[j][k] for j in jobs if upper[j] <= time < lower[j] + network.durations[j])
                 for time in range(order.deadline)]
        yield max([0, *requests, *cores, -(-work // max(1, order.deadline))])


def has_many_vectors(network, order):
    """Whether there are so many capacity vectors that the search that learns looks for the plan."""
    window = root_window(network, order)
    if window is None:
        return False
    widths = [most - least + 1 for least, most in zip(floors(network, order, window), most_units(network, order))]
    return min(widths) > 0 and math.prod(widths) > FEW_VECTORS


def tight_order(chance, network):
    """An order with an early deadline, half of the time with low ceilings, and half of the time with due times."""
    jobs, resources = len(network.durations), network.resources
    release = [chance.choice([0, 0, 1, 2]) for _ in range(jobs)]
    deadline = critical_length(network, release) + chance.choice([0, 0, 1, 2])
    greatest = [max(request[k] for request in network.requests) for k in range(resources)]
    return Order(deadline, [chance.randint(0, 3) for _ in range(resources)], [chance.randint(0, 2) for _ in range(resources)],
                 [units + chance.choice([0, 1]) for units in greatest] if chance.random() < 0.8 else None, release,
                 [chance.randint(deadline - 1, deadline) if chance.random() < 0.5 else deadline for _ in range(jobs)])


def random_many(seed):
    """A network and the text of an order for it that leave many capacity vectors."""
    chance = random.Random(seed)
    while True:
        network = small_network(chance, chance.randint(4, 14), chance.randint(3, 5))
        order = tight_order(chance, network)
        if min(order.due) >= 0 and has_many_vectors(network, order) and schedules_of(network, order) <= MOST_SCHEDULES // 10:
            return network, order_text(order)
