"""Random plans to check: most are right; in the others a value of the order, or a number or a line of the plan, is changed. Made
from 'The order' and 'The plan' in docs/FORMATS.md."""

import random
import re

from shared import Written
from slow.networks import critical_length, early_starts, network_text, random_network, usage
from slow.orders import cost_of, read_order
from slow.plans import MOST_COST, Plan, plan_text


def random_starts(chance, network, release):
    """Starts that keep precedence and the release times, put off at random."""
    starts = early_starts(network, [time + chance.choice([0, 0, 1, 3]) for time in release])
    if chance.random() < 0.2:
        starts[chance.randrange(len(starts))] += chance.choice([-2, -1, 1])
    return [max(0, start) for start in starts]


def random_order(chance, network, starts, release):
    """A table of an order that mostly allows these starts, and the table's values as text."""
    jobs, resources = len(starts), network.resources
    ends = [start + duration for start, duration in zip(starts, network.durations)]
    table = {"deadline": max(ends) + chance.choice([0, 0, 0, 1, 2, -1]),
             "prices": [chance.randint(0, 9) for _ in range(resources)]}
    if any(release) or chance.random() < 0.6:
        table["version"] = 2
        table["release"] = release
        if chance.random() < 0.5:
            table["owned"] = [chance.randint(0, 4) for _ in range(resources)]
        if chance.random() < 0.4:
            table["ceiling"] = [chance.randint(4, 15) for _ in range(resources)]
        if chance.random() < 0.4:
            table["due"] = [end + chance.choice([0, 1, 9]) for end in ends]
    return {key: str(value) for key, value in table.items()}


VALUES = ["-1", "1.5", "true", '"4"', "[1]", "[]", "{ a = 1 }", "2026-11-22", "[1.0]", "[[1]]", "10000000", "10000001",
          "[1000000]", "[1000001]", "99999999999999999999", "3", "2", "0", "[1, 1]", "[1, 1, 1]", "[-1, 1]", "0x10"]


def changed_order(chance, values):
    """The values with some of them changed, left out or added, as text."""
    for _ in range(chance.choice([0, 0, 0, 0, 0, 0, 0, 1, 1, 2])):
        key = chance.choice([*values, "version", "owned", "ceiling", "release", "due", "deadline", "other"])
        if chance.random() < 0.2:
            values.pop(key, None)
        else:
            values[key] = chance.choice(VALUES)
    keys = list(values)
    chance.shuffle(keys)
    text = "".join(f"{key} = {values[key]}\n" for key in keys)
    return text + chance.choice([""] * 30 + ["deadline =", "deadline = 1\n", "x", "# end"])


NUMBERS = ["0", "1", "2", "007", "10000000", "10000001", str(MOST_COST), str(MOST_COST + 1), "9" * 30, "", "-1", "x"]


def changed_plan(chance, text):
    """The text of a plan, in some cases with a number or a line changed."""
    for _ in range(chance.choice([0, 0, 0, 0, 0, 0, 1, 1, 2])):
        lines = text.split("\n")
        place = chance.randrange(len(lines))
        line = lines[place]
        other_number = re.sub(r"[0-9]+$", chance.choice(NUMBERS), line)
        lines[place] = chance.choice([other_number, other_number, line + " ", line + "\r", "", "end", line + "\n" + line])
        text = "\n".join(lines)
    return text[:chance.randrange(len(text) + 1)] if chance.random() < 0.05 else text


def random_case(seed):
    """The network, and the texts of it, of an order and of a plan."""
    chance = random.Random(seed)
    network = random_network(chance, 7)
    jobs = range(len(network.durations))
    release = [chance.choice([0, 0, 1, 4]) if seed % 3 == 0 else 0 for _ in jobs]
    starts = random_starts(chance, network, release)
    values = random_order(chance, network, starts, release)
    ends = max(start + duration for start, duration in zip(starts, network.durations))
    most = [max(usage(network, starts, k, time) for time in range(ends + 1)) for k in range(network.resources)]
    capacities = [max(0, units + chance.choice([0] * 9 + [1, -1])) for units in most]
    order_text = changed_order(chance, values)
    try:
        order = read_order(order_text, network.resources, len(jobs))
        head = (order.deadline, critical_length(network, order.release), cost_of(order, capacities))
    except Written:
        head = (ends, ends, 0)
    plan = Plan(*(number + chance.choice([0] * 30 + [1]) for number in head), capacities, starts)
    return network, network_text(network), order_text, changed_plan(chance, plan_text(plan))
