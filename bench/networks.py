"""Random networks and orders for them, the same for the same numbers. README.md beside this file says how they are made."""

import fractions
import math
import random

RESOURCES = 4
JOBS_BEFORE = 8
QUARTERS = 3


class Chance:
    """Random whole numbers. `random.random` gives the same sequence for a seed in every version of Python."""

    def __init__(self, seed):
        self.source = random.Random(seed)

    def number(self, least, most):
        return least + int(self.source.random() * (most - least + 1))


def random_project(count, seed, quarters=QUARTERS):
    """A network of this many jobs, as `random_network` has it, and the price of a unit of each resource."""
    chance = Chance(1000 * seed + count)
    network = random_network(chance, count, quarters)
    return network, [chance.number(1, 10) for _ in range(RESOURCES)]


def random_network(chance, count, quarters):
    """The predecessors, the durations and the requests of jobs 1 to `count`. This many quarters of the requests are not 0."""
    jobs = range(1, count + 1)
    before = {job: set() for job in jobs}
    for job in jobs[1:-1]:
        for _ in range(chance.number(1, 2)):
            before[job].add(chance.number(max(1, job - JOBS_BEFORE), job - 1))
    succeeded = set().union(*before.values())
    before[count] = {job for job in jobs[:-1] if job not in succeeded}
    durations = {job: chance.number(1, 10) for job in jobs[1:-1]}
    requests = {job: [random_request(chance, quarters) for _ in range(RESOURCES)] for job in jobs[1:-1]}
    for dummy in (1, count):
        durations[dummy], requests[dummy] = 0, [0] * RESOURCES
    return before, durations, requests


def random_request(chance, quarters):
    return 0 if chance.number(1, 4) <= 4 - quarters else chance.number(1, 10)


def critical_length(before, durations):
    ends = {}
    for job in sorted(before):
        ends[job] = max((ends[other] for other in before[job]), default=0) + durations[job]
    return max(ends.values())


def network_text(before, durations, requests):
    rule = "*" * 72
    lines = [rule, f"jobs (incl. supersource/sink ):  {len(before)}", "RESOURCES", f"  - renewable                 :  {RESOURCES}   R",
             rule, "PRECEDENCE RELATIONS:", "jobnr.    #modes  #successors   successors"]
    for job in sorted(before):
        after = [other for other in sorted(before) if job in before[other]]
        lines.append("".join(f"{number:6}" for number in [job, 1, len(after), *after]))
    lines += [rule, "REQUESTS/DURATIONS:", "jobnr. mode duration  R 1 .."]
    for job in sorted(before):
        lines.append("".join(f"{number:6}" for number in [job, 1, durations[job], *requests[job]]))
    return "\n".join([*lines, rule, ""])


def order_text(before, durations, prices, factor):
    """The order whose deadline is the factor times the critical length, rounded down as `racp order --factor` does."""
    deadline = math.floor(fractions.Fraction(factor) * critical_length(before, durations))
    return f"deadline = {deadline}\nprices = {prices}\n"
