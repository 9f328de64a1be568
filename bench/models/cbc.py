#!/usr/bin/env python3
"""The problem for CBC: a mixed integer program over times, in LP format, from the paths of a network and an order.

`s3_7` is 1 if job 3 has started by time 7, else 0, for each time from its earliest start to before its latest; `a2` is the
capacity of resource 2.
"""

import re

import project

PROGRAM = "cbc"
SUFFIX = ".lp"


def model(planned):
    """The program of a project."""
    rules = [*order_rules(planned), *precedence_rules(planned), *capacity_rules(planned)]
    units = [f"a{resource}" for resource in planned.resources]
    starts = [f"s{job}_{time}" for job in planned.jobs for time in planned.starts_of(job)[:-1]]
    bounds = [f"{planned.least[resource]} <= a{resource} <= {planned.most[resource]}" for resource in planned.resources]
    objective = " ".join(f"{price:+d} {name}" for price, name in zip(planned.prices, units))
    return "\n".join(["Minimize", f"cost: {objective}", "Subject To", *filter(None, rules), "Bounds", *bounds, "General", *units,
                      "Binary", *starts, "End\n"])


def has_started(planned, factor, job, time):
    """A term that is the factor if the job has started by that time, else 0."""
    if time < planned.earliest[job]:
        return factor, 0
    return factor, 1 if time >= planned.latest[job] else f"s{job}_{time}"


def rule(terms):
    """The line which says that the terms, factors of names or of 0 or 1, are at most 0 together; or none if there is no
    name in them."""
    most = -sum(factor * name for factor, name in terms if isinstance(name, int))
    named = [f"{factor:+d} {name}" for factor, name in terms if isinstance(name, str)]
    return f"{' '.join(named)} <= {most}" if named else None


def order_rules(planned):
    """What has started by a time has started by the next."""
    for job in planned.jobs:
        for time in planned.starts_of(job)[:-1]:
            yield rule([has_started(planned, 1, job, time), has_started(planned, -1, job, time + 1)])


def precedence_rules(planned):
    """Where the second job of a pair has started by a time, the first has so long before that it has ended."""
    for first, second in planned.pairs:
        for time in planned.starts_of(second):
            yield rule([has_started(planned, 1, second, time), has_started(planned, -1, first, time - planned.durations[first])])


def capacity_rules(planned):
    """The jobs that have started by a time and not ended use no more units than there are."""
    for resource in planned.resources:
        for time in range(planned.deadline):
            used = [term for job in planned.users(resource) for term in (
                has_started(planned, planned.requests[job][resource], job, time),
                has_started(planned, -planned.requests[job][resource], job, time - planned.durations[job]))]
            yield rule([*used, (-1, f"a{resource}")])


def command(program):
    """The words that solve the program in this file. Costs are whole numbers, so a gap of less than 1 is none. Without cutting
    planes it was faster."""
    return [PROGRAM, program, "cuts", "off", "ratio", "0", "allow", "0.999", "solve", "solution", "stdout"]


def capacities(planned, printed):
    """The capacities of a plan that was shown to be cheapest, or none."""
    if "Result - Optimal solution found" not in printed:
        return None
    found = dict(re.findall(r"^\s*\d+ a(\d+)\s+(\S+)", printed, re.MULTILINE))
    return [round(float(found.get(str(resource), 0))) for resource in planned.resources]


if __name__ == "__main__":
    project.printed(model)
