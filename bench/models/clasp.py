#!/usr/bin/env python3
"""The problem for clasp: pseudo-Boolean rules in OPB format, from the paths of a network and an order.

A literal stands for each job and time that says whether the job has started by then, and one for each resource and unit
above the least that says whether there is that unit.
"""

import re

import project

PROGRAM = "clasp"
SUFFIX = ".opb"


class Literals:
    """The numbers of literals: of a job that has started by a time, and of a unit, from 1 on, above the least."""

    def __init__(self, planned):
        self.planned = planned
        self.started = {(job, time): None for job in planned.jobs for time in planned.starts_of(job)[:-1]}
        self.units = {(resource, unit): None for resource in planned.resources
                      for unit in range(1, planned.most[resource] - planned.least[resource] + 1)}
        for number, (table, key) in enumerate([*((self.started, key) for key in self.started),
                                               *((self.units, key) for key in self.units)], 1):
            table[key] = f"x{number}"

    def has_started(self, factor, job, time):
        """A term that is the factor if the job has started by that time, else 0."""
        if time < self.planned.earliest[job]:
            return factor, 0
        return factor, self.started.get((job, time), 1)


def rule(terms, least):
    """The line which says that the terms, factors of literals or of 0 or 1, are at least this many together; or none if that
    is always so."""
    least -= sum(factor * name for factor, name in terms if isinstance(name, int))
    factors = {}
    for factor, name in terms:
        if isinstance(name, str):
            factors[name] = factors.get(name, 0) + factor
    if sum(factor for factor in factors.values() if factor < 0) >= least:
        return None
    return " ".join(f"{factor:+d} {name}" for name, factor in factors.items() if factor) + f" >= {least} ;"


def model(planned):
    """The rules of a project."""
    literals = Literals(planned)
    rules = [*order_rules(planned, literals), *precedence_rules(planned, literals), *capacity_rules(planned, literals)]
    lines = [line for line in rules if line]
    costs = " ".join(f"{planned.prices[resource]:+d} {name}" for (resource, _), name in literals.units.items())
    idle = len(literals.started) + len(literals.units) + 1  # the literal that nothing needs: only of costs is there an optimum
    return "\n".join([f"* #variable= {idle} #constraint= {len(lines)}", f"min: {costs} +1 x{idle} ;", *lines, ""])


def order_rules(planned, literals):
    """What has started by a time has started by the next; there is a unit only if there is the one before."""
    for job, time in literals.started:
        yield rule([literals.has_started(1, job, time + 1), literals.has_started(-1, job, time)], 0)
    for (resource, unit), name in literals.units.items():
        if unit > 1:
            yield rule([(1, literals.units[resource, unit - 1]), (-1, name)], 0)


def precedence_rules(planned, literals):
    """Where the second job of a pair has started by a time, the first has so long before that it has ended."""
    for first, second in planned.pairs:
        for time in planned.starts_of(second):
            yield rule([literals.has_started(1, first, time - planned.durations[first]), literals.has_started(-1, second, time)], 0)


def capacity_rules(planned, literals):
    """The jobs that have started by a time and not ended use no more units than there are."""
    for resource in planned.resources:
        units = [(1, name) for (owner, _), name in literals.units.items() if owner == resource]
        for time in range(planned.deadline):
            used = [term for job in planned.users(resource) for term in (
                literals.has_started(-planned.requests[job][resource], job, time),
                literals.has_started(planned.requests[job][resource], job, time - planned.durations[job]))]
            yield rule(units + used, -planned.least[resource])


def command(rules):
    """The words that solve the rules in this file, with the settings that did best of those that clasp has by name."""
    return [PROGRAM, "--configuration=handy", rules]


def capacities(planned, printed):
    """The capacities of a plan that was shown to be cheapest, or none."""
    if "OPTIMUM FOUND" not in printed:
        return None
    last = printed[printed.rindex("\no "):]
    true = {word for row in re.findall(r"^v (.*)$", last, re.MULTILINE) for word in row.split()}
    found = list(planned.least)
    for (resource, _), name in Literals(planned).units.items():
        found[resource] += name in true
    return found


if __name__ == "__main__":
    project.printed(model)
