#!/usr/bin/env python3
"""The problem for MiniZinc with its solver Gecode: the data of capacities.mzn, from the paths of a network and an order."""

import pathlib
import re

import project

PROGRAM = "minizinc"
SUFFIX = ".dzn"
RULES = pathlib.Path(__file__).with_name("capacities.mzn")


def model(planned):
    """The data of a project."""
    pairs = [number + 1 for pair in planned.pairs for number in pair]
    requests = [units for row in planned.requests for units in row]
    return "\n".join([
        f"jobs = {len(planned.jobs)};",
        f"resources = {len(planned.resources)};",
        f"duration = {planned.durations};",
        f"request = array2d(1..{len(planned.jobs)}, 1..{len(planned.resources)}, {requests});",
        f"pairs = array2d(1..{len(planned.pairs)}, 1..2, {pairs});",
        f"earliest = {planned.earliest};",
        f"latest = {planned.latest};",
        f"price = {planned.prices};",
        f"least = {planned.least};",
        f"most = {planned.most};\n"])


def command(data):
    """The words that solve the model whose data stand in this file."""
    return [PROGRAM, "--solver", "gecode", RULES, data]


def capacities(planned, printed):
    """The capacities of a plan that was shown to be cheapest, or none."""
    if "==========" not in printed:
        return None
    found = re.findall(r"^capacity \d+ (\d+)$", printed, re.MULTILINE)
    return [int(units) for units in found[-len(planned.resources):]]


if __name__ == "__main__":
    project.printed(model)
