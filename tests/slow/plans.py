"""A slow reader of plans, line by line, and their texts. Made from 'The plan' and its 'Faults' in docs/FORMATS.md."""

import collections
import re

from shared import Written
from slow.orders import LATEST

MOST_COST = 1_000_000_000_000_000
FAULTS = ["Syntax", "Range"]

Plan = collections.namedtuple("Plan", "deadline critical cost capacities starts")


def refused(name, line):
    return Written(f"refused plan {FAULTS.index(name) + 1} {name} line {line}", 5)


def read_plan(text, resources, jobs):
    forms = [("deadline ", LATEST), ("critical ", LATEST), ("cost ", MOST_COST)]
    forms += [(f"capacity {k + 1} ", LATEST) for k in range(resources)]
    forms += [(f"start {j + 1} ", LATEST) for j in range(jobs)]
    numbers = []
    for line, (words, most) in enumerate(forms, 1):
        found = re.match(re.escape(words) + r"(0|[1-9][0-9]*)\n", text)
        if not found:
            raise refused("Syntax", line)
        if int(found[1]) > most:
            raise refused("Range", line)
        numbers.append(int(found[1]))
        text = text[found.end():]
    if not text.startswith("end\n"):
        raise refused("Syntax", len(forms) + 1)
    if text != "end\n":
        raise refused("Syntax", len(forms) + 2)
    return Plan(numbers[0], numbers[1], numbers[2], numbers[3:3 + resources], numbers[3 + resources:])


def plan_text(plan):
    text = f"deadline {plan.deadline}\ncritical {plan.critical}\ncost {plan.cost}\n"
    text += "".join(f"capacity {k} {units}\n" for k, units in enumerate(plan.capacities, 1))
    text += "".join(f"start {j} {start}\n" for j, start in enumerate(plan.starts, 1))
    return text + "end\n"


def plan_units(text):
    """The capacities of a plan text."""
    return [int(line.split()[2]) for line in text.splitlines() if line.startswith("capacity ")]
