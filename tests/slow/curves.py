"""A slow curve: a plan for each deadline up to the order's; and what is wrong with a curve's picture, or with one that was
stopped. Made from 'racp curve' in docs/FORMATS.md."""

import re

from shared import Run, difference
from slow.orders import cost_of
from slow.drawing import LEFT, RIGHT
from slow.pictures import elements, lines_drawn, round_numbers

# The least height of what a picture shows, how far the base of a number is below its middle, and how much room a cost has.
LEAST_FRAME = 100
HALF_DIGIT = 4
LABEL_WIDTH, LABEL_HEIGHT = 48, 14


def with_deadline(text, deadline):
    """The text of an order, with another deadline."""
    return re.sub(r"(?m)^deadline = [0-9]+$", f"deadline = {deadline}", text)


def deadline_of(text):
    """The deadline of the text of an order."""
    return int(re.search(r"(?m)^deadline = ([0-9]+)$", text)[1])


def line_of(plan):
    """The words of a curve's line for the plan of this text, after the deadline."""
    lines = [line.split() for line in plan.decode().splitlines()]
    cost = next(words[1] for words in lines if words[0] == "cost")
    units = [words[2] for words in lines if words[0] == "capacity"]
    return f"cost {cost} capacity {' '.join(units)}"


def curve_of(plan_by, order_text):
    """What `curve` has to write, if `plan_by` gives the run of `plan` for an order text."""
    last = plan_by(order_text)
    if last.status != 0:
        return last
    lines, before = [], None
    for deadline in range(deadline_of(order_text) + 1):
        plan = plan_by(with_deadline(order_text, deadline))
        line = line_of(plan.output) if plan.status == 0 else None
        if line is not None and line != before:
            lines.append(f"deadline {deadline} {line}\n")
        before = line
    return Run(0, ("".join(lines) + "end\n").encode(), b"")


def wrong_drawing(picture, steps, last):
    """What is wrong with the picture of these steps, each a deadline and a cost, or nothing.

    Deadlines go from that of the first step to that of the order, as `show` draws times; costs from 0, at the base, to the
    greatest, at the top; both in one scale, rounded down. Each step is a point with a tooltip, and the points are the corners of
    a stair, which goes on behind the last deadline. Axes have round numbers."""
    grid = elements(picture, "path", **{"class": "line"})
    level, upright = lines_drawn(grid, "H"), lines_drawn(grid, "V")
    dots = elements(picture, "circle")
    first, most = steps[0][0], max(cost for _, cost in steps)
    base, end = max(y for _, y, _ in level), max(right for _, _, right in level)
    top = min(int(it.get("cy")) for it in dots) if most else min(y for _, y, _ in level)
    if end <= RIGHT or base - top < LEAST_FRAME:
        return f"frame: {top} {base} {end}"

    def across(deadline):
        return LEFT + (deadline - first) * (RIGHT - LEFT) // max(1, last - first)

    def down(cost):
        return base - cost * (base - top) // max(1, most)

    points = [(across(deadline), down(cost)) for deadline, cost in steps]
    stair = "".join(f"H{x}V{y}" for x, y in points)
    deadlines, costs = round_numbers(first, last), round_numbers(0, max(1, most))
    drawn_costs = [it for it in elements(picture, "text", **{"class": "end"}) if it.text not in ["cost", "deadline"]]
    labels = [it.text for kind in [None, "cost"] for it in elements(picture, "text", **{"class": kind})]
    compared = [
        ("points", points, [(int(it.get("cx")), int(it.get("cy"))) for it in dots]),
        ("tooltips", [[f"from {deadline}: {cost}"] for deadline, cost in steps],
         [[title.text for title in elements(it, "title")] for it in dots]),
        ("stair", [f"M{LEFT} {base}{stair}H{end}V{base}Z"], [it.get("d") for it in elements(picture, "path", **{"class": "used"})]),
        ("deadlines", [(str(it), across(it)) for it in deadlines],
         [(it.text, int(it.get("x"))) for it in elements(picture, "text", **{"class": "mark"})]),
        ("lines at deadlines", [across(it) for it in deadlines], [x for x, _, _ in upright]),
        ("costs", [(str(it), down(it) + HALF_DIGIT) for it in costs], [(it.text, int(it.get("y"))) for it in drawn_costs]),
        ("lines at costs", [down(it) for it in costs], [y for _, y, _ in level]),
        ("costs of points", [str(cost) for _, cost in labelled(steps, points)], labels)]
    return next((f"{name}: wanted {wanted}\n  drawn {drawn}" for name, wanted, drawn in compared if wanted != drawn), None)


def labelled(steps, points):
    """The steps whose costs are written, from the left to the right: not those that would stand on the one before."""
    kept, last = [], None
    for step, (x, y) in zip(steps, points):
        if last is None or x >= last[0] + LABEL_WIDTH or y >= last[1] + LABEL_HEIGHT:
            kept.append(step)
            last = x, y
    return kept


def step_of(line):
    """The deadline of a line, and its words after that."""
    deadline, rest = re.fullmatch(r"deadline ([0-9]+) (.*)", line).groups()
    return int(deadline), rest


def wrong_stop(wanted, order, got):
    """What is wrong with what is written when no turn was left, or nothing: the lines are the last ones of the curve, of which the
    first may begin later; and the capacities do not come after those of the plan for the deadline before it."""
    *lines, last = got.output.decode().splitlines()
    words = last.split()
    if got.status != 4 or words[0] != "stopped" or wanted.status not in [0, 3]:
        return difference(wanted, got)
    if wanted.status == 3:
        return difference(wanted, got) if lines else None
    steps = [step_of(line) for line in lines]
    curve = [step_of(line) for line in wanted.output.decode().splitlines()[:-1]]
    first = steps[0][0] if steps else order.deadline + 1
    held = [rest for deadline, rest in curve if deadline <= first]
    if steps and (steps[1:] != [step for step in curve if step[0] > first] or held[-1:] != [steps[0][1]]):
        return difference(wanted, got)
    before = [rest.split() for deadline, rest in curve if deadline < first][-1:]
    told = [int(word) for word in words[1:]]
    for _, cost, _, *units in before:
        if (cost_of(order, told), told) > (int(cost), [int(word) for word in units]):
            return f"{told} come after the plan's\n  {difference(wanted, got)}"
    return None
