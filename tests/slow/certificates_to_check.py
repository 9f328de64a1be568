"""Certificates to check: a slow search writes a tree for each vector that no block written before covers, with `C` lines or
without, and then something may be changed. Made from 'The certificate' in docs/FORMATS.md."""

import itertools
import random

from slow.certificates import (MOST_NUMBER, Case, Node, children, covers, first_conflict, is_below, most_units, place,
                               root_window)
from slow.networks import Network, critical_length, early_starts, random_network
from slow.orders import Order, cost_of
from slow.plans import Plan

MOST_LINES = 400


class TooManyLines(Exception):
    """The search takes too long."""


class Maker:
    """Writes the blocks of a certificate."""

    def __init__(self, network, root, covering):
        self.network, self.root, self.covering = network, root, covering
        self.lines, self.number, self.closed = ["proof"], 1, {}

    def block(self, vector):
        """Starts that fit the vector; or nothing, and a block is written."""
        kept = len(self.lines), self.number, dict(self.closed)
        self.lines.append(" ".join(map(str, ["vector", *vector])))
        starts = self.tree(vector, self.root[0])
        if starts is not None:
            self.number, self.closed = kept[1:]
            del self.lines[kept[0]:]
        return starts

    def tree(self, vector, lower):
        if len(self.lines) > MOST_LINES:
            raise TooManyLines
        number, self.number = self.number, self.number + 1
        early = early_starts(self.network, lower)
        for j, (start, high) in enumerate(zip(early, self.root[1]), 1):
            if start > high:
                self.lines.append(f"L {j}")
                return None
        time = first_conflict(self.network, vector, early)
        if time is None:
            return early
        node = Node(vector, lower, early, time)
        for other, closed in self.closed.items() if self.covering else []:
            if covers(self.network, closed, node):
                self.lines.append(f"C {other}")
                return None
        self.lines.append(f"D {time}")
        for child in children(self.network, node):
            starts = self.tree(vector, child)
            if starts is not None:
                return starts
        self.closed[number] = node
        return None


def certificate(chance, network, order, covering):
    """The first vector that some starts fit, these starts, and the text; or nothing."""
    root = root_window(network, order)
    maker = Maker(network, root, covering)
    boxes = itertools.product(*(range(most + 1) for most in most_units(network, order)))
    vectors = sorted((list(vector) for vector in boxes), key=lambda vector: place(order, vector))
    scout = Maker(network, root, False)
    for count, capacities in enumerate(vectors):
        starts = scout.block(capacities)
        scout.lines.clear()
        if starts is not None:
            break
    else:
        return None
    before, proved = vectors[:count], []
    before.sort(key=sum, reverse=chance.random() < 0.9)
    for vector in before:
        if not any(is_below(vector, other) for other in proved):
            maker.block(vector)
            proved.append(vector)
    return capacities, starts, "".join(line + "\n" for line in [*maker.lines, "end"])

def alike(chance):
    """A network of jobs that are much alike, so that nodes cover others."""
    jobs, resources = range(chance.randint(4, 6)), chance.randint(1, 2)
    pairs = {(a, b) for a in jobs for b in jobs if a < b and chance.random() < 0.15}
    return Network(resources, [chance.choice([1, 1, 2]) for _ in jobs], [[chance.randint(1, 2) for _ in range(resources)] for _ in jobs], pairs)


def random_order(chance, network):
    jobs = range(len(network.durations))
    release = [chance.choice([0, 0, 0, 1, 2]) for _ in jobs] if chance.random() < 0.3 else [0 for _ in jobs]
    deadline = critical_length(network, release) + chance.choice([0, 0, 1, 2, 3])
    prices = [chance.randint(0, 3) for _ in range(network.resources)]
    owned = [chance.choice([0, 0, 1, 2]) for _ in prices] if chance.random() < 0.3 else [0 for _ in prices]
    ceilings = [chance.randint(3, 9) for _ in prices] if chance.random() < 0.3 else None
    due = [deadline - chance.choice([0, 0, 0, 0, 1]) for _ in jobs] if chance.random() < 0.2 else [deadline for _ in jobs]
    return Order(deadline, prices, owned, ceilings, release, due)


def random_case(seed):
    """A network, an order, a plan and a certificate for it."""
    chance = random.Random(seed)
    while True:
        network = alike(chance) if seed % 3 == 1 else random_network(chance, 6)
        order = random_order(chance, network)
        if root_window(network, order) is None:
            continue
        try:
            made = certificate(chance, network, order, seed % 3 != 0)
        except TooManyLines:
            continue
        if made is None:
            continue
        capacities, starts, proof = made
        head = order.deadline, critical_length(network, order.release), cost_of(order, capacities)
        return Case(network, order, Plan(*head, capacities, starts), proof)


def changed_number(chance, line):
    """The line with one of its numbers changed."""
    words = line.split(" ")
    if len(words) == 1:
        return line + " 0"
    at = chance.randrange(1, len(words))
    number = int(words[at])
    words[at] = chance.choice([str(number + 1), str(max(0, number - 1)), "0", str(chance.randint(0, 12)), f"0{number}",
                               str(MOST_NUMBER), str(MOST_NUMBER + 1), "", "-1"])
    return " ".join(words)


def changed(chance, text):
    lines = text.split("\n")[:-1]
    at = chance.randrange(len(lines))
    kind = chance.choice(["drop", "double", "swap", "number", "number", "number", "letter", "name", "name", "cut", "white"])
    if kind == "drop":
        del lines[at]
    elif kind == "double":
        lines.insert(at, lines[at])
    elif kind == "swap":
        other = chance.randrange(len(lines))
        lines[at], lines[other] = lines[other], lines[at]
    elif kind == "number":
        lines[at] = changed_number(chance, lines[at])
    elif kind == "letter":
        lines[at] = chance.choice("LDCX") + lines[at][1:]
    elif kind == "name":
        named = [place for place, line in enumerate(lines) if line[0] in "LDC"]
        if named:
            lines[chance.choice(named)] = f"C {chance.randint(1, len(named))}"
    elif kind == "white":
        lines[at] = chance.choice([lines[at] + " ", lines[at] + "\r", " " + lines[at], lines[at].replace(" ", "  "), ""])
    text = "".join(line + "\n" for line in lines)
    return text[:chance.randrange(len(text) + 1)] if kind == "cut" else text


def changed_plan(chance, case):
    """The case with another plan, of which the head is right and that is right, but has more units."""
    capacities = [units + chance.choice([0, 1]) for units in case.plan.capacities]
    if case.order.ceilings is not None:
        capacities = [min(pair) for pair in zip(capacities, case.order.ceilings)]
    plan = case.plan._replace(capacities=capacities, cost=cost_of(case.order, capacities))
    return case._replace(plan=plan)
