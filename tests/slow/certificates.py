"""A slow check of certificates: line by line over the text, set by set over the alternatives of a conflict, and vector by vector
over the capacities before the plan's. Made from 'The certificate' and 'racp verify' in docs/FORMATS.md."""

import collections
import itertools
import re

from shared import Run
from slow.networks import early_starts, late_starts
from slow.orders import cost_of

MOST_NUMBER = 4_294_967_295

Node = collections.namedtuple("Node", "vector lower early time")
Case = collections.namedtuple("Case", "network order plan proof")


class Unproved(Exception):
    """The text is no certificate."""


def need(holds):
    if not holds:
        raise Unproved


def root_window(network, order):
    """The lower and the upper bounds, or nothing."""
    lower, upper = early_starts(network, order.release), late_starts(network, order.due)
    return (lower, upper) if all(low <= high for low, high in zip(lower, upper)) else None


def active(network, starts, time):
    return [j for j in range(len(starts)) if starts[j] <= time < starts[j] + network.durations[j]]


def can_run(network, vector, jobs):
    return all(sum(network.requests[j][k] for j in jobs) <= vector[k] for k in range(network.resources))


def first_conflict(network, vector, starts):
    ends = max(start + duration for start, duration in zip(starts, network.durations))
    for time in range(ends):
        if not can_run(network, vector, active(network, starts, time)):
            return time
    return None


def alternatives(network, vector, jobs):
    """The minimal delaying alternatives, in lexicographic order."""
    def delays(gone):
        return can_run(network, vector, [j for j in jobs if j not in gone])
    found = []
    for count in range(len(jobs) + 1):
        for gone in itertools.combinations(jobs, count):
            if delays(gone) and not any(delays([j for j in gone if j != other]) for other in gone):
                found.append(list(gone))
    return sorted(found)


def children(network, node):
    """The lower bounds of the children's windows."""
    jobs = active(network, node.early, node.time)
    for gone in alternatives(network, node.vector, jobs):
        stay = [j for j in jobs if j not in gone]
        if stay:
            end = min(node.early[j] + network.durations[j] for j in stay)
            yield [max(low, end) if j in gone else low for j, low in enumerate(node.lower)]


def covers(network, p, q):
    jobs = range(len(p.early))
    started = [j for j in jobs if p.early[j] < p.time]
    return (all(a >= b for a, b in zip(p.vector, q.vector)) and p.time <= q.time
            and started == [j for j in jobs if q.early[j] < q.time]
            and all(p.early[j] + network.durations[j] <= max(q.early[j] + network.durations[j], q.time) for j in started)
            and all(p.lower[j] <= max(q.time, q.lower[j]) for j in jobs if j not in started))


class Reader:
    """Reads a certificate, line by line."""

    def __init__(self, network, order, text):
        need(text.endswith("\n"))
        self.lines = text.split("\n")[:-1]
        self.network, self.root = network, root_window(network, order)
        need(self.root is not None)
        self.number, self.closed = 1, {}

    def next_line(self):
        need(self.lines)
        return self.lines.pop(0)

    def numbers(self, line, words, count):
        need(re.fullmatch(words + r"( (0|[1-9][0-9]*)){%d}" % count, line, re.ASCII))
        numbers = [int(word) for word in line.split(" ")[1:]]
        need(all(number <= MOST_NUMBER for number in numbers))
        return numbers

    def read(self):
        """The vectors of the blocks."""
        need(self.next_line() == "proof")
        vectors = []
        while (line := self.next_line()) != "end":
            vectors.append(self.numbers(line, "vector", self.network.resources))
            self.tree(vectors[-1], self.root[0])
        need(not self.lines)
        return vectors

    def tree(self, vector, lower):
        line = self.next_line()
        number, self.number = self.number, self.number + 1
        letter = line[:1]
        need(letter and letter in "LDC")
        named = self.numbers(line, letter, 1)[0]
        early = early_starts(self.network, lower)
        late = [j + 1 for j in range(len(early)) if early[j] > self.root[1][j]]
        node = Node(vector, lower, early, first_conflict(self.network, vector, early))
        if letter == "L":
            need(named in late)
        elif letter == "C":
            need(node.time is not None and named in self.closed and covers(self.network, self.closed[named], node))
        else:
            need(not late and node.time == named)
            for child in children(self.network, node):
                self.tree(vector, child)
            self.closed[number] = node


def most_units(network, order):
    roofs = [sum(request[k] for request in network.requests) for k in range(network.resources)]
    return roofs if order.ceilings is None else [min(pair) for pair in zip(roofs, order.ceilings)]


def place(order, vector):
    """Where a vector stands among all."""
    return cost_of(order, vector), list(vector)


def is_below(vector, other):
    return all(a <= b for a, b in zip(vector, other))


def is_certificate(network, order, capacities, text):
    try:
        vectors = Reader(network, order, text).read()
    except Unproved:
        return False
    boxes = itertools.product(*(range(most + 1) for most in most_units(network, order)))
    return all(any(is_below(vector, other) for other in vectors)
               for vector in boxes if place(order, vector) < place(order, capacities))


def wanted_of(case):
    if is_certificate(case.network, case.order, case.plan.capacities, case.proof):
        return Run(0, b"verified\n", b"")
    return Run(8, b"unproved\n", b"")
