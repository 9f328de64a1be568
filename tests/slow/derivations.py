"""A slow check of certificates by clauses: line by line over the text, with a table of bounds by name. Made from 'The certificate
by clauses' and 'racp verify' in docs/FORMATS.md."""

import collections
import re

from shared import Run
from slow.certificates import Unproved, most_units, need, root_window
from slow.networks import usage
from slow.orders import cost_of

MOST_NUMBER = 1_000_000_000_000_000

Case = collections.namedtuple("Case", "network order plan proof")

# That a variable is at least, or at most, so much.
Literal = collections.namedtuple("Literal", "variable is_least value")


def start(job):
    return "start", job


def units(resource):
    return "units", resource


COST = "cost", 0


# Lines that begin so have a number where they are spelled out.
WITH_NUMBERS = {"start", "units", "cost", "pair", "times", "energy", "request", "prices", "budget"}


def has_number(line):
    return line.split(" ")[0] in WITH_NUMBERS


def spelled_out(text):
    """The lines of a text that is right, with words in the place of numbers."""
    numbered = []
    for line in text.split("\n")[:-1]:
        words = numbered[int(line) - 1] if line.isdecimal() else line
        if words is line and has_number(line):
            numbered.append(line)
        yield words


class Derivation:
    """Bounds, literals, and whether it is closed."""

    def __init__(self, lower, upper, literals=(), closed=False):
        self.lower, self.upper = dict(lower), dict(upper)
        self.literals, self.closed = list(literals), closed

    def copy(self):
        return Derivation(self.lower, self.upper, self.literals, self.closed)

    def raise_to(self, variable, value):
        if value > self.upper[variable]:
            self.closed = True
        else:
            self.lower[variable] = max(self.lower[variable], value)

    def lower_to(self, variable, value):
        if value < self.lower[variable]:
            self.closed = True
        else:
            self.upper[variable] = min(self.upper[variable], value)

    def is_false(self, literal):
        if literal.is_least:
            return literal.value > self.upper[literal.variable]
        return literal.value < self.lower[literal.variable]


class Checker:
    """Goes through the lines of a text."""

    def __init__(self, network, order):
        self.network, self.order = network, order
        self.jobs, self.resources = range(len(network.durations)), range(network.resources)
        window = root_window(network, order)
        need(window is not None)
        most = most_units(network, order)
        lower = {start(j): window[0][j] for j in self.jobs} | {units(k): 0 for k in self.resources} | {COST: 0}
        upper = {start(j): window[1][j] for j in self.jobs} | {units(k): most[k] for k in self.resources}
        upper[COST] = cost_of(order, most)
        self.root = Derivation(lower, upper)
        self.first, self.present, self.clauses = self.root.copy(), self.root.copy(), []
        self.numbered = []

    def number(self, word):
        need(re.fullmatch(r"0|[1-9][0-9]*", word, re.ASCII))
        need(int(word) <= MOST_NUMBER)
        return int(word)

    def named(self, word, things):
        """The place of the thing with this number."""
        number = self.number(word)
        need(1 <= number <= len(things))
        return number - 1

    def line(self, line):
        if re.fullmatch(r"[0-9]+", line, re.ASCII):
            self.words(self.numbered[self.named(line, self.numbered)])
        else:
            self.words(line)
            if has_number(line):
                self.numbered.append(line)

    def words(self, line):
        """Takes a line that is spelled out."""
        words = line.split(" ")
        if words[0] in ("start", "units", "cost") and len(words) > 1:
            self.suppose(self.literal(words))
        elif line == "holds":
            need(self.present.closed)
            self.clauses.append(self.present.literals)
            self.present = self.first.copy()
        elif line == "keep":
            need(not self.present.literals)
            self.first = self.present.copy()
        else:
            counts = {"pair": 2, "times": 4, "energy": 3, "request": 2, "prices": 0, "budget": 1, "clause": 1}
            need(counts.get(words[0]) == len(words) - 1)
            getattr(self, words[0])(self.present, *words[1:])

    def literal(self, words):
        if words[0] == "cost":
            need(len(words) == 3)
            variable, sign, value = COST, words[1], words[2]
        else:
            need(len(words) == 4)
            things, variable = (self.jobs, start) if words[0] == "start" else (self.resources, units)
            variable, sign, value = variable(self.named(words[1], things)), words[2], words[3]
        need(sign in (">=", "<="))
        return Literal(variable, sign == ">=", self.number(value))

    def suppose(self, literal):
        self.present.literals.append(literal)
        if not literal.is_least:
            self.present.raise_to(literal.variable, literal.value + 1)
        elif literal.value == 0:
            self.present.closed = True
        else:
            self.present.lower_to(literal.variable, literal.value - 1)

    def pair(self, bounds, first, second):
        i, j = self.named(first, self.jobs), self.named(second, self.jobs)
        need((i, j) in self.network.pairs)
        duration = self.network.durations[i]
        bounds.raise_to(start(j), bounds.lower[start(i)] + duration)
        if bounds.upper[start(j)] < duration:
            bounds.closed = True
        else:
            bounds.lower_to(start(i), bounds.upper[start(j)] - duration)

    def times(self, bounds, job, resource, begin, end):
        j, k = self.named(job, self.jobs), self.named(resource, self.resources)
        a, b = self.number(begin), self.number(end)
        duration = self.network.durations[j]
        if a >= b or duration == 0:
            return
        used = self.network.requests[j][k]
        for i in self.jobs:
            if i != j and bounds.upper[start(i)] <= a and b <= bounds.lower[start(i)] + self.network.durations[i]:
                used += self.network.requests[i][k]
        if used <= bounds.upper[units(k)]:
            return
        before, after = bounds.lower[start(j)] + duration <= a, bounds.upper[start(j)] >= b
        if not before and not after:
            bounds.closed = True
        elif not before:
            bounds.raise_to(start(j), b)
        elif not after:
            bounds.lower_to(start(j), a - duration)

    def energy(self, bounds, resource, begin, end):
        k, a, b = self.named(resource, self.resources), self.number(begin), self.number(end)
        if a >= b:
            return
        work = 0
        for i in self.jobs:
            duration = self.network.durations[i]
            inside = min(duration, b - a, bounds.lower[start(i)] + duration - a, b - bounds.upper[start(i)])
            work += self.network.requests[i][k] * max(0, inside)
        bounds.raise_to(units(k), -(-work // (b - a)))

    def request(self, bounds, job, resource):
        j, k = self.named(job, self.jobs), self.named(resource, self.resources)
        if self.network.durations[j] > 0:
            bounds.raise_to(units(k), self.network.requests[j][k])

    def least_cost(self, bounds, without=None):
        return sum(self.order.prices[k] * max(0, bounds.lower[units(k)] - self.order.owned[k])
                   for k in self.resources if k != without)

    def prices(self, bounds):
        bounds.raise_to(COST, self.least_cost(bounds))

    def budget(self, bounds, resource):
        k = self.named(resource, self.resources)
        if self.order.prices[k] == 0:
            return
        left = bounds.upper[COST] - self.least_cost(bounds, k)
        if left < 0:
            bounds.closed = True
        else:
            bounds.lower_to(units(k), self.order.owned[k] + left // self.order.prices[k])

    def clause(self, bounds, number):
        left = [literal for literal in self.clauses[self.named(number, self.clauses)] if not bounds.is_false(literal)]
        if not left:
            bounds.closed = True
        elif len(left) == 1:
            (bounds.raise_to if left[0].is_least else bounds.lower_to)(left[0].variable, left[0].value)

    @staticmethod
    def lines(text):
        """What stands between the first line and the last one."""
        need(text.endswith("\n"))
        lines = text.split("\n")[:-1]
        need(len(lines) >= 2 and lines[0] == "proof 2" and lines[-1] == "end" and "end" not in lines[:-1])
        return lines[1:-1]

    def read(self, text):
        for line in self.lines(text):
            self.line(line)

    def read_bound(self, text):
        """The bound that a text tells."""
        lines = self.lines(text)
        need(lines)
        words = lines[0].split(" ")
        need(len(words) == 3 and words[:2] == ["at", "least"])
        least = self.number(words[2])
        for line in lines[1:]:
            self.line(line)
        return least

    def shows_least(self, least):
        """Whether a clause says of the cost alone that it is at least so much, or more."""
        return any(all(literal.variable == COST and literal.is_least and literal.value >= least for literal in clause)
                   for clause in self.clauses)

    def shows(self, plan):
        """Whether the clauses leave out all that is less than the plan."""
        order = [COST, *map(units, self.resources), *map(start, self.jobs)]
        value = {COST: cost_of(self.order, plan.capacities)}
        value |= {units(k): plan.capacities[k] for k in self.resources} | {start(j): plan.starts[j] for j in self.jobs}
        at = 0
        for turn, variable in enumerate(order):
            if self.root.lower[variable] >= value[variable]:
                continue
            before = order[:turn]
            while at < len(self.clauses) and not all(self.is_out(literal, variable, before, value) for literal in self.clauses[at]):
                at += 1
            if at == len(self.clauses):
                return False
        return True

    @staticmethod
    def is_out(literal, variable, before, value):
        if literal.variable == variable:
            return literal.is_least and literal.value >= value[variable]
        if literal.variable not in before:
            return False
        of_plan = value[literal.variable]
        return of_plan < literal.value if literal.is_least else of_plan > literal.value


def fits(network, order, plan):
    """Whether the starts fit the capacities on the order's terms, within its ceilings."""
    jobs = range(len(network.durations))
    ends = [plan.starts[j] + network.durations[j] for j in jobs]
    return (all(order.release[j] <= plan.starts[j] and ends[j] <= order.due[j] for j in jobs)
            and all(ends[i] <= plan.starts[j] for i, j in network.pairs)
            and all(usage(network, plan.starts, k, time) <= plan.capacities[k]
                    for k in range(network.resources) for time in range(max(ends)))
            and (order.ceilings is None or all(a <= b for a, b in zip(plan.capacities, order.ceilings))))


def shows_plan(network, order, plan, text):
    try:
        checker = Checker(network, order)
        checker.read(text)
    except Unproved:
        return False
    return fits(network, order, plan) and checker.shows(plan)


def bound_shown(network, order, text):
    """The bound that a text shows, or nothing."""
    try:
        checker = Checker(network, order)
        least = checker.read_bound(text)
    except Unproved:
        return None
    return least if checker.shows_least(least) else None


def wanted_bound_of(case):
    least = bound_shown(case.network, case.order, case.proof)
    return Run(8, b"unproved\n", b"") if least is None else Run(0, b"at least %d\n" % least, b"")


def wanted_of(case):
    if shows_plan(case.network, case.order, case.plan, case.proof):
        return Run(0, b"verified\n", b"")
    return Run(8, b"unproved\n", b"")
