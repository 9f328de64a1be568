"""Certificates by clauses to check: of each variable in turn that no solution is less by it, by rules and, where they do not
suffice, by halving; lines may be named by their numbers; and then something may be changed. Made from 'The certificate by clauses' in docs/FORMATS.md."""

import random

from slow.certificates import root_window
from slow.certificates_to_check import random_order
from slow.derivations import COST, Case, Checker, Literal, has_number, start, units
from slow.networks import critical_length, random_network
from slow.orders import cost_of
from slow.planner import peaks, schedules
from slow.plans import Plan

MOST_LINES = 3000


class TooLong(Exception):
    """The text has too many lines."""


def literal_words(literal):
    kind, place = literal.variable
    name = "cost" if literal.variable == COST else f"{kind} {place + 1}"
    return f"{name} {'>=' if literal.is_least else '<='} {literal.value}"


class Maker:
    """Writes clauses, line by line as a checker takes them."""

    def __init__(self, network, order, plan):
        self.checker, self.plan, self.lines = Checker(network, order), plan, ["proof 2"]
        self.steps = [f"pair {i + 1} {j + 1}" for i, j in sorted(network.pairs)] + ["prices"]
        self.steps += [f"budget {k + 1}" for k in range(network.resources)]
        self.steps += [f"request {j + 1} {k + 1}" for j in range(len(network.durations)) for k in range(network.resources)]
        due = range(max(order.due))
        self.steps += [f"energy {k + 1} {a} {b}" for k in range(network.resources) for a in due for b in range(a + 1, max(order.due) + 1)]
        self.steps += [f"times {j + 1} {k + 1} {t} {t + 1}" for j in range(len(network.durations))
                       for k in range(network.resources) for t in due]

    def narrow(self, present):
        """Takes all steps until nothing changes; those that did something."""
        taken, changed = [], True
        while changed and not present.closed:
            changed = False
            for step in self.steps + [f"clause {n + 1}" for n in range(len(self.checker.clauses))]:
                before = present.copy()
                words = step.split(" ")
                getattr(self.checker, words[0])(present, *words[1:])
                if present.closed or (before.lower, before.upper) != (present.lower, present.upper):
                    taken.append(step)
                    changed = True
                if present.closed:
                    break
        return taken

    def derive(self, literals):
        """Writes the derivation of a clause, after those of two others where it has to be halved."""
        checker = self.checker
        for literal in literals:
            checker.suppose(literal)
        present, checker.present = checker.present, checker.first.copy()
        steps = self.narrow(present)
        if not present.closed:
            variable = next(x for x in present.lower if present.lower[x] < present.upper[x])
            middle = (present.lower[variable] + present.upper[variable]) // 2
            self.derive([*literals, Literal(variable, True, middle + 1)])
            self.derive([*literals, Literal(variable, False, middle)])
            count = len(checker.clauses)
            steps = [*steps, f"clause {count - 1}", f"clause {count}"]
        self.lines += [*map(literal_words, literals), *steps, "holds"]
        if len(self.lines) > MOST_LINES:
            raise TooLong
        checker.clauses.append(list(literals))

    def bound(self, least):
        """A text that shows that each plan costs at least so much."""
        self.derive([Literal(COST, True, least)])
        return "".join(line + "\n" for line in [self.lines[0], f"at least {least}", *self.lines[1:], "end"])

    def text(self):
        checker, plan = self.checker, self.plan
        turns = [(COST, cost_of(checker.order, plan.capacities))]
        turns += [(units(k), plan.capacities[k]) for k in checker.resources]
        turns += [(start(j), plan.starts[j]) for j in checker.jobs]
        earlier = []
        for variable, value in turns:
            if checker.root.lower[variable] < value:
                self.derive([*earlier, Literal(variable, True, value)])
            earlier.append(Literal(variable, True, value + 1))
        return "".join(line + "\n" for line in [*self.lines, "end"])


def plan_of(network, order):
    """The plan by definition, or nothing."""
    found = None
    for starts in schedules(network, order):
        least = peaks(network, starts)
        if order.ceilings is None or all(a <= b for a, b in zip(least, order.ceilings)):
            place = cost_of(order, least), least, starts
            if found is None or place < found:
                found = place
    if found is None:
        return None
    cost, capacities, starts = found
    return Plan(order.deadline, critical_length(network, order.release), cost, capacities, starts)


def random_derivation(seed):
    """A network, an order, its plan and a certificate for it."""
    return random_case(random.Random(seed), lambda chance, maker: maker.text())


def random_bound(seed):
    """A network, an order, its plan, and a certificate of what it costs at least, which is its cost or less."""
    return random_case(random.Random(seed), lambda chance, maker: maker.bound(chance.choice([maker.plan.cost, chance.randint(0, maker.plan.cost)])))


def random_case(chance, text_by):
    while True:
        network = random_network(chance, 4)
        order = random_order(chance, network)
        if root_window(network, order) is None or max(order.due) > 12 or max(order.due) == 0:
            continue
        plan = plan_of(network, order)
        if plan is None:
            continue
        try:
            return Case(network, order, plan, text_by(chance, Maker(network, order, plan)))
        except TooLong:
            continue


def with_numbers(chance, text):
    """A text with numbers in the place of lines that were spelled out before: of all, or of about half."""
    share = chance.choice([0.5, 1])
    count, numbers, lines = 0, {}, []
    for line in text.split("\n")[:-1]:
        if line in numbers and chance.random() < share:
            lines.append(str(chance.choice(numbers[line])))
        else:
            lines.append(line)
            if has_number(line):
                count += 1
                numbers.setdefault(line, []).append(count)
    return "".join(line + "\n" for line in lines)


def changed(chance, text):
    """A text with a line left out, doubled, exchanged with the next one, or with another number or word, or cut."""
    lines = text.split("\n")[:-1]
    at = chance.randrange(len(lines))
    kind = chance.randrange(6)
    if kind == 0:
        del lines[at]
    elif kind == 1:
        lines.insert(at, lines[at])
    elif kind == 2:
        lines[at:at + 2] = lines[at:at + 2][::-1]
    elif kind == 3:
        words = lines[at].split(" ")
        place = chance.randrange(len(words))
        if words[place].isdigit():
            words[place] = str(max(0, int(words[place]) + chance.choice([-2, -1, 1, 2, 10**16])))
        else:
            words[place] = chance.choice(["start", "units", "cost", ">=", "<=", "pair", "times", "energy", "clause", "holds", "keep", "at", "least", ""])
        lines[at] = " ".join(words)
    elif kind == 4:
        lines.insert(at, chance.choice(["keep", "holds", "prices", "clause 1", "cost >= 0", "", "0", "1", "2", "02", "9"]))
    else:
        return text[:chance.randrange(len(text))]
    return "".join(line + "\n" for line in lines)
