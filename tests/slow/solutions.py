"""All solutions of small orders, one by one, and the clauses of a certificate beside them; and certificates with clauses of
random literals. Made from 'The certificate by clauses' in docs/FORMATS.md: a clause says that some literal of it is true of each
solution."""

import contextlib
import itertools
import random

from slow.certificates import most_units
from slow.derivations import COST, Literal, spelled_out, start, units
from slow.derivations_to_check import Maker, TooLong, random_derivation
from slow.orders import cost_of
from slow.planner import peaks, schedules

CLAUSES = 8
LITERAL = {"start": start, "units": units}


def solutions(network, order):
    """The value of each variable in each solution."""
    most = most_units(network, order)
    for starts in schedules(network, order):
        for capacities in itertools.product(*(range(low, high + 1) for low, high in zip(peaks(network, starts), most))):
            value = {start(j): time for j, time in enumerate(starts)} | {units(k): count for k, count in enumerate(capacities)}
            yield value | {COST: cost_of(order, capacities)}


def few_solutions(network, order, most):
    """All solutions, or nothing if there are more than these."""
    found = list(itertools.islice(solutions(network, order), most + 1))
    return found if len(found) <= most else None


def literal_of(words):
    if words[0] == "cost":
        return Literal(COST, words[1] == ">=", int(words[2]))
    return Literal(LITERAL[words[0]](int(words[1]) - 1), words[2] == ">=", int(words[3]))


def clauses_of(text):
    """The clauses of a certificate that is right."""
    clauses, literals = [], []
    for line in spelled_out(text):
        words = line.split(" ")
        if words[0] in ("start", "units", "cost"):
            literals.append(literal_of(words))
        elif line == "holds":
            clauses.append(literals)
            literals = []
    return clauses


def is_true(literal, value):
    return value[literal.variable] >= literal.value if literal.is_least else value[literal.variable] <= literal.value


def untrue_clause(text, values):
    """A clause of a certificate and a solution of which no literal of it is true, or nothing."""
    for clause in clauses_of(text):
        for value in values:
            if not any(is_true(literal, value) for literal in clause):
                return f"clause {clause}, solution {value}"
    return None


def with_random_clauses(seed):
    """A certificate in which clauses of two random literals come before the others, as far as they follow, each behind those that
    it follows from; or nothing if that takes too many lines."""
    chance, case = random.Random(seed), random_derivation(seed)
    maker = Maker(case.network, case.order, case.plan)
    variables = list(maker.checker.root.lower)
    try:
        for _ in range(CLAUSES):
            literals = [Literal(chance.choice(variables), is_least, chance.randrange(6)) for is_least in (True, False)]
            with contextlib.suppress(StopIteration):
                maker.derive(literals)
        return case._replace(proof=maker.text())
    except TooLong:
        return None
