"""Steps of rules to check, each within the bounds that literals and the steps before it leave, and derivations that hold after just
the bounds that slow rules leave. Made from 'The certificate by clauses' in docs/FORMATS.md."""

import collections
import random

from slow.derivations import Checker, Literal, wanted_of
from slow.derivations_to_check import literal_words, random_derivation
from slow.rules import Rules

MOST_STEPS = 5
TRIES = 30
LAST = 7

# A step: the certificate that its derivations join, whether it moves a bound, leaves nothing, or is in vain, and derivations
# that hold after it, and that do not, each a list of lines.
Step = collections.namedtuple("Step", "case kind right wrong")


def random_literals(chance, bounds):
    """Literals that narrow the bounds, and the bounds that they leave."""
    literals, left = [], dict(bounds)
    for variable, (low, high) in bounds.items():
        kind = chance.randrange(3)
        if low == high or kind == 2:
            continue
        value = chance.randrange(low, high)
        literals.append(Literal(variable, kind == 1, value + kind))
        left[variable] = (low, value) if kind == 1 else (value + 1, high)
    return literals, left


def random_words(chance, network):
    """The name and the numbers of a rule, and the line that takes it."""
    job, resource = chance.randrange(len(network.durations)), chance.randrange(network.resources)
    begin = chance.randrange(LAST)
    times = begin, begin + chance.randint(1, 3)
    rules = [("times", (job, resource, *times), (1, 1, 0, 0)), ("energy", (resource, *times), (1, 0, 0)),
             ("request", (job, resource), (1, 1)), ("prices", (), ()), ("budget", (resource,), (1,))]
    if network.pairs:
        rules.append(("pair", chance.choice(sorted(network.pairs)), (1, 1)))
    name, numbers, first = chance.choice(rules)
    return name, numbers, " ".join([name, *(str(number + one) for number, one in zip(numbers, first))])


def random_step(chance, network, order, bounds):
    """The line of a rule, and the ranges that are left of the variables that it moves; mostly of one that moves a bound."""
    for _ in range(chance.choice([1, TRIES])):
        name, numbers, line = random_words(chance, network)
        moved = getattr(Rules(network, order, bounds), name)(*numbers)
        if any(bounds[variable] != left for variable, left in moved.items()):
            break
    return line, moved


def beside(lines, variable, low, high):
    """Derivations that hold if the range of a variable is this one, and such that hold only if it is less."""
    within = [*lines, literal_words(Literal(variable, True, low))], [*lines, literal_words(Literal(variable, False, high))]
    less = [[*lines, literal_words(Literal(variable, True, low + 1))]]
    return within, less + ([[*lines, literal_words(Literal(variable, False, high - 1))]] if high > 0 else [])


def step_of(case, lines, line, bounds, moved):
    """The step that a line takes after others, where these ranges are left of the variables that it moves."""
    if None in moved.values():
        return Step(case, "nothing is left", [[*lines, line]], [lines])
    kind = "in vain" if all(bounds[variable] == left for variable, left in moved.items()) else "moves a bound"
    right, wrong = [], []
    for variable, (low, high) in moved.items():
        within, less = beside([*lines, line], variable, low, high)
        right += within
        wrong += less
    return Step(case, kind, right, wrong)


def random_steps(seed):
    """A few steps for the network and the order of a certificate that is right."""
    chance, case = random.Random(seed), random_derivation(seed)
    if wanted_of(case).status != 0:
        return
    root = Checker(case.network, case.order).root
    literals, bounds = random_literals(chance, {variable: (root.lower[variable], root.upper[variable]) for variable in root.lower})
    lines = [literal_words(literal) for literal in literals]
    for _ in range(MOST_STEPS):
        line, moved = random_step(chance, case.network, case.order, bounds)
        yield step_of(case, lines, line, bounds, moved)
        if None in moved.values():
            return
        lines, bounds = [*lines, line], {**bounds, **moved}


def with_derivations(case, derivations):
    """The case with further derivations at the end of its certificate, each of which is to hold."""
    lines = [line for derivation in derivations for line in [*derivation, "holds"]]
    return case._replace(proof=case.proof.removesuffix("end\n") + "".join(line + "\n" for line in [*lines, "end"]))
