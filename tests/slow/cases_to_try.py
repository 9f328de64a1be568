"""Random cases to try: stored texts, or such as the other modules make, mostly with changes in one of them or two. Made from what
docs/FORMATS.md says of the texts that each command reads."""

import collections

from slow import certificates_to_check, derivations_to_check, orders_to_plan, plans_to_check, texts_of_a_size, texts_to_read
from slow.bounded import command_of
from slow.mutations import FORMATS, PROOF, mutated
from slow.networks import FIVE_JOBS, network_text
from slow.orders import order_text
from slow.plans import plan_text

Case = collections.namedtuple("Case", "name command texts")


class Pool:
    """Entries to choose from, and for each format the texts that they have."""

    def __init__(self, entries):
        self.entries, self.texts = [], [[] for _ in FORMATS]
        for entry in entries:
            self.add(entry)

    def add(self, entry):
        self.entries.append(entry)
        for kind, text in enumerate(entry.texts):
            if text not in self.texts[kind][-50:]:
                self.texts[kind].append(text)


def made(chance):
    """The name and the texts of an entry that is made at random, and right for the most part."""
    kind = chance.choice(["network", "order", "order", "order", "plan", "plan", "certificate", "certificate", "clauses", "size"])
    if kind == "network":
        return kind, (texts_to_read.random_text(chance),)
    if kind == "order":
        network, order = orders_to_plan.random_case(chance.getrandbits(48))
        return kind, (network_text(network).encode(), order.encode())
    if kind == "plan":
        _, *texts = plans_to_check.random_case(chance.getrandbits(48))
        return kind, tuple(text.encode() for text in texts)
    if kind == "size":
        return kind, made_of_a_size(chance)
    if kind == "clauses":
        makes, case = derivations_to_check, derivations_to_check.random_derivation(chance.getrandbits(48))
    else:
        makes, case = certificates_to_check, certificates_to_check.random_case(chance.getrandbits(48))
    texts = [network_text(case.network), order_text(case.order), plan_text(case.plan), case.proof]
    if chance.random() < 0.4:
        texts[PROOF] = makes.changed(chance, case.proof)
    return kind, tuple(text.encode() for text in texts)


def made_of_a_size(chance):
    """Texts that ask for much time or memory if they are long, and are short."""
    size = chance.randint(1, 12)
    return chance.choice([(network_text(FIVE_JOBS).encode(), texts_of_a_size.nested_keys(size)),
                          texts_of_a_size.open_lines(6, size),
                          texts_of_a_size.useless_blocks(chance, chance.randint(1, 4), 3, size),
                          texts_of_a_size.odd_request(chance, chance.randint(2, 9))])


def places_to_change(chance, count):
    """Which of this many texts are changed: the last one more often than the others."""
    last = count - 1
    one = last if chance.random() < 0.5 else chance.randrange(count)
    return chance.choice([[one]] * 8 + [[one, chance.randrange(count)], []])


def random_case(chance, pool):
    """A case, whose command reads all of its texts or the first ones. Some that are made are left as they are."""
    is_stored = chance.random() < 0.5
    name, texts = chance.choice(pool.entries) if is_stored else made(chance)
    count = len(texts) if chance.random() < 0.8 else chance.randint(1, len(texts))
    texts = list(texts[:count])
    for kind in places_to_change(chance, count) if is_stored or chance.random() < 0.7 else []:
        texts[kind] = mutated(chance, kind, texts[kind], pool.texts[kind])
    return Case(name, command_of(texts), tuple(texts))
