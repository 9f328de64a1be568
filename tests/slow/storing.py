"""Stores cases in fuzz-corpus/, each made as small as it can be and still be decided at the same place of the slow programs."""

import itertools

from shared import EXAMPLES
from slow import answers, bounded
from slow.mutations import FORMATS
from slow.stored_texts import BASE, FOLDER


def place_of(texts):
    """The place at which the answer of the command that reads all of these texts is decided; nothing if that is left open."""
    try:
        return bounded.decided(bounded.command_of(texts), texts)[1]
    except bounded.Open:
        return None


def smaller(text, parts, between):
    """The text without some of its parts, more of them first."""
    length = len(parts)
    while length:
        for at in range(0, len(parts), length):
            other = between.join(parts[:at] + parts[at + length:])
            if other != text:
                yield other
        length //= 2


def attempts(kind, text):
    """Texts that may stand in the place of one of this format: that of examples/, and smaller ones."""
    if kind < len(BASE):
        base = (EXAMPLES / BASE[kind]).read_bytes()
        if text == base:
            return
        yield base
    yield from smaller(text, text.split(b"\n"), b"\n")
    yield from smaller(text, text.split(b" "), b" ")


def shrunk(texts):
    """The first of these texts, as few as are needed, each as small as the place allows at which their answer is decided."""
    place = place_of(texts)
    texts = next(list(texts[:count]) for count in range(1, len(texts) + 1) if place_of(texts[:count]) == place)
    for kind in range(len(texts)):
        found = True
        while found:
            found = False
            for other in attempts(kind, texts[kind]):
                if place_of([*texts[:kind], other, *texts[kind + 1:]]) == place:
                    texts[kind], found = other, True
                    break
    return texts


def store(texts):
    """Writes those texts of a case that are not those of examples/; the name that they share."""
    texts = shrunk(texts)
    command = bounded.command_of(texts)
    kind = answers.kind_of(command, bounded.decided(command, texts)[0]).lower().replace(" ", "-")
    taken = {path.stem for path in FOLDER.iterdir()}
    name = next(name for name in (f"{kind}-{number}" for number in itertools.count(1)) if name not in taken)
    for at, text in enumerate(texts):
        if at == len(texts) - 1 or text != (EXAMPLES / BASE[at]).read_bytes():
            (FOLDER / f"{name}.{FORMATS[at]}").write_bytes(text)
    return name
