"""Stored texts to begin with: those that the cases of the commands name, those of examples/ and those of fuzz-corpus/. An entry
has a network, or a network and an order, or these and a plan, or these and a certificate."""

import collections

from shared import EXAMPLES, TESTS
from slow.mutations import FORMATS, MOST_BYTES

Entry = collections.namedtuple("Entry", "name texts")

FOLDER = TESTS / "fuzz-corpus"

# The texts of examples/ that stand for those that an entry of fuzz-corpus/ has not.
BASE = ["a.sm", "a4.toml", "a4.plan"]

# How many texts a command reads.
READS = {"cpm": 1, "order": 1, "plan": 2, "prove": 2, "curve": 2, "check": 3, "show": 3, "verify": 4}


def entry_of(name, paths):
    """The texts of files, if all are there and none is long."""
    if not paths or not all(path.is_file() for path in paths):
        return []
    texts = tuple(path.read_bytes() for path in paths)
    return [Entry(name, texts)] if max(map(len, texts)) <= MOST_BYTES else []


def of_cases():
    for words in sorted(TESTS.glob("*/*/words")):
        command, *others = words.read_text(errors="replace").splitlines() or [""]
        if command not in READS:
            continue
        paths = [words.parent / word for word in others if word and word[0] not in "-/"][:READS[command]]
        if (words.parent / "stdin-from").exists():
            paths = [words.parent / (words.parent / "stdin-from").read_text().strip()]
        if len(paths) == READS[command]:
            yield from entry_of(f"{command}/{words.parent.name}", paths)


def of_examples():
    """The orders of examples/, with their plans and certificates; `a5-due.toml` is one for `a.sm`."""
    for order in sorted(EXAMPLES.glob("*.toml")):
        paths = [EXAMPLES / f"{order.name[0]}.sm", order, order.with_suffix(".plan"), order.with_suffix(".proof")]
        yield from entry_of(f"examples/{order.stem}", [path for path in paths if path.exists()])


def of_folder():
    """The entries of fuzz-corpus/. The texts of one share their name before the point."""
    for name in sorted({path.stem for path in FOLDER.glob("*.*")}):
        paths = [FOLDER / f"{name}.{kind}" for kind in FORMATS]
        count = max(at for at, path in enumerate(paths) if path.exists()) + 1
        paths = [path if path.exists() else EXAMPLES / BASE[at] for at, path in enumerate(paths[:count])]
        yield from entry_of(f"{FOLDER.name}/{name}", paths)


def stored():
    """All entries, and what these begin with, each once."""
    found = {}
    for name, texts in [*of_cases(), *of_examples(), *of_folder()]:
        found.setdefault(texts, Entry(name, texts))
        for count in range(1, len(texts)):
            found.setdefault(texts[:count], Entry(f"{name}, {count} of its texts", texts[:count]))
    return list(found.values())
