"""Tables of 16 MiB, as long as a text may be, and what `racp import` makes of them."""

import pathlib
import tempfile

import limited
from shared import compare

MOST_BYTES = 16 << 20
# Twice as much as such a table is to take, since other runs go on beside it.
CPU_SECONDS = 6


def filled(beginning, filler, end=b""):
    """A text as long as one may be, of a filler between a beginning and an end."""
    count = (MOST_BYTES - len(beginning) - len(end)) // len(filler)
    return beginning + filler * count + end


def tables():
    """Tables with their names, the status and what has to be told."""
    head = b"Name,Duration,Masons\n"
    links = b"".join(b"T%d,1,1," % i + b"1 2;" * 8_180 + b"1\n" for i in range(1, 512))
    yield "rows of blanks", filled(head + b"Walls,1,1\n", b",\n"), 0, b"1 task,"
    yield "rows of tasks", filled(head, b"T,1,1\n"), 5, b"there are more than 512 tasks"
    yield "a long name", filled(head, b"A", b",1,1\n"), 0, b"1 task,"
    yield "a long cell in quotes", filled(head + b'"Walls', b"\n", b'",1,1\n'), 0, b"1 task,"
    yield "columns", filled(b"Name,Duration", b",c", b"\n"), 5, b"there are more than 1000 columns"
    yield "links", b"Name,Duration,Masons,Predecessors\n" + links, 5, b"more than 1000000 words"
    name = b"A" * (MOST_BYTES // 2 - 100)
    yield "a long word beside a long name", b"Name,Duration,Masons,Predecessors\n" + name + b",1,1,\nWalls,1,1," + name + b"A\n", 5, b"AAA ..' is no task"
    yield "names of resources", filled(b"Name,Duration,Resource Names\nWalls,1,", b"N;"), 5, b"more than 1000000 words"


def compared(folder, most, table):
    """The name of a table, the kind of its answer, and what is wrong, or nothing."""
    name, body, status, told = table
    path = pathlib.Path(folder) / f"{name}.csv"
    path.write_bytes(body)
    words = ["import", path, "--out", pathlib.Path(folder) / name]
    got = limited.run([str(word) for word in words], most, name, cpu_seconds=CPU_SECONDS)
    wrong = limited.ended(got) or (f"status {got.status}" if got.status != status else None)
    if wrong is None and told not in got.error:
        wrong = f"{told!r} is not told, but {got.error[:200]!r}"
    return name, "refused" if status else "a network", wrong


def comparison():
    """Compares them all; how many passed and how many failed."""
    most = limited.Most()
    with tempfile.TemporaryDirectory() as folder:
        counts = compare("tables of 16 MiB", lambda table: compared(folder, most, table), tables(), every=1)
    print(f"  {most.told()}")
    return counts
