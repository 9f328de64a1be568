"""What `racp import` makes of a table beside what slow/imports.py reads in it, and random tables."""

import contextlib
import pathlib
import random
import re
import subprocess
import tempfile
import tomllib
import unicodedata

from shared import Run, command, run
from slow import imports
from slow.mutations import BYTES
from slow.reader import network_of

SIGNS = [bytes([byte]) for byte in BYTES] + [b",", b";", b"\"", b"FS", b"SS", b"1", b"512", b"10001", b"10000001", b"\nR,1", b"Due", b"id",
                                             b"SF", b"EA", b"+2", b" 2w", b"5 d", b"1-2", b"Total", b"sep=;\n", b"Start", b"Successors",
                                             b"Walls[2]", b"50%"]

# Which of the files of a table were changed since they were written, and whether --force is given.
CHANGES = [(changed, forced) for changed in ((), ("sm",), ("names",), ("toml",), ("sm", "toml"), ("names", "toml"))
           for forced in (False, True)]

# How the table is told of to which several are joined, by the path of the network.
WHOLE = "made.sm"

FIRST = b"name,duration,Masons\nDig,3,2\n"
SECOND = b"name,duration,Masons\nDig,4,2\nWall,1,1\n"


def changed(chance, body):
    """A text with some bytes changed."""
    for _ in range(chance.choice([1, 1, 2, 4])):
        at, end = chance.randint(0, len(body)), chance.choice([0, 1, 1, 3])
        body = body[:at] + chance.choice([b"", *SIGNS]) + body[at + end:]
    return body


def made(folder, bodies, table):
    """What `import` gives for tables, with the words of an order if there can be one, and the files that it makes."""
    for name, body in bodies.items():
        (folder / name).write_bytes(body)
    prices = ",".join(["3"] * (table.network.resources if table else 1))
    words = ["import", *bodies, "--out", "made", "--prices", prices, "--deadline", "30"]
    done = subprocess.run(command(*words), cwd=folder, stdin=subprocess.DEVNULL, capture_output=True)
    return (Run(done.returncode, done.stdout, done.stderr),
            {path.name: path.read_bytes() for path in folder.iterdir() if path.name not in bodies})


def wrong_refusal(got, files, path):
    """What is wrong with what is given for tables of which the one in a file is refused, or nothing."""
    is_told = re.match(f"racp: {re.escape(path)}(:[0-9]+)?: ".encode(), got.error) and got.error.count(b"\n") == 1
    return None if got.status == 5 and not got.output and is_told and not files else f"{path} is to be refused: {got}, {sorted(files)}"


def wrong_mark(files):
    """What is wrong with the marks of files, or nothing."""
    marks = {"made.sm": f"made by racp import: {checksum(below(files['made.sm']))} {checksum(files['made.names'])}\n",
             "made.toml": f"# made by racp import: {checksum(below(files['made.toml']))}\n"}
    wrong = [name for name, mark in marks.items() if not files[name].startswith(mark.encode())]
    return f"marks of {wrong}" if wrong else None


def below(text):
    """What stands below the first line."""
    return text.partition(b"\n")[2]


def checksum(text):
    """The checksum of a text as docs/FORMATS.md says."""
    found = 0xcbf29ce484222325
    for byte in text:
        found = (found ^ byte) * 0x100000001b3 % 2 ** 64
    return f"{found:016x}"


def told_of(parts, table):
    """What is to be told of tables that are taken, by their paths, and of the one that they are joined to."""
    critical, name = table.critical(), WHOLE if len(parts) > 1 else next(iter(parts))
    lines = [f"racp: {path}: {part.understood()}" for path, part in parts.items()]
    lines += [f"racp: {WHOLE}: {table.understood()}"] if len(parts) > 1 else []
    lines += [f"racp: {path}:{line}: warning: {words}" if line else f"racp: {path}: warning: {words}"
              for path, part in parts.items() for line, words in part.warnings]
    if critical > 30:
        lines.append(f"racp: {name}: warning: the deadline 30 is before the critical length {critical}, so nothing can be planned")
    return "".join(f"{plain(line)}\n" for line in lines).encode()


def plain(line):
    """A line as it is shown: blanks for line feeds, and no other control characters."""
    return "".join(" " if sign == "\n" else sign for sign in line if sign == "\n" or unicodedata.category(sign) != "Cc")


def wrong_order(text, table):
    wanted = {"deadline": 30, "prices": [3] * table.network.resources, "release": table.earliest, "due": table.due}
    wanted = {key: value for key, value in wanted.items() if value is not None}
    if table.earliest is not None or table.due is not None:
        wanted["version"] = 2
    found = tomllib.loads(text.decode())
    return None if found == wanted and list(found) == sorted(found) else f"order {found}, wanted {wanted}"


def wrong_files(folder, got, files, parts, table):
    """What is wrong with the files of tables, or nothing."""
    if got.status != 0 or set(files) != {"made.sm", "made.names", "made.toml"}:
        return f"it is to be taken: {got}, {sorted(files)}"
    if got.error != told_of(parts, table):
        return f"told {got.error}, wanted {told_of(parts, table)}"
    found = network_of(files["made.sm"])
    if found != table.network:
        return f"network {found}, wanted {table.network}"
    if files["made.names"] != "".join(f"{line}\n" for line in table.names_lines()).encode():
        return f"names {files['made.names']}, wanted {table.names_lines()}"
    read = run("cpm", folder / "made.sm")
    planned = run("plan", folder / "made.sm", folder / "made.toml", "--turns", "1")
    if read.status != 0 or planned.status not in (0, 3, 4):
        return f"what is read of it: {read}, {planned}"
    return wrong_mark(files) or wrong_order(files["made.toml"], table)


def compared_text(name, body):
    """The name of a table, the kind of what becomes of it, and what is wrong, or nothing."""
    return compared_texts(name, {"table": body})


def compared_texts(name, bodies):
    """The name of some tables, which are told by their paths, the kind of what becomes of them, and what is wrong, or nothing."""
    with tempfile.TemporaryDirectory() as home:
        folder = pathlib.Path(home)
        parts, table, path = {}, None, WHOLE
        try:
            for path, body in bodies.items():
                parts[path] = imports.read(body)
            path = WHOLE
            table = imports.joined(list(zip(imports.labels(parts), parts.values()))) if len(parts) > 1 else parts["table"]
        except imports.Refused:
            pass
        except imports.Open:
            got, _ = made(folder, bodies, None)
            return name, "left open", None if got.status in (0, 2, 5) else f"status {got.status}"
        got, files = made(folder, bodies, table)
        if table is None:
            return name, "refused", wrong_refusal(got, files, path)
        return name, "a network", wrong_files(folder, got, files, parts, table)


def random_text(seed):
    """The text of a random table, of which mostly some bytes are changed."""
    chance = random.Random(f"tables {seed}")
    body = imports.random_table(chance).encode()
    return changed(chance, body) if chance.random() < 0.6 else body


def tried_table(chance):
    """The text of a random table; mostly of one that is taken."""
    body = b""
    for _ in range(5):
        body = imports.random_table(chance).encode()
        with contextlib.suppress(imports.Refused, imports.Open):
            imports.read(body)
            break
    return body


def random_texts(seed):
    """The texts of random tables that are joined, by their paths, of which one is changed now and then."""
    chance = random.Random(f"joined tables {seed}")
    paths = chance.sample(["a.csv", "b.csv", "b.of.csv", ".csv", "North wing.txt", "5", "# c.csv"], chance.choice([2, 2, 2, 3, 4]))
    texts = {path: tried_table(chance) for path in paths}
    if chance.random() < 0.3:
        path = chance.choice(paths)
        texts[path] = changed(chance, texts[path])
    return texts


def compared_change(change):
    """The name of a change of files that are there already, the kind of what becomes of them, and what is wrong, or nothing."""
    edited, forced = change
    with tempfile.TemporaryDirectory() as home:
        folder = pathlib.Path(home)
        words = ["import", "table", "--out", "made", "--prices", "3", "--deadline", "30"]
        _, wanted = written(folder, SECOND, words)
        _, before = written(folder, FIRST, [*words, "--force"])
        for end in edited:
            path = folder / f"made.{end}"
            path.write_bytes(path.read_bytes() + b"# by hand\n")
        before = {path.name: path.read_bytes() for path in folder.glob("made.*")}
        status, after = written(folder, SECOND, [*words, *(["--force"] if forced else [])])
    is_refused = not forced and ("sm" in edited or "names" in edited)
    if is_refused:
        wanted = before
    elif not forced and "toml" in edited:
        wanted = {**wanted, "made.toml": before["made.toml"]}
    name = f"{edited} changed{', forced' if forced else ''}"
    if status != (5 if is_refused else 0) or after != wanted:
        return name, "wrong", f"status {status}, files {after}, wanted {wanted}"
    return name, "refused" if is_refused else "replaced", None


def written(folder, body, words):
    """The status of a run for a table, and the files that are there behind it."""
    (folder / "table").write_bytes(body)
    done = subprocess.run(command(*words), cwd=folder, stdin=subprocess.DEVNULL, capture_output=True)
    return done.returncode, {path.name: path.read_bytes() for path in folder.glob("made.*")}
