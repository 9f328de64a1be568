"""What the scripts of this folder share: which program is tested, runs of it, and comparisons of many cases.

The environment variable RACP_PROGRAM names the program. Without it that is out/racp, which the script `racp` makes first if it
is missing or older than its sources."""

import collections
import concurrent.futures
import contextlib
import itertools
import os
import pathlib
import re
import subprocess
import sys
import tempfile
import time

ROOT = pathlib.Path(__file__).resolve().parent.parent
TESTS = ROOT / "tests"
EXAMPLES = ROOT / "examples"
NAMED = os.environ.get("RACP_PROGRAM")
START = pathlib.Path(NAMED).resolve() if NAMED else ROOT / "racp"
PROGRAM = START if NAMED else ROOT / "out" / "racp"
RUNS_AT_ONCE = 4

# Of the cases of each group the first and then every so many-th one is looked at: all, unless this variable says other, as
# `./test quick` does for the comparisons that take longest.
EVERY = int(os.environ.get("EVERY", "1"))

# Charts are as wide as this variable says; here they have the width that counts without it.
os.environ.pop("COLUMNS", None)

# The commands that tell on standard error what is wrong with the files that they read.
TELLING = ["cpm", "plan", "prove", "check", "verify", "show", "curve", "whatif", "batch", "order"]

# What a run of the program gives, or has to give.
Run = collections.namedtuple("Run", "status output error")


class Written(Exception):
    """The line that is written, and the status that belongs to it."""

    def __init__(self, line, status):
        super().__init__(line, status)
        self.line, self.status = line, status

    def run(self):
        return Run(self.status, f"{self.line}\n".encode(), b"")


# Runs of the program.

def is_ready():
    """Whether the program can be run. If RACP_PROGRAM names none, it is built first if that has to be."""
    try:
        return subprocess.run([START, "--version"], stdout=subprocess.DEVNULL).returncode == 0
    except OSError as error:
        print(error)
        return False


def quiet(words):
    """The words of a command, with `--quiet` if the command reads files and the words do not ask for more."""
    if words and words[0] in TELLING and not {"--explain", "--quiet", "--help"} & set(words):
        return (words[0], "--quiet", *words[1:])
    return words


def command(*words, seconds=10, within=()):
    """The command that runs the program with these words, and ends it if it takes longer; the words `within` stand before the
    program, as those of a command that runs it. What is wrong with files is not told, unless the words ask for it."""
    return ["timeout", str(seconds), *within, PROGRAM, *quiet(words)]


def run(*words, text=b"", seconds=10, within=()):
    """What the program gives for these words, with this text as its standard input."""
    done = subprocess.run(command(*words, seconds=seconds, within=within), input=text, capture_output=True)
    return Run(done.returncode, done.stdout, done.stderr)


@contextlib.contextmanager
def files(*texts):
    """The paths of files with these texts, which are there as long as the block runs."""
    with tempfile.TemporaryDirectory() as folder:
        paths = [pathlib.Path(folder) / str(number) for number in range(len(texts))]
        for path, text in zip(paths, texts):
            path.write_bytes(text)
        yield paths


@contextlib.contextmanager
def generated(jobs, seed, factor):
    """The paths of a network and an order that bench/generate writes."""
    with files(b"", b"") as paths:
        subprocess.run([ROOT / "bench" / "generate", str(jobs), str(seed), factor, *paths], check=True)
        yield paths


# Comparisons.

def difference(wanted, got):
    """What is wrong with what a run gives, or nothing."""
    return None if got == wanted else f"wanted:  {wanted}\n  written: {got}"


def beginning(wanted):
    """The words that are written before the first number."""
    return re.split(r" [0-9]", wanted.output.decode())[0].strip()


def broken(text):
    """A text up to each of its bytes, and with each of its bytes as an `x`, with names."""
    for at in range(len(text) + 1):
        yield f"up to byte {at}", text[:at]
    for at in range(len(text)):
        yield f"byte {at} as x", text[:at] + "x" + text[at + 1:]


def compare(group, compared, cases, least=None, every=EVERY):
    """Looks at the cases of a group, several at a time: `compared` gives the name of a case, the kind of answer that is
    wanted, and what is wrong, or nothing. Prints what is wrong; how many passed and how many failed. It is a failure too if there
    are fewer cases of a kind than `least` says, where all are looked at."""
    began = time.perf_counter()
    kinds = collections.Counter()
    failed = 0
    with concurrent.futures.ThreadPoolExecutor(RUNS_AT_ONCE) as runs:
        for name, kind, wrong in runs.map(compared, itertools.islice(cases, 0, None, every)):
            kinds[kind] += 1
            if wrong is not None:
                failed += 1
                print(f"failed: {name}\n  {wrong}")
    share = "" if every == 1 else f", of which every {every}th is looked at"
    print(f"{group}{share}: {failed} of {kinds.total()} differ; {time.perf_counter() - began:.1f} s")
    print("  wanted: " + ", ".join(f"{kind} {count}" for kind, count in kinds.most_common()))
    few = [kind for kind, count in (least or {}).items() if kinds[kind] < count and every == 1]
    for kind in few:
        print(f"failed: {group}: {kinds[kind]} cases of {kind}, fewer than {least[kind]}")
    return kinds.total() - failed, failed + len(few)


def main(comparisons, usual=None):
    """Makes comparisons once the program is there, and prints the last line. With a usual number of random cases, they are
    made of that many, or of as many as the command line says. The status of the script."""
    words = sys.argv[1:]
    if len(words) > (usual is not None) or not all(word.isdecimal() for word in words):
        print(f"usage: {sys.argv[0]}" + ("" if usual is None else " [NUMBER OF RANDOM CASES]"), file=sys.stderr)
        return 2
    if not is_ready():
        print("0 passed, 1 failed")
        return 1
    numbers = [] if usual is None else [int(words[0]) if words else usual]
    passed, failed = (sum(counts) for counts in zip(*comparisons(*numbers)))
    print(f"{passed} passed, {failed} failed")
    return 0 if passed > 0 and failed == 0 else 1
