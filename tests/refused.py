"""Runs of a program in which one call after the other is refused, by a library that is loaded before the C library (refuse.c)."""

import os
import pathlib
import shutil
import subprocess

from shared import PROGRAM, TESTS, Run, difference, quiet

SECONDS = 60

# The kinds of calls that are refused.
MEMORY, READ, WRITE, THREAD = "m", "r", "w", "t"

# The same where each read gives one byte, or each write to standard output takes three bytes at most; with the last one a
# write takes nothing in place of being refused.
DRIP, NARROW, FULL = "d", "s", "z"
AT_MOST = 3

MEMORY_ENDS = [Run(6, b"memory\n", b""), Run(6, b"", b"memory\n")]
READ_END = Run(7, b"", b"read fault\n")
THREAD_END = Run(7, b"no thread\n", b"")


def compiled(folder):
    """The library that refuses calls, made by the toolchain that makes the program; nothing without it."""
    if shutil.which("rt") is None:
        return None
    toolchain = pathlib.Path(shutil.which("rt")).resolve().parent.parent / "toolchain"
    library = pathlib.Path(folder) / "refuse.so"
    subprocess.run([toolchain / "bin" / "clang", "--target=x86_64-unknown-linux-gnu", "--no-default-config",
                    f"--sysroot={toolchain}", f"--ld-path={toolchain}/bin/ld.lld", "-shared", "-fPIC", "-O1", "-nostdlib",
                    "-ffreestanding", "-o", library, TESTS / "refuse.c"], check=True)
    return library


def plain(words, program=PROGRAM, **more):
    """What a program gives for these words, without a standard input."""
    done = subprocess.run([program, *quiet(words)], stdin=subprocess.DEVNULL, capture_output=True, timeout=SECONDS, **more)
    return Run(done.returncode, done.stdout, done.stderr)


def run_told(library, kind, number, words, program=PROGRAM, **more):
    """What a program gives for these words with the call of this kind and number refused, and what is told of refusals."""
    told, to = os.pipe()
    env = {**os.environ, "LD_PRELOAD": str(library), "REFUSE": f"{kind}{number}", "REFUSE_TOLD": str(to)}
    try:
        got = plain(words, program, env=env, pass_fds=[to], **more)
    finally:
        os.close(to)
    with os.fdopen(told, "rb") as refusals:
        return got, refusals.read()


def run_refused(library, kind, number, words, program=PROGRAM, **more):
    """What a program gives for these words with the call of this kind and number refused, and whether one was."""
    got, told = run_told(library, kind, number, words, program, **more)
    return got, told != b""


def wrong_if_plain(wanted, status=0):
    """What is wrong with a run in which nothing is refused, or nothing."""
    return None if wanted.status == status and wanted.output and not wanted.error else f"if nothing is refused: {wanted}"


def wrong_at_end(wanted, got, number, has_calls):
    """What is wrong with the run in which the call with this number was not refused, since there was none, or nothing."""
    if has_calls and number == 1:
        return f"no call is refused: {got}"
    if not has_calls and number > 1:
        return f"a call is refused but there is none: {got}"
    return difference(wanted, got)


def wrong_if_refused(kind, wanted, got, has_threads):
    """What is wrong with a run in which a call of this kind was refused, or nothing."""
    if kind == MEMORY:
        ends = [wanted, *MEMORY_ENDS, *([THREAD_END] if has_threads else [])]
    elif kind == READ:
        ends = [READ_END]
    elif kind == THREAD:
        ends = [wanted, THREAD_END]
    else:
        ends = [Run(7, got.output, b"write fault\n")] if wanted.output.startswith(got.output) else [wanted]
    return None if got in ends else difference(ends, got)


def read_by_bytes(library):
    """The comparison of a command that reads its files byte by byte: each read is refused in turn, which names its file and is
    the last one."""
    def compared(words):
        wanted = plain(words)
        reads = [path for path in words[1:] for _ in range(path.stat().st_size + 1)]
        wrong = wrong_if_plain(wanted)
        for number, path in enumerate(reads, 1):
            got, told = run_told(library, DRIP, number, [*words, "--explain"])
            is_right = got[:2] == (7, b"") and got.error.startswith(f"racp: {path}: ".encode()) and told == b"x"
            wrong = wrong or (None if is_right else f"read {number}: {got}, told {told}")
        got, was_refused = run_refused(library, DRIP, len(reads) + 1, words)
        return f"{words[0]}, by bytes", "read fault", wrong or was_refused and "there are more reads" or difference(wanted, got)
    return compared


def written_by_threes(library):
    """The comparison of a command with writes that take three bytes: each write is refused, or takes nothing, in turn."""
    def compared(case):
        words, kind = case
        wanted = plain(words)
        length = len(wanted.output)
        wrong = wrong_if_plain(wanted)
        for number, out in enumerate(range(0, length, AT_MOST), 1):
            got = run_refused(library, kind, number, words)
            wrong = wrong or difference((Run(7, wanted.output[:out], b"write fault\n"), True), got)
        got = run_refused(library, kind, -(-length // AT_MOST) + 1, words)
        return f"{words[0]}, {kind}", "write fault", wrong or difference((wanted, False), got)
    return compared


def little_by_workers(library):
    """The comparison of a plan by workers, read byte by byte and written in three bytes at a time."""
    def compared(words):
        wanted = plain(words)
        got = [run_refused(library, kind, 10**6, words) for kind in (DRIP, NARROW)]
        return " ".join(words[-2:]), "a plan", wrong_if_plain(wanted) or difference([(wanted, False)] * 2, got)
    return compared


def told_as_object(library):
    """The comparison of what is refused with the object of `--json` that tells it."""
    def compared(case):
        kind, words, wanted = case
        return wanted.output.decode().strip(), "an object", difference((wanted, True), run_refused(library, kind, 1, words))
    return compared
