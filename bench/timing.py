"""Runs a command within limits of time and memory, and tells how long it took."""

import os
import resource
import signal
import subprocess
import tempfile
import time

MOST_BYTES = 4 << 30


def timed(command, seconds, threads):
    """What a command prints, and its processor and wall seconds. The limit is of processor time for one thread, and else of
    wall time; a command that takes ten times as long from start to end is ended too. Its children end with it."""
    with tempfile.TemporaryFile("w+") as output:
        begun = time.monotonic()
        child = subprocess.Popen(command, stdout=output, stderr=subprocess.DEVNULL, start_new_session=True)
        try:
            limit(child.pid, seconds, threads)
            usage = waited(child, begun + seconds * (10 if threads == 1 else 1))
        finally:
            stop_group(child.pid)
        wall = time.monotonic() - begun
        output.seek(0)
        return output.read(), usage.ru_utime + usage.ru_stime, wall


def limit(number, seconds, threads):
    """Limits the memory of a process, and its processor time if it has one thread; its children have the same limits."""
    try:
        resource.prlimit(number, resource.RLIMIT_AS, (MOST_BYTES, MOST_BYTES))
        if threads == 1:
            resource.prlimit(number, resource.RLIMIT_CPU, (seconds, seconds + 1))
    except ProcessLookupError:
        pass


def waited(child, until):
    """What a child and its children have used when it has ended, or was ended at this time."""
    def stop(number, frame):
        os.killpg(child.pid, signal.SIGKILL)

    signal.signal(signal.SIGALRM, stop)
    signal.setitimer(signal.ITIMER_REAL, max(0.001, until - time.monotonic()))
    _, child.returncode, usage = os.wait4(child.pid, 0)
    signal.setitimer(signal.ITIMER_REAL, 0)
    return usage


def stop_group(number):
    """Ends what is left of a group of processes."""
    try:
        os.killpg(number, signal.SIGKILL)
    except ProcessLookupError:
        pass
