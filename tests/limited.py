"""Runs of the program within limits of processor time and memory, which are measured."""

import os
import resource
import signal
import subprocess
import threading

from shared import PROGRAM, Run, quiet

CPU_SECONDS = 10
MEMORY_BYTES = 1 << 30
WALL_SECONDS = 120


class Most:
    """The most seconds of processor time and bytes of memory that a run took so far, with the names of these runs."""

    def __init__(self):
        self.lock = threading.Lock()
        self.runs, self.seconds, self.bytes = 0, (0.0, ""), (0, "")

    def add(self, name, usage):
        with self.lock:
            self.runs += 1
            self.seconds = max(self.seconds, (usage.ru_utime + usage.ru_stime, name))
            self.bytes = max(self.bytes, (usage.ru_maxrss * 1024, name))

    def told(self):
        return (f"{self.runs} runs; at most {self.seconds[0]:.2f} s of processor time ({self.seconds[1]}) and "
                f"{self.bytes[0] / 2**20:.0f} MiB ({self.bytes[1]})")


def keep_limits(pid, cpu_seconds, memory_bytes):
    """Sets the limits of a process that has just begun, or has ended already."""
    try:
        resource.prlimit(pid, resource.RLIMIT_CPU, (cpu_seconds, cpu_seconds + 1))
        resource.prlimit(pid, resource.RLIMIT_AS, (memory_bytes, memory_bytes))
    except ProcessLookupError:
        pass


def run(words, most, name, cpu_seconds=CPU_SECONDS, memory_bytes=MEMORY_BYTES):
    """What the program gives for these words; the status of a run that a signal ends is less than 0. What is wrong with files
    is not told, unless the words ask for it."""
    command = [PROGRAM, *quiet(words)]
    process = subprocess.Popen(command, stdin=subprocess.DEVNULL, stdout=subprocess.PIPE, stderr=subprocess.PIPE)
    keep_limits(process.pid, cpu_seconds, memory_bytes)
    end = threading.Timer(WALL_SECONDS, process.kill)
    end.start()
    try:
        with process.stdout, process.stderr:
            output, error = process.stdout.read(), process.stderr.read()
        _, status, usage = os.wait4(process.pid, 0)
    finally:
        end.cancel()
    process.returncode = os.waitstatus_to_exitcode(status)
    most.add(name, usage)
    return Run(process.returncode, output, error)


def ended(got):
    """How a signal ended a run, or nothing."""
    if got.status >= 0:
        return None
    name = signal.Signals(-got.status).name
    return {"SIGXCPU": "it takes too much processor time", "SIGKILL": "it takes too long"}.get(name, f"it is ended by {name}")
