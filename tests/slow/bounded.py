"""What the program has to give for any texts, by the slow programs of this folder, if they take few steps. Made from what
docs/FORMATS.md says of the order in which texts are read."""

import math
import re
import tomllib
import traceback

from shared import Run, Written
from slow import certificates, checker, derivations, planner, reader
from slow.networks import critical_length, early_starts
from slow.orders import read_order, refused
from slow.plans import read_plan

MOST_STEPS = 400_000
MOST_LINES = 300


class Open(Exception):
    """The slow programs do not say what is wanted, and why not."""

    def __init__(self, why):
        super().__init__(why)
        self.why = why


TOO_LARGE = Open("too much for the slow programs")
NEWER_TOML = Open("perhaps TOML 1.1, which Python does not read")
UNPROVED = Run(8, b"unproved\n", b"")

# What TOML 1.1 has and TOML 1.0 has not: inline tables of several lines or with a comma at their end, the escapes of a byte and
# of ESC, and times without seconds. A mark of the order of bytes may begin the text.
NEWER = re.compile(rb"\{|\\[ex]|[0-9]:[0-9]{2}(?!:)|\A\xef\xbb\xbf")


def order_text_of(text):
    try:
        return text.decode()
    except UnicodeDecodeError:
        raise refused("NotToml")


def order_of(network, text):
    """The order of a text, or the line of its fault."""
    try:
        return read_order(order_text_of(text), network.resources, len(network.durations))
    except Written as fault:
        if "NotToml" in fault.line and NEWER.search(text):
            raise NEWER_TOML
        raise
    except RecursionError:
        raise TOO_LARGE


def plan_of(network, text):
    return read_plan(text.decode("latin-1"), network.resources, len(network.durations))


def expect_few(*factors):
    if math.prod(factors) > MOST_STEPS:
        raise TOO_LARGE


# What each command has to give.

def cpm(text):
    reader.network_of(text)
    return reader.wanted_of(text)


def plan(net, by):
    network = reader.network_of(net)
    order = order_of(network, by)
    jobs, early = len(network.durations), early_starts(network, order.release)
    windows = [max(1, high - length - low + 1) for low, high, length in zip(early, order.due, network.durations)]
    if critical_length(network, order.release) <= order.deadline:
        expect_few(*windows, min(order.deadline, max(early) + max(windows)) + 1, jobs, network.resources)
    return planner.wanted_of(network, order_text_of(by))


def checked(network, order, read):
    """What `check` has to give."""
    ends = [start + length for start, length in zip(read.starts, network.durations)]
    if all(end <= due for end, due in zip(ends, order.due)):
        expect_few(max(ends) + 1, len(ends), network.resources)
    checker.check(network, order, read)
    return Run(0, b"ok\n", b"")


def check(net, by, made):
    network = reader.network_of(net)
    return checked(network, order_of(network, by), plan_of(network, made))


def expect_small_trees(network, order, text):
    """Few lines, jobs and times, so that the alternatives of each line can be looked at one by one."""
    lines, jobs = text.count(b"\n"), len(network.durations)
    times = max(order.release) + sum(network.durations) + 1
    if lines > MOST_LINES:
        raise TOO_LARGE
    expect_few(lines, 2 ** jobs, jobs, network.resources)
    expect_few(lines, times, jobs, network.resources)


def verify(net, by, made, proof):
    network = reader.network_of(net)
    order = order_of(network, by)
    read = plan_of(network, made)
    checked(network, order, read)
    if proof.startswith(b"proof 2\n"):
        expect_few(proof.count(b"\n"), len(network.durations), network.resources)
        return derivations.wanted_of(derivations.Case(network, order, read, proof.decode("latin-1")))
    expect_small_trees(network, order, proof)
    vectors = certificates.Reader(network, order, proof.decode("latin-1")).read()
    expect_few(*(most + 1 for most in certificates.most_units(network, order)), len(vectors) + 1, network.resources)
    return certificates.wanted_of(certificates.Case(network, order, read, proof.decode("latin-1")))


COMMANDS = {"cpm": cpm, "plan": plan, "check": check, "verify": verify}


def command_of(texts):
    """The command that reads this many texts."""
    return [*COMMANDS][len(texts) - 1]


def places_of(error):
    """The places in the slow programs, but for this one, at which an error arose, and what Python says of what is no TOML."""
    frames = traceback.extract_tb(error.__traceback__)
    places = {(frame.name, frame.lineno) for frame in frames if frame.filename != __file__}
    no_toml = error.__context__
    return frozenset(places | ({str(no_toml).split(" (at")[0]} if isinstance(no_toml, tomllib.TOMLDecodeError) else set()))


def decided(command, texts):
    """What the command has to give for these texts, and at which places of the slow programs that is decided."""
    try:
        run = COMMANDS[command](*texts)
        return run, (command, re.split(b"[ \n][0-9]", run.output)[0])
    except reader.Refused as fault:
        return reader.refusal(fault.name, fault.line), places_of(fault)
    except Written as written:
        return written.run(), places_of(written)
    except certificates.Unproved as unproved:
        return UNPROVED, places_of(unproved)
