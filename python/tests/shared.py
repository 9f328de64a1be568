"""What the tests share: a small house, a project that takes long to plan, and folders."""

import contextlib
import os
import random
import tempfile
import unittest
from pathlib import Path

import racp

ROOT = Path(__file__).resolve().parents[2]
EXAMPLES = ROOT / "examples"
PRICES = {"mason": 9, "crane": 30}


def house():
    """Four jobs and two resources; its critical length is 10."""
    network = racp.Network(["mason", "crane"])
    network.add("dig", 4, needs={"crane": 1})
    network.add("walls", 6, after=["dig"], needs={"mason": 3, "crane": 1})
    network.add("wiring", 5, after=["dig"], needs={"mason": 2})
    network.add("done", 0, after=["walls", "wiring"])
    return network


def large():
    """A network and an order whose cheapest plan takes far longer than any test."""
    draw = random.Random(7)
    network = racp.Network(range(4))
    for key in range(150):
        before = {draw.randrange(max(0, key - 8), key) for _ in range(2)} if key else ()
        network.add(key, draw.randint(1, 10), needs={resource: draw.randint(0, 10) for resource in range(4)}, after=before)
    return network, racp.Order(racp.critical(network)[0] * 3 // 2, [3, 5, 4, 7])


@contextlib.contextmanager
def own_folder():
    """A folder with a blank and an umlaut in its name, in which all folders of runs are made as long as the block runs."""
    before = tempfile.tempdir
    with tempfile.TemporaryDirectory(prefix="für Läufe ") as folder:
        tempfile.tempdir = folder
        try:
            yield Path(folder)
        finally:
            tempfile.tempdir = before


@contextlib.contextmanager
def environment(**values):
    """Variables of the environment, which have these values as long as the block runs; None takes one away."""
    before = dict(os.environ)
    for name, value in values.items():
        os.environ.pop(name, None) if value is None else os.environ.update({name: value})
    try:
        yield
    finally:
        os.environ.clear()
        os.environ.update(before)


def module(name):
    """A module that may be missing; then the test is skipped, and says so."""
    try:
        return __import__(name)
    except ModuleNotFoundError:
        raise unittest.SkipTest(f"{name} is not installed") from None
