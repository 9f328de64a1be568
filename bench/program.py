"""The program that is measured: the one that the environment variable RACP_PROGRAM names, else out/racp, which the script `racp`
makes first if it is missing or older than its sources."""

import os
import pathlib
import subprocess

ROOT = pathlib.Path(__file__).resolve().parent.parent
NAMED = os.environ.get("RACP_PROGRAM")
START = pathlib.Path(NAMED).resolve() if NAMED else ROOT / "racp"
PROGRAM = START if NAMED else ROOT / "out" / "racp"


def is_ready():
    """Whether the program can be run."""
    return subprocess.run([START, "--version"], stdout=subprocess.DEVNULL).returncode == 0
