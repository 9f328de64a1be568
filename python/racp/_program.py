"""Runs the program: texts go in as files of a folder of their own, and a text or an error comes out."""

import json
import os
import shutil
import subprocess
import tempfile
from collections.abc import Hashable, Mapping, Sequence
from pathlib import Path
from typing import Any, Callable, Optional

Progress = Optional[Callable[[dict[str, Any]], object]]  #: is called with each line of progress of docs/FORMATS.md
_MEANINGS = {"critical": ("critical", "deadline"), "order": ("before", "job"), "over": ("resource", "time"), "due": ("job",),
             "late": ("job",), "early": ("job",), "ceiling": ("resource",)}  #: what the numbers of a fault mean, by its name


class RacpError(Exception):
    """The program gave no answer of the kind that was asked for. `answer` is its whole answer, as docs/FORMATS.md says, and
    `name` the name of the fault, such as "Count" or "over". `numbers` are those of its line, and `where` has them by what they
    mean, with jobs and resources under your own keys: {"resource": "crane", "time": 14}.

    >>> try:
    ...     check(Network(["crane"], {"dig": Job(4)}), Order(3, prices=[30]), starts=[0])
    ... except RacpError as error:
    ...     error.name, error.numbers, error.where
    ('late', [1], {'job': 'dig'})"""

    def __init__(self, answer: Mapping[str, Any], where: Mapping[str, Hashable] = {}) -> None:
        self.answer, self.where = dict(answer), dict(where)
        self.name, self.numbers = str(answer.get("name") or answer["status"]), list(answer.get("numbers", []))

    def __str__(self) -> str:
        parts = (("", "says"), ("wanted: ", "wanted"), ("there: ", "found"))
        words = [f"{word}{self.answer[key]}" for word, key in parts if key in self.answer] or [self.answer["status"]]
        return "; ".join([*words, *([", ".join(f"{word} {key!r}" for word, key in self.where.items())] if self.where else [])])


class Refused(RacpError, ValueError):
    """What was given is no network, order or plan: `answer` has the "format", the "number" of the fault, and the "line"."""


class Impossible(RacpError):
    """Whatever is paid, the order cannot be met: `name` says by what, "critical", "due" or "ceiling"."""


class Fault(RacpError):
    """Starts or capacities break a rule: `name` says which, "late", "early", "order", "over", "ceiling", "cost" or "head"."""


class Unproved(RacpError):
    """This text is no certificate for the plan, or the program could make none."""


class Stopped(RacpError):
    """The limit of time came before an answer. If `answer` has a "bound", no plan costs less than that."""


class OutOfMemory(RacpError, MemoryError):
    """Memory was refused to the program."""


class ProgramError(RacpError):
    """There is no program, or something ended it, or it could not read a file."""


_ERRORS = {"refused": Refused, "impossible": Impossible, "fault": Fault, "unproved": Unproved, "stopped": Stopped,
           "memory": OutOfMemory}


def program() -> str:
    """The path of the program that runs: what the variable RACP names, or else the first of these that is there: the one in
    this package, `racp` in PATH, and the one in dist/ of the clone of the package. Raises `ProgramError` if there is none."""
    here, path = Path(__file__).resolve().parent, os.environ.get("RACP")
    clone = Path(noted.read_text(encoding="utf-8")) if (noted := here / "clone.txt").exists() else here.parents[1]
    places = [str(here / "program" / "racp"), "racp", str(clone / "dist" / "racp-x86_64-linux")]
    if found := [there for place in ([os.path.abspath(path)] if path else places) if (there := shutil.which(place))]:
        return os.path.abspath(found[0])
    raise ProgramError({"status": "no program", "says": f"there is no program {path or 'racp'}; the variable RACP can name it"})


def run(texts: Mapping[str, str], *words: str, accept: Sequence[int] = (0, 4), keys: Mapping[str, Sequence[Hashable]] = {},
        progress: Progress = None, **options: object) -> str:
    """What the program writes beside files of these texts, with options as words: time_limit=2.5 is --time-limit=2.500000000.
    Raises its error, under these keys, if its status is not in `accept`. Lines of progress are told meanwhile, on this thread.
    Whatever ends the call, Ctrl-C or an error in `progress`, ends the program too, and takes the folder away."""
    options["progress"] = progress is not None
    given = {f"--{key.replace('_', '-')}": value for key, value in options.items() if value is not None and value is not False}
    told = [name if value is True else f"{name}={value:.9f}" if isinstance(value, float) else f"{name}={value}"
            for name, value in given.items()]
    said = []
    with tempfile.TemporaryDirectory(prefix="racp-") as folder, open(Path(folder, "answer"), "wb") as answer:
        for name, text in texts.items():
            Path(folder, name).write_bytes(text.encode())
        with subprocess.Popen([program(), *words, *told], cwd=folder, stdin=subprocess.DEVNULL, stdout=answer,
                              stderr=subprocess.PIPE, encoding="utf-8", errors="replace") as child:
            try:
                for line in child.stderr or ():
                    if progress and line.startswith("{") and line.endswith("}\n"):
                        progress(json.loads(line))
                    else:
                        said.append(line.strip())
            except BaseException:
                child.kill()
                child.wait()
                raise
        output = Path(folder, "answer").read_text(encoding="utf-8", errors="replace")
    if child.returncode in accept and output.startswith("{" if "json" in options else ""):
        return output
    raise _error(child.returncode, output, " ".join(said), keys)


def _error(status: int, output: str, said: str, keys: Mapping[str, Sequence[Hashable]]) -> RacpError:
    """The error of a run: of the object that it wrote, or if it wrote none, of how it ended."""
    ended = f"racp was ended by signal {-status}" if status < 0 else f"racp ended with status {status}"
    answer = json.loads(output) if output.startswith("{") else {
        "status": {4: "unproved", 6: "memory", 8: "unproved"}.get(status, ended), "says": said or output.strip() or ended}
    meanings = zip(_MEANINGS.get(answer.get("name", ""), ()), answer.get("numbers", []))
    where = {word: keys[word][number - 1] if word in keys else number for word, number in meanings}
    return _ERRORS.get(answer["status"], ProgramError)(answer, where)
