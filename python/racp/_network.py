"""What the program is given: networks of jobs, orders, and calendars."""

from __future__ import annotations

import csv
import json
from collections.abc import Collection, Hashable, Iterable, Iterator, Mapping, Sequence
from dataclasses import dataclass, field
from datetime import date, timedelta
from itertools import count, islice
from operator import index
from pathlib import Path
from typing import Any, Union

from ._program import run

Values = Union[Mapping[Any, int], Sequence[int]]  #: whole numbers under keys, or in the order of the network
MOST = 10_000_000  #: the greatest time, and the greatest number of units


@dataclass(frozen=True)
class Job:
    """A job takes `duration` time units, 0 to 10,000, needs the units `needs` meanwhile, and comes after the jobs `after`."""

    duration: int
    needs: Mapping[Hashable, int] = field(default_factory=dict)
    after: tuple[Hashable, ...] = ()


class Network:
    """A project: up to 512 jobs and 16 resources, each under a key of your choice, which is a name or anything hashable.

    >>> Network.from_lists([4, 6], needs=[[0, 1], [3, 1]], after=[[], [0]]).jobs[1], Network.read("examples/a.sm")
    (Job(duration=6, needs={0: 3, 1: 1}, after=(0,)), <Network of 5 jobs and 1 resources>)"""

    def __init__(self, resources: Iterable[Hashable], jobs: Mapping[Any, Job] | None = None) -> None:
        self.resources: tuple[Hashable, ...] = tuple(dict.fromkeys(resources))
        self.jobs: dict[Hashable, Job] = dict(jobs or {})

    def add(self, key: Hashable, duration: int, *, needs: Mapping[Any, int] | None = None,
            after: Iterable[Hashable] = ()) -> None:
        """One job more (see `Job`); those of `after` may follow later. Raises ValueError if the key is taken, or the job needs
        what is no resource. All other rules are the program's, which refuses the network when it is first used."""
        if key in self.jobs:
            raise ValueError(f"there is a job {key!r} already")
        if other := [resource for resource in needs or {} if resource not in self.resources]:
            raise ValueError(f"job {key!r} needs {other[0]!r}, and there is no such resource")
        self.jobs[key] = Job(duration, dict(needs or {}), (after,) if isinstance(after, str) else tuple(after))

    @classmethod
    def from_lists(cls, durations: Sequence[int], needs: Sequence[Sequence[int]], after: Sequence[Iterable[int]]) -> Network:
        """A network of lists with an element for each job. Jobs and resources have their places in these, from 0, as keys.
        Raises ValueError if the lists are not of the same length."""
        if not len(durations) == len(needs) == len(after):
            raise ValueError(f"there are {len(durations)} durations, {len(needs)} needs and {len(after)} lists of jobs before")
        jobs = (Job(length, dict(enumerate(needed)), tuple(before)) for length, needed, before in zip(durations, needs, after))
        return cls(range(max(map(len, needs), default=0)), dict(enumerate(jobs)))

    @classmethod
    def from_networkx(cls, graph: Any, *, duration: str = "duration", needs: str = "needs") -> Network:
        """The nodes of a networkx.DiGraph as jobs, and its edges as pairs of which one comes before the other. Each node has
        its duration, and perhaps a mapping from resources to units, under these names. Raises KeyError without a duration."""
        jobs = {key: Job(node[duration], dict(node.get(needs, {})), tuple(graph.predecessors(key)))
                for key, node in graph.nodes(data=True)}
        return cls((resource for job in jobs.values() for resource in job.needs), jobs)

    @classmethod
    def read(cls, path: str | Path) -> Network:
        """The network of a file of PSPLIB, .sm. Jobs and resources have their numbers, from 1, as keys.
        Raises `Refused` if the program takes the text for no network, and FileNotFoundError."""
        file = str(Path(path).resolve(strict=True))
        early = json.loads(run({}, "cpm", file, json=True))
        [row] = csv.DictReader(run({}, "batch", file, factors=1, time_limit=1e-9).split("\n"))
        resources, length = range(1, 1 + int(row["resources"])), early["critical"]
        texts = {"order": f"deadline = {length}\nprices = {[0 for _ in resources]}\n",
                 "plan": plan_text(length, length, 0, [MOST for _ in resources], early["starts"])}
        jobs = {job["job"]: Job(job["duration"], {key: units for key, units in enumerate(job["requests"], 1) if units},
                                tuple(job["predecessors"]))
                for job in json.loads(run(texts, "show", file, *texts, json=True))["jobs"]}
        return cls(resources, jobs)

    def text(self) -> str:
        """What `racp` reads: jobs by their numbers, as PSPLIB has them. Raises ValueError if one comes after what is no job."""
        followers: dict[Hashable, list[int]] = {key: [] for key in self.jobs}
        for number, (key, job) in enumerate(self.jobs.items(), 1):
            for before in dict.fromkeys(job.after):
                if before not in followers:
                    raise ValueError(f"job {key!r} comes after {before!r}, and there is no such job")
                followers[before].append(number)
        arcs = [(number, 1, len(after), *after) for number, after in enumerate(followers.values(), 1)]
        needs = [(number, 1, job.duration, *(job.needs.get(resource, 0) for resource in self.resources))
                 for number, job in enumerate(self.jobs.values(), 1)]
        return _lines([("jobs:", len(arcs)), ("- renewable:", len(self.resources)), ("PRECEDENCE RELATIONS:",), (), *arcs,
                       ("REQUESTS/DURATIONS:",), (), *needs])

    def __repr__(self) -> str:
        return f"<Network of {len(self.jobs)} jobs and {len(self.resources)} resources>"


@dataclass(frozen=True)
class Order:
    """What a plan has to keep: the project ends by the `deadline`, and a unit of each resource has a price of `prices`. Values
    are mappings from your keys, or lists in the order of the network. A mapping of the others may leave keys out: units that
    are `owned` cost nothing (else 0); of a resource there are at most `ceiling` units, owned ones among them (else any number);
    a job starts at its time of `release` or later (else 0), and ends by its `due` time (else by the deadline). Times and units
    are whole numbers up to 10,000,000, prices up to 1,000,000.

    >>> Order(deadline=9, prices={"crane": 30}).text(Network(["crane"], {"dig": Job(4, {"crane": 2})})).splitlines()
    ['deadline = 9', 'prices = [30]']"""

    deadline: int
    prices: Values
    owned: Values | None = None
    ceiling: Values | None = None
    release: Values | None = None
    due: Values | None = None

    def text(self, network: Network) -> str:
        """What `racp` reads, in TOML. Raises ValueError for keys that the network has not, and prices left out."""
        terms = (("prices", network.resources, None), ("owned", network.resources, 0), ("ceiling", network.resources, MOST),
                 ("release", network.jobs, 0), ("due", network.jobs, MOST))
        rows = [(f"{name} =", [*keyed(keys, values, name, default).values()]) for name, keys, default in terms
                if (values := getattr(self, name)) is not None]
        return _lines([*[("version =", 2)] * (len(rows) > 1), ("deadline =", self.deadline), *rows])


def keyed(keys: Collection[Hashable], values: Values | None, what: str, default: int | None = None) -> dict[Hashable, int]:
    """A value for each key, the default where a mapping has none. Raises ValueError, or TypeError for no whole number."""
    values = {} if values is None else values
    given = values if isinstance(values, Mapping) else dict(zip(keys, values))
    wrong = [f"{len(values)} values, and not {len(keys)}"] if given is not values and len(values) != len(keys) else []
    wrong += [f"a value for {key!r}, which the network has not" for key in given if key not in keys]
    wrong += [f"no value for {key!r}" for key in keys if key not in given and default is None]
    if wrong:
        raise ValueError(f"{what} has {wrong[0]}")
    return {key: index(given.get(key, default or 0)) for key in keys}


def plan_text(deadline: int, critical: int, cost: int, capacity: Iterable[int], starts: Iterable[int]) -> str:
    """The text of a plan, as docs/FORMATS.md says."""
    units, begun = (("capacity", *row) for row in enumerate(capacity, 1)), (("start", *row) for row in enumerate(starts, 1))
    return _lines([("deadline", deadline), ("critical", critical), ("cost", cost), *units, *begun, ("end",)])


def _lines(rows: Iterable[Iterable[object]]) -> str:
    """A line for each row, with a blank between two of its words."""
    return "".join(" ".join(map(str, row)) + "\n" for row in rows)


@dataclass(frozen=True)
class Calendar:
    """Which days the time units of a plan are. Units are a "day" or a "week" long, counted from `start`, and those without a
    working day do not count. No work is done on the days of the week `free`, 0 for Monday to 6 for Sunday, and on `holidays`.
    Raises ValueError for another unit, or if each day of the week is free; OverflowError after the year 9999.

    >>> work = Calendar(date(2026, 4, 2), free=[5, 6], holidays=[date(2026, 4, 3), date(2026, 4, 6)])
    >>> work.first_day(1), work.last_day(1), work.deadline(date(2026, 4, 12))
    (datetime.date(2026, 4, 7), datetime.date(2026, 4, 2), 5)"""

    start: date
    unit: str = "day"
    free: Collection[int] = ()
    holidays: Collection[date] = ()

    def __post_init__(self) -> None:
        if self.unit not in ("day", "week") or set(range(7)) <= set(self.free):
            raise ValueError("a calendar has the unit 'day' or 'week', and a day of the week that is not free")

    def first_day(self, time: int) -> date:
        """The day on which a job begins that starts at this time."""
        return self.days([(time, time + 1)])[0][0]

    def last_day(self, time: int) -> date:
        """The day by whose evening all is done that ends at this time; at the time 0 the first day of all."""
        return self.days([(time, time)])[0][1]

    def days(self, times: Collection[tuple[int, int]]) -> list[tuple[date, date]]:
        """The first and the last day of jobs with these starts and ends. For one without duration both are the last day."""
        units = list(islice(self._units(), 1 + max((end for _, end in times), default=0)))
        lasts = [units[0][0], *(days[-1] for days in units)]
        return [(units[start][0] if end > start else lasts[end], lasts[end]) for start, end in times]

    def deadline(self, day: date) -> int:
        """The latest time that is told by this last day or an earlier one: for deadlines and due times. 0 if there is none."""
        return next(time for time, days in enumerate(self._units()) if days[-1] > day)

    def release(self, day: date) -> int:
        """The earliest time that is told by this first day or a later one: for release times."""
        return next(time for time, days in enumerate(self._units()) if days[0] >= day)

    def text(self) -> str:
        """The file that `racp show` and `racp report` read with `--calendar`."""
        worked = ",".join(name for day, name in enumerate("mon tue wed thu fri sat sun".split()) if day not in self.free)
        holidays = ", ".join(map(str, sorted(self.holidays)))
        return f'start = {self.start}\nworkdays = "{worked}"\nunit = "{self.unit}"\nholidays = [{holidays}]\n'

    def _units(self) -> Iterator[list[date]]:
        """The working days of each time unit."""
        length = 7 if self.unit == "week" else 1
        units = ([self.start + timedelta(first + day) for day in range(length)] for first in count(0, length))
        worked = ([day for day in unit if day.weekday() not in self.free and day not in self.holidays] for unit in units)
        return filter(None, worked)
