"""Plans, curves, changes and tables: what the commands give."""

from __future__ import annotations

import html
from collections.abc import Hashable, Iterator, Mapping, Sequence
from dataclasses import dataclass
from datetime import date
from pathlib import Path
from typing import Any, NamedTuple

from ._network import Calendar, Network, Order, plan_text
from ._program import run


class Table:
    """Rows below titles. Jupyter shows them, and `to_pandas` makes a frame of them."""

    def table(self) -> list[list[Any]]:
        """The titles, and then the rows."""
        raise NotImplementedError

    def to_pandas(self) -> Any:
        """A pandas.DataFrame with these rows. Raises ModuleNotFoundError without pandas."""
        import pandas

        titles, *rows = self.table()
        return pandas.DataFrame(rows, columns=titles)

    def _repr_html_(self) -> str:
        rows = [[f"<td>{'' if cell is None else html.escape(str(cell))}</td>" for cell in row] for row in self.table()]
        return f"<table><tr>{'</tr><tr>'.join(map(''.join, rows))}</tr></table>"


@dataclass(frozen=True)
class Plan(Table):
    """How many units of each resource to have, `capacity`, and at which times jobs start and end. By `slack` time units a job
    could start later if only what comes after it counted. `usage` has for each resource pairs of a time and the units in use
    from then on. The project takes `critical` time units with enough of everything. No plan of the order costs less than
    `bound`; one that is proved cheapest is `optimal`. `work` tells what planning took, such as "seconds". The rows of the table
    are the jobs, with their units of each resource.

    >>> found = plan(Network(["crane"], {"dig": Job(4, {"crane": 2})}), deadline=9, prices=[30])
    >>> found.cost, found.gap, found.ends, found.report(curve=True)[:15]
    (60, 0.0, {'dig': 4}, '<!DOCTYPE html>')"""

    network: Network
    order: Order
    critical: int
    cost: int
    bound: int
    optimal: bool
    capacity: Mapping[Hashable, int]
    starts: Mapping[Hashable, int]
    ends: Mapping[Hashable, int]
    slack: Mapping[Hashable, int]
    usage: Mapping[Hashable, Sequence[tuple[int, int]]]
    work: Mapping[str, float]

    @property
    def gap(self) -> float:
        """The cost above the bound, as a part of the bound: 0.25 is 25 percent. A bound of 0 counts as 1."""
        return (self.cost - self.bound) / max(self.bound, 1)

    def days(self, calendar: Calendar) -> dict[Hashable, tuple[date, date]]:
        """The first and the last day of each job, both days on which it runs."""
        return dict(zip(self.starts, calendar.days(list(zip(self.starts.values(), self.ends.values())))))

    def texts(self) -> dict[str, str]:
        """The files net, order and plan, which the commands of `racp` read."""
        plan = plan_text(self.order.deadline, self.critical, self.cost, self.capacity.values(), self.starts.values())
        return {"net": self.network.text(), "order": self.order.text(self.network), "plan": plan}

    def report(self, path: str | Path | None = None, *, curve: bool = False, whatif: bool = False,
               calendar: Calendar | None = None, certificate: str | None = None, time_limit: float | None = None) -> str:
        """A page in HTML to read and print, also written to the path. With `curve` and `whatif` it tells what other deadlines
        and changes cost, as far as known in `time_limit` seconds each; with a calendar the first and last day of each job;
        with a certificate what that shows. Raises `Unproved` if it shows nothing."""
        texts = self.texts()
        names = [" ".join(str(key).split()) for key in (*self.starts, *self.capacity)]
        more = {"names": "".join(f" {name}\n" if name.startswith("#") else f"{name}\n" for name in names)}
        if curve and (steps := run(texts, "curve", "net", "order", time_limit=time_limit)).startswith("deadline"):
            more["curve"] = steps
        if whatif:
            more["whatif"] = run({**texts, **more}, "whatif", *texts, names="names", time_limit=time_limit)
        if calendar:
            more["calendar"] = calendar.text()
        if certificate is not None:
            more["proof"] = certificate
        page = run({**texts, **more}, "report", *texts, *(f"--{name}={name}" for name in more))
        if path is not None:
            Path(path).write_text(page, encoding="utf-8")
        return page

    def table(self) -> list[list[Any]]:
        columns = zip(self.network.jobs.values(), self.starts.items(), self.ends.values(), self.slack.values())
        rows = [[*start, end, slack, *(job.needs.get(key, 0) for key in self.capacity)] for job, start, end, slack in columns]
        return [["job", "start", "end", "slack", *self.capacity], *rows]

    def to_pandas(self, calendar: Calendar | None = None) -> Any:
        """A pandas.DataFrame with these rows under the keys of the jobs; with a calendar it has the first and last day too."""
        frame = super().to_pandas().set_index("job")
        if calendar:
            frame["first day"], frame["last day"] = zip(*self.days(calendar).values())
        return frame

    def plot(self, calendar: Calendar | None = None) -> Any:
        """A figure of matplotlib: the jobs over time, those without slack in red, and below them the use of each resource,
        with its capacity as a line. With a calendar the axis of times has dates. Raises ModuleNotFoundError."""
        from matplotlib import pyplot

        heights = [0.25 * len(self.starts) + 0.5] + [1.0] * len(self.capacity)
        figure, (chart, *below) = pyplot.subplots(len(heights), sharex=True, constrained_layout=True,
                                                  figsize=(9, sum(heights) + 1), gridspec_kw={"height_ratios": heights})
        chart.barh(range(len(self.starts)), [job.duration for job in self.network.jobs.values()], left=[*self.starts.values()],
                   tick_label=[*map(str, self.starts)], color=["C0" if slack else "C3" for slack in self.slack.values()])
        chart.set(ylim=chart.get_ylim()[::-1], title=f"cost {self.cost}{'' if self.optimal else f', at least {self.bound}'}")
        chart.axvline(self.order.deadline, color="black", linewidth=1)
        for axes, (resource, usage) in zip(below, self.usage.items()):
            axes.fill_between(*zip(*usage, (self.order.deadline, 0)), step="post", alpha=0.5)
            axes.axhline(self.capacity[resource], color="black", linestyle="dashed", linewidth=1)
            axes.set(ylim=(0, None), ylabel=str(resource))
        below[-1].set_xlabel("time")
        if calendar:
            below[-1].xaxis.set_major_formatter(lambda time, _: str(calendar.first_day(round(time))) if time >= 0 else "")
        return figure

    def __repr__(self) -> str:
        return f"<Plan with cost {self.cost}{'' if self.optimal else f', at least {self.bound}'}, capacity {self.capacity}>"


class Step(NamedTuple):
    """What the cheapest plan costs and has for this deadline, and for all later ones up to the next step."""

    deadline: int
    cost: int
    capacity: Mapping[Hashable, int]


@dataclass(frozen=True)
class Curve(Table):
    """What each deadline costs: `steps` in rising order, each of them a row. If it is not `complete`, the limit of time ended
    it, and earlier deadlines than that of the first step are not known.

    >>> found = curve(Network.from_lists([4, 4], needs=[[1], [1]], after=[[], []]), deadline=9, prices=[30])
    >>> [(step.deadline, step.cost) for step in found], found.at(7).cost, found.cheapest(each_time_unit=5).deadline
    ([(4, 60), (8, 30)], 60, 8)"""

    steps: tuple[Step, ...]
    complete: bool

    def __iter__(self) -> Iterator[Step]:
        return iter(self.steps)

    def at(self, deadline: int) -> Step | None:
        """What holds for this deadline: a step, or None if no plan for it is known."""
        return next((step for step in reversed(self.steps) if step.deadline <= deadline), None)

    def cheapest(self, *, each_time_unit: float) -> Step:
        """The best step, if a project that takes a time unit longer costs so much more. Raises ValueError without steps."""
        return min(self.steps, key=lambda step: step.cost + each_time_unit * step.deadline)

    def table(self) -> list[list[Any]]:
        resources = self.steps[0].capacity if self.steps else ()
        return [["deadline", "cost", *resources], *([*step[:2], *step.capacity.values()] for step in self.steps)]


class Change(NamedTuple):
    """An order in which one `term`, "ceiling", "owned" or "deadline", has another `value`. The `outcome` is "plan" with its
    cost, how much `more` that is, and its units; "impossible", perhaps with the jobs by which more units are `needed`; or
    "open" if the time was up."""

    term: str
    resource: Hashable
    value: int
    outcome: str
    cost: int | None
    more: int | None
    capacity: Mapping[Hashable, int] | None
    needed: tuple[Hashable, ...]

    def __str__(self) -> str:
        words = {"ceiling": f"one fewer of {self.resource}", "owned": f"one more owned of {self.resource}"}
        return words.get(self.term, f"{self.term} {self.value}")


class Changes(Table, tuple[Change, ...]):
    """What becomes of the order of a plan if one term is changed. Each change is a row."""

    def table(self) -> list[list[Any]]:
        units: Mapping[Hashable, Any] = dict.fromkeys(next((change.capacity for change in self if change.capacity), ()))
        rows = [[str(change), *change[3:6], *(change.capacity or units).values(), ", ".join(map(str, change.needed))]
                for change in self]
        return [["change", "outcome", "cost", "more", *units, "needed by"], *rows]


class Batch(Table, tuple[Mapping[str, Any], ...]):
    """A row for each network and factor, with the columns of `racp batch` in docs/FORMATS.md: numbers, texts or None."""

    def table(self) -> list[list[Any]]:
        return [[*row] for row in self[:1]] + [[*row.values()] for row in self]
