"""The commands. Each asks the program, which runs beside this one, and returns values under your keys. All raise `Refused` for
what is no network, order or plan, `OutOfMemory`, and `ProgramError` if no program answers. Limits of time are in seconds."""

from __future__ import annotations

import csv
import json
from collections.abc import Hashable, Iterable, Mapping
from dataclasses import replace
from itertools import product
from pathlib import Path
from typing import Any

from ._network import MOST, Network, Order, Values, keyed, plan_text
from ._plans import Batch, Change, Changes, Curve, Plan, Step
from ._program import Progress, Stopped, run


def critical(network: Network) -> tuple[int, dict[Hashable, int]]:
    """How many time units the project takes with enough of everything, and the earliest start of each job.

    >>> critical(Network.from_lists([4, 6], needs=[[1], [2]], after=[[], [0]]))
    (10, {0: 0, 1: 4})"""
    answer = _ask(network, "cpm")
    return answer["critical"], dict(zip(network.jobs, answer["starts"]))


def plan(network: Network, order: Order | None = None, *, time_limit: float | None = None, workers: int | None = None,
         memory: int | None = None, progress: Progress = None, **terms: Any) -> Plan:
    """The cheapest plan of an order, or of its terms as words, which take the place of those of an order (see `Order`). If the
    limit of time, in seconds, was reached, it is the best plan that is known, and not `optimal`. `workers` are threads of the
    program, 0 for each processor one, and `memory` is how many MiB its records may take. About every two seconds `progress`
    is called with a dictionary of "seconds", "best", "bound" and what else docs/FORMATS.md names; an error in it ends all.
    Raises `Impossible` if there is no plan, and `Stopped` if none was known in time.

    >>> plan(Network.from_lists([4, 6, 5], needs=[[0, 1], [3, 1], [2, 0]], after=[[], [0], [0]]), deadline=12, prices=[9, 30])
    <Plan with cost 75, capacity {0: 5, 1: 1}>"""
    network = Network(network.resources, network.jobs)
    order = replace(order, **terms) if order else Order(**terms)
    answer = _ask(network, "plan", order, time_limit=time_limit, workers=workers, memory=memory, progress=progress)
    best = answer.get("best", answer)
    if best is None:
        raise Stopped({**answer, "says": f"no plan is known by now; each costs at least {answer['bound']}"})
    return _plan(network, order, {"bound": best["cost"], **answer, **best})


def curve(network: Network, order: Order | None = None, *, time_limit: float | None = None, workers: int | None = None,
          memory: int | None = None, progress: Progress = None, **terms: Any) -> Curve:
    """What each deadline up to that of the order costs; words as with `plan`. Raises `Impossible` if there is no plan.

    >>> [step.cost for step in curve(Network.from_lists([4, 6], needs=[[1], [1]], after=[[], []]), deadline=20, prices=[9])]
    [18, 9]"""
    order = replace(order, **terms) if order else Order(**terms)
    answer = _ask(network, "curve", order, time_limit=time_limit, workers=workers, memory=memory, progress=progress)
    steps = (Step(step["deadline"], step["cost"], dict(zip(network.resources, step["capacities"]))) for step in answer["steps"])
    return Curve(tuple(steps), answer["status"] == "done")


def soonest(network: Network, team: Values, *, release: Values | None = None, due: Values | None = None,
            time_limit: float | None = None, workers: int | None = None) -> Plan:
    """The plan that ends the project as soon as a team can: so many units of each resource, at no cost. Its deadline is that
    end. If it is not `optimal`, the limit of time came, which counts anew for this plan, and the team may end sooner. Raises
    `Impossible` if it cannot do a job, or all that is due, and `Stopped` if nothing is known.

    >>> soonest(Network.from_lists([4, 6], needs=[[1], [1]], after=[[], []]), team=[1]).order.deadline
    10"""
    network, team = Network(network.resources, network.jobs), keyed(network.resources, team, "team")
    order = Order(MOST, dict.fromkeys(team, 0), ceiling=team, release=release, due=due)
    answer = _ask(network, "soonest", order, time_limit=time_limit, workers=workers)
    if "least" not in answer:
        return _plan(network, replace(order, deadline=answer["deadline"]), {**answer, "bound": 0})
    if answer["known"] is None:
        raise Stopped({**answer, "says": "no time is known by which the team can end"})
    return replace(plan(network, order, deadline=answer["known"], time_limit=time_limit, workers=workers), optimal=False)


def whatif(plan: Plan, *, time_limit: float | None = None, workers: int | None = None) -> Changes:
    """What becomes of the plan if a resource has a unit fewer, or an owned unit more, or the deadline is a time unit off.

    >>> [change.cost for change in whatif(plan(Network.from_lists([4, 6], [[1], [2]], [[], [0]]), deadline=12, prices=[9]))]
    [None, 9, 18, 18]"""
    answer = _ask(plan.network, "whatif", None, plan.texts(), time_limit=time_limit, workers=workers)
    jobs, resources = dict(enumerate(plan.network.jobs, 1)), dict(enumerate(plan.network.resources, 1))
    return Changes(Change(told["change"], resources.get(told["resource"]), told["value"], told["outcome"], told["cost"],
                          None if told["cost"] is None else told["cost"] - plan.cost,
                          told["capacities"] and dict(zip(resources.values(), told["capacities"])),
                          tuple(jobs[job] for job in (told["need"] or {"jobs": []})["jobs"])) for told in answer["changes"])


def check(network: Network, order: Order, starts: Values) -> Plan:
    """A plan from starts of anyone: of each resource it has as many units as they use at once. It is not known to be `optimal`,
    its bound is 0. Raises `Fault` if a term of the order or a pair of the network is broken, ValueError if starts are missing.

    >>> check(Network.from_lists([4, 6], needs=[[1], [2]], after=[[], [0]]), Order(20, [9]), starts=[0, 4])
    <Plan with cost 18, at least 0, capacity {0: 2}>"""
    network, begun = Network(network.resources, network.jobs), keyed(network.jobs, starts, "starts")
    jobs, times = [(begun[key], job) for key, job in network.jobs.items()], {*begun.values(), 0}
    running = [[job for start, job in jobs if start <= time < start + job.duration] for time in times]
    capacity = {key: max(sum(job.needs.get(key, 0) for job in together) for together in running) for key in network.resources}
    prices, owned = keyed(capacity, order.prices, "prices"), keyed(capacity, order.owned, "owned", 0)
    cost = sum(price * max(0, capacity[key] - owned[key]) for key, price in prices.items())
    # The critical length from release times on is what an order with the deadline 0 is refused with, if it has no plan.
    at_once = _ask(network, "plan", Order(0, dict.fromkeys(capacity, 0), release=order.release), accept=(0, 3))
    text = plan_text(order.deadline, at_once.get("numbers", [0])[0], cost, capacity.values(), begun.values())
    _ask(network, "check", order, {"plan": text})
    return _plan(network, order, {**_ask(network, "show", order, {"plan": text}), "bound": 0})


def prove(plan: Plan, *, facts: bool = False, time_limit: float | None = None) -> str:
    """A text that shows why the order of a plan has no cheaper one, which `verify` checks. With `facts` it also shows that no
    starts are less. Raises `Unproved` if none can be made, or not in time.

    >>> prove(plan(Network.from_lists([4, 6], [[1], [2]], [[], [0]]), deadline=12, prices=[9]), facts=True)[:7]
    'proof 2'"""
    return run(plan.texts(), "prove", "net", "order", accept=(0,), facts=facts, time_limit=time_limit)


def verify(plan: Plan, certificate: str, *, time_limit: float | None = None) -> None:
    """Looks whether a certificate shows that the plan is the cheapest, and plans nothing for that. Raises `Fault` if the plan
    is wrong, `Unproved` if the certificate does not prove it, and `Stopped`.

    >>> cheapest = plan(Network.from_lists([4, 6], [[1], [2]], [[], [0]]), deadline=12, prices=[9])
    >>> verify(cheapest, prove(cheapest))"""
    _ask(plan.network, "verify", None, {**plan.texts(), "proof": certificate}, accept=(0,), time_limit=time_limit)


def batch(paths: Iterable[str | Path], factors: Iterable[float], *, price: int = 1,
          time_limit: float | None = None, jobs: int = 1, memory: int | None = None) -> Batch:
    """A row for each PSPLIB file and each factor: what the network costs if the deadline is the critical length times the
    factor, and a unit of each resource costs `price`. The limit of time is for each row, and `jobs` rows are made at a time. A
    file that is missing or no network raises nothing: its rows say so.

    >>> [row["status"] for row in batch(["no such file.sm"], factors=[1, 1.5])]
    ['refused', 'refused']"""
    given, times = list(paths), list(factors)
    table = run({}, "batch", *(str(Path(path).absolute()) for path in given), factors=",".join(map(str, times)), price=price,
                time_limit=time_limit, jobs=jobs, memory=memory)
    rows = [{name: json.loads(word) if word.replace(".", "", 1).isdecimal() else word or None for name, word in row.items()}
            for row in csv.DictReader(table.split("\n"))]
    return Batch({**row, "file": str(path), "factor": time} for row, (path, time) in zip(rows, product(given, times)))


def _ask(network: Network, command: str, order: Order | None = None, files: Mapping[str, str] = {}, **words: Any) -> Any:
    """The object that a command answers which reads the network, an order and then these files; words as with `run`."""
    texts = {"net": network.text(), **({"order": order.text(network)} if order else {}), **files}
    keys = {"job": [*network.jobs], "before": [*network.jobs], "resource": network.resources}
    return json.loads(run(texts, command, *texts, keys=keys, json=True, **words))


def _plan(network: Network, order: Order, shown: Mapping[str, Any]) -> Plan:
    """A plan of what the program tells of one."""
    jobs, resources = dict(zip(network.jobs, shown["jobs"])), dict(zip(network.resources, shown["resources"]))
    starts, ends, slack = ({key: job[name] for key, job in jobs.items()} for name in ("start", "end", "slack"))
    usage = {key: [(step["from"], step["units"]) for step in told["usage"]] for key, told in resources.items()}
    return Plan(network, order, shown["critical"], shown["cost"], shown["bound"], shown.get("status") == "optimal",
                {key: told["capacity"] for key, told in resources.items()}, starts, ends, slack, usage,
                {name: shown[name] for name in ("pieces", "nodes", "conflicts", "seconds") if name in shown})
