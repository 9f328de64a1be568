"""What is wrong with a plan as JSON or as CSV, with the usage counted at each time. Made from 'racp show' in
docs/FORMATS.md."""

import csv
import io
import json

from slow.networks import late_starts, usage


def before(network, job):
    """The numbers of the jobs that come right before a job at a place from 0, in rising order."""
    return sorted({i + 1 for i, j in network.pairs if j == job})


def slack(network, order, plan):
    """How much later each job could start, if only precedence, the due times and the deadline counted."""
    late = late_starts(network, [min(time, order.deadline) for time in order.due])
    return [latest - start for latest, start in zip(late, plan.starts)]


def wrong_json(text, network, order, plan, names):
    try:
        told = json.loads(text)
    except ValueError:
        return f"no JSON: {text}"
    wanted = {"deadline": plan.deadline, "critical": plan.critical, "cost": plan.cost}
    if {key: told[key] for key in wanted} != wanted or set(told) != {*wanted, "jobs", "resources"}:
        return f"head: {told}"
    room = slack(network, order, plan)
    jobs = [{"job": j + 1, "name": names.get(j), "start": s, "end": s + network.durations[j], "duration": network.durations[j],
             "slack": room[j], "predecessors": before(network, j), "requests": list(network.requests[j])}
            for j, s in enumerate(plan.starts)]
    if told["jobs"] != jobs:
        return f"jobs: {told['jobs']}"
    for k, resource in enumerate(told["resources"]):
        steps = resource.pop("usage")
        head = {"resource": k + 1, "name": names.get(len(jobs) + k), "price": order.prices[k], "owned": order.owned[k],
                "capacity": plan.capacities[k]}
        used = [usage(network, plan.starts, k, t) for t in range(plan.deadline + 1)]
        read = [[s["units"] for s in steps if s["from"] <= t][-1] for t in range(plan.deadline + 1)]
        if resource != head or read != used or any(a["units"] == b["units"] for a, b in zip(steps, steps[1:])):
            return f"resource {k + 1}: {resource} {steps}"
    return None if len(told["resources"]) == network.resources else "resources"


def wrong_csv(text, network, order, plan, names):
    rows = list(csv.reader(io.StringIO(text, newline="")))
    room, count = slack(network, order, plan), len(plan.starts)
    wanted = [["job", "name", "start", "end", "duration", "slack", "predecessors",
               *(names.get(count + k) or f"resource {k + 1}" for k in range(network.resources))]]
    wanted += [[str(j + 1), names.get(j) or "", str(s), str(s + network.durations[j]), str(network.durations[j]), str(room[j]),
                ";".join(map(str, before(network, j))), *map(str, network.requests[j])] for j, s in enumerate(plan.starts)]
    return None if rows == wanted else f"wanted: {wanted}\n  written: {rows}"
