"""A slow check of plans: fault by fault, and time unit by time unit over a schedule. Made from 'racp check' in
docs/FORMATS.md."""

from shared import Run, Written
from slow.networks import critical_length, usage
from slow.orders import cost_of, read_order
from slow.plans import read_plan


def fault(words):
    return Written(f"fault {words}", 8)


def check(network, order, plan):
    jobs, resources = range(len(network.durations)), range(network.resources)
    ends = [plan.starts[j] + network.durations[j] for j in jobs]
    if (plan.deadline, plan.critical) != (order.deadline, critical_length(network, order.release)):
        raise fault("head")
    if plan.cost != cost_of(order, plan.capacities):
        raise fault("cost")
    for j in jobs:
        if ends[j] > order.due[j]:
            raise fault(f"late {j + 1}")
    for i, j in sorted(network.pairs):
        if plan.starts[j] < ends[i]:
            raise fault(f"order {i + 1} {j + 1}")
    for time in range(max(ends) + 1):
        for k in resources:
            if usage(network, plan.starts, k, time) > plan.capacities[k]:
                raise fault(f"over {k + 1} {time}")
    for k in resources:
        if order.ceilings is not None and plan.capacities[k] > order.ceilings[k]:
            raise fault(f"ceiling {k + 1}")
    for j in jobs:
        if plan.starts[j] < order.release[j]:
            raise fault(f"early {j + 1}")


def wanted_of(network, order_text, plan_text):
    jobs, resources = len(network.durations), network.resources
    try:
        order = read_order(order_text, resources, jobs)
        check(network, order, read_plan(plan_text, resources, jobs))
    except Written as written:
        return written.run()
    return Run(0, b"ok\n", b"")
