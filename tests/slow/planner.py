"""A slow planner: of every schedule there is it takes the least capacities that the schedule fits, of these the first, and then
the first schedule that fits them. Made from 'racp plan' and 'Lines and statuses' in docs/FORMATS.md."""

from shared import Run, Written
from slow.networks import critical_length, early_starts, usage
from slow.orders import cost_of, read_order
from slow.plans import Plan, plan_text


def schedules(network, order):
    """The starts that keep precedence and are in time, in lexicographic order."""
    early = early_starts(network, order.release)
    jobs = range(len(early))
    latest = [order.due[j] - network.durations[j] for j in jobs]

    def keeps(starts, j):
        return all(starts[a] + network.durations[a] <= starts[b]
                   for a, b in network.pairs if max(a, b) == j)

    def after(starts):
        j = len(starts)
        if j == len(early):
            yield starts
            return
        for start in range(early[j], latest[j] + 1):
            longer = [*starts, start]
            if keeps(longer, j):
                yield from after(longer)

    return after([])


def peaks(network, starts):
    """The least capacities that the starts fit."""
    return [max(usage(network, starts, k, time) for time in range(max(starts) + 1)) for k in range(network.resources)]


def wanted_of(network, order_text):
    """What `plan` has to give."""
    try:
        order = read_order(order_text, network.resources, len(network.durations))
    except Written as written:
        return written.run()
    critical = critical_length(network, order.release)
    if critical > order.deadline:
        return impossible(f"critical {critical} deadline {order.deadline}")
    for j, start in enumerate(early_starts(network, order.release)):
        if start + network.durations[j] > order.due[j]:
            return impossible(f"due {j + 1}")
    fitting = [(peaks(network, starts), starts) for starts in schedules(network, order)]
    if order.ceilings is not None:
        fitting = [(units, starts) for units, starts in fitting if all(a <= b for a, b in zip(units, order.ceilings))]
    if not fitting:
        return impossible("ceiling")
    cost, capacities = min((cost_of(order, units), units) for units, _ in fitting)
    starts = min(starts for units, starts in fitting if all(a <= b for a, b in zip(units, capacities)))
    plan = Plan(order.deadline, critical, cost, capacities, starts)
    return Run(0, plan_text(plan).encode(), b"")


def impossible(words):
    return Written(f"impossible {words}", 3).run()
