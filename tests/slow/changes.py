"""What becomes of an order if one term is changed, by a plan for each changed order. Made from 'racp whatif' in
docs/FORMATS.md."""

from shared import Run
from slow.needs import need_words, wrong_need
from slow.orders import LATEST, order_text, read_order
from slow.plans import read_plan


def beside(old, new, of=""):
    """How much more or less one number is than another."""
    if old == new:
        return "as much"
    return f"{new - old} more{of}" if old < new else f"{old - new} {'fewer' if of else 'less'}{of}"


def ends_of(base, run, order, network):
    """The end of a line: what the run of `plan` for a changed order says, beside a plan."""
    if run.status == 3:
        words = run.output.decode().split()
        return {"critical": f"not possible; the critical length is {words[2]}" if words[1] == "critical" else "",
                "due": f"not possible; job {words[-1]} ends too late", "ceiling": "not possible"}[words[1]]
    plan = read_plan(run.output.decode(), network.resources, len(network.durations))
    text = f"cost {plan.cost}, {beside(base.cost, plan.cost)}"
    for k, (old, new) in enumerate(zip(base.capacities, plan.capacities), 1):
        if old != new:
            text += f"; {beside(old, new, f' of resource {k}')}"
    return text


def changes_of(order, capacities):
    """The beginning of each line, and the changed order."""
    for k, units in enumerate(capacities):
        if units > 0:
            ceilings = [LATEST] * len(capacities) if order.ceilings is None else list(order.ceilings)
            ceilings[k] = min(units - 1, LATEST)
            yield f"one fewer of resource {k + 1}", order._replace(ceilings=ceilings)
    for k, units in enumerate(order.owned):
        if units < LATEST:
            owned = [*order.owned[:k], units + 1, *order.owned[k + 1:]]
            yield f"one more owned of resource {k + 1}", order._replace(owned=owned)
    for deadline in [order.deadline - 1, order.deadline + 1]:
        if 0 <= deadline <= LATEST:
            due = [deadline if time == order.deadline else time for time in order.due]
            yield f"deadline {deadline}", order._replace(deadline=deadline, due=due)


def needs_told(network, order, base, ends, told):
    """The ends of the lines with the needs that are told as JSON, if these are right; what is wrong with the first that is not."""
    for place, ((change, changed), end, need) in enumerate(zip(changes_of(order, base.capacities), ends, told)):
        if end == "not possible":
            wrong = wrong_need(network, changed, need)
            ends[place] = f"{end}: {wrong}" if wrong else end + need_words(need)
    return ends


def findings_of(plan_by, network, text, base, told):
    """What `whatif` has to write beside a plan, if `plan_by` gives the run of `plan` for an order text, and these needs are told as
    JSON."""
    order = read_order(text, network.resources, len(network.durations))
    changes = list(changes_of(order, base.capacities))
    ends = [ends_of(base, plan_by(order_text(changed)), changed, network) for _, changed in changes]
    lines = [f"deadline {base.deadline}: cost {base.cost}\n"]
    for (change, _), end in zip(changes, needs_told(network, order, base, ends, told)):
        lines.append(f"{change}: {end}\n")
    return Run(0, ("".join(lines) + "end\n").encode(), b"")
