"""A benchmark: plans networks with a limit of time, and draws the gap between the best plan and the bound over time.

usage: benchmark.py [SECONDS FILE ..]

The files are networks of PSPLIB. Without words there are three random ones, and 3 seconds. The deadline is 1.2 times the
critical length, and a unit of each resource costs 1. The picture is gap.png, if matplotlib is installed. It prints

    network      jobs   cost  bound   gap  seconds
    random 15      15  ..
    random 30      30  ..
    random 60      60  ..
"""

import random
import sys
from pathlib import Path

import racp


def drawn(count, seed):
    """A random network with four resources, in which a job comes after up to two of the eight before it."""
    draw = random.Random(seed)
    network = racp.Network(range(4))
    for key in range(count):
        before = {draw.randrange(max(0, key - 8), key) for _ in range(2)} if key else ()
        network.add(key, draw.randint(1, 10), needs={resource: draw.randint(0, 10) for resource in range(4)}, after=before)
    return network


def planned(network, seconds):
    """The best plan that was found in time, and the gap at each time at which it was told."""
    gaps = []

    def heard(line):
        if line["best"] is not None:
            gaps.append((line["seconds"], line["best"] / max(line["bound"], 1) - 1))

    deadline = racp.critical(network)[0] * 6 // 5
    plan = racp.plan(network, deadline=deadline, prices=[1] * len(network.resources), time_limit=seconds, progress=heard)
    return plan, [*gaps, (plan.work["seconds"], plan.gap)]


def picture(path, series):
    """A stair of the gap over time for each network."""
    from matplotlib import pyplot

    figure, axes = pyplot.subplots()
    for name, gaps in series.items():
        axes.step(*zip(*gaps), where="post", marker="o", label=name)
    axes.set(xlabel="seconds", ylabel="gap", ylim=(0, None))
    axes.legend()
    figure.savefig(path)


def main(words):
    seconds = float(words[0]) if words else 3.0
    networks = {Path(path).stem: racp.Network.read(path) for path in words[1:]}
    series = {}
    print("network      jobs   cost  bound   gap  seconds")
    for name, network in (networks or {f"random {count}": drawn(count, seed=count) for count in (15, 30, 60)}).items():
        plan, series[name] = planned(network, seconds)
        print(f"{name:12} {len(network.jobs):4} {plan.cost:6} {plan.bound:6} {plan.gap:5.0%} {plan.work['seconds']:8.2f}")
    try:
        picture("gap.png", series)
    except ModuleNotFoundError as error:
        print(f"no picture: {error}", file=sys.stderr)


if __name__ == "__main__":
    main(sys.argv[1:])
