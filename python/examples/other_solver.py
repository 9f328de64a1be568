"""Checks the plans of another solver, which are lists of starts, one for each job of the network. Run it at the top of this
repository. It prints

    cost 4, 1 more than the cheapest plan
    cost 3, 0 more than the cheapest plan
    order: job 4 before 2
"""

import racp

network, order = racp.Network.read("examples/b.sm"), racp.Order(deadline=3, prices=[1, 1])
cheapest = racp.plan(network, order).cost
for starts in ([0, 0, 0, 1, 1, 2], [0, 0, 1, 2, 2, 3], [0, 1, 1, 1, 2, 3]):
    try:
        cost = racp.check(network, order, starts).cost
        print(f"cost {cost}, {cost - cheapest} more than the cheapest plan")
    except racp.Fault as fault:
        print(f"{fault.name}: job {fault.where['job']} before {fault.where['before']}")
