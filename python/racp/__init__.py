"""Plans of projects with the cheapest capacities, made and proved by the program `racp`.

A network has jobs and the resources that they need. An order has a deadline and prices. A plan says how many units of each
resource to have, and when each job starts. Times and durations are whole numbers of time units, days or weeks as you like.
Limits of time are in seconds. Examples begin with `from racp import *`.

>>> bridge = Network(["welder", "crane"])
>>> bridge.add("piers", 5, needs={"crane": 1})
>>> bridge.add("deck", 4, after=["piers"], needs={"crane": 1, "welder": 2})
>>> plan(bridge, deadline=9, prices={"welder": 5, "crane": 20})
<Plan with cost 30, capacity {'welder': 2, 'crane': 1}>"""

from ._commands import batch, check, critical, curve, plan, prove, soonest, verify, whatif
from ._network import Calendar, Job, Network, Order
from ._plans import Batch, Change, Changes, Curve, Plan, Step
from ._program import Fault, Impossible, OutOfMemory, ProgramError, RacpError, Refused, Stopped, Unproved, program

__all__ = ["Batch", "Calendar", "Change", "Changes", "Curve", "Fault", "Impossible", "Job", "Network", "Order", "OutOfMemory",
           "Plan", "ProgramError", "RacpError", "Refused", "Step", "Stopped", "Unproved", "batch", "check", "critical", "curve",
           "plan", "program", "prove", "soonest", "verify", "whatif"]
