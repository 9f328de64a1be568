"""The solvers that bench/compare runs: `racp`, and those of other packages, each on the model that a module of models/ writes."""

import pathlib
import shutil
import sys

from program import PROGRAM

sys.path.insert(0, str(pathlib.Path(__file__).resolve().parent / "models"))
import cbc
import clasp
import minizinc
import project


class Racp:
    """`racp plan` with these options, with as many threads as it has workers, or one."""

    def __init__(self, *options, threads=1):
        self.options, self.threads = options, threads

    def is_there(self):
        return True

    def prepared(self, order, folder):
        """The words that plan an order, once what they need stands in the folder."""
        return [PROGRAM, "plan", order.network, order.order, *self.options]

    def capacities(self, order, printed):
        """The capacities of the plan, or none."""
        units = [line.split()[2] for line in printed.splitlines() if line.startswith("capacity ")]
        return list(map(int, units)) or None


class Modelled:
    """A solver that solves the model which this module writes."""

    threads = 1

    def __init__(self, module):
        self.module = module

    def is_there(self):
        return shutil.which(self.module.PROGRAM) is not None

    def prepared(self, order, folder):
        path = folder / f"model{self.module.SUFFIX}"
        path.write_text(self.module.model(project.read(order.network, order.order)))
        return self.module.command(path)

    def capacities(self, order, printed):
        return self.module.capacities(project.read(order.network, order.order), printed)


SOLVERS = {
    "racp": Racp(),
    "racp-1": Racp("--workers", "1"),
    "racp-4": Racp("--workers", "4", threads=4),
    "minizinc": Modelled(minizinc),
    "cbc": Modelled(cbc),
    "clasp": Modelled(clasp),
}


def cost_of(order, capacities):
    """What these capacities cost, by the prices of an order."""
    return project.read(order.network, order.order).cost(capacities)
