"""Slow rules of the certificate by clauses: they look at each start of each job, at each time, and at each value of the variable
that a rule moves. Made from the table of lines of 'The certificate by clauses' in docs/FORMATS.md, and from what a rule has to
leave: the values that are not ruled out. So they share nothing with the bounds of derivations.py."""

from slow.derivations import COST, start, units


def hull(low, high, allows):
    """The least and the greatest value of a range that a test lets through, or nothing."""
    left = [value for value in range(low, high + 1) if allows(value)]
    return (left[0], left[-1]) if left else None


class Rules:
    """The rules for a network and an order, within bounds: for each variable a lower and an upper one."""

    def __init__(self, network, order, bounds):
        self.network, self.order, self.bounds = network, order, bounds
        self.jobs, self.resources = range(len(network.durations)), range(network.resources)

    def runs(self, job, begin, time):
        return begin <= time < begin + self.network.durations[job]

    def least_time(self, job, times):
        """At how many of some times a job runs at the least, wherever it starts."""
        low, high = self.bounds[start(job)]
        return min(sum(self.runs(job, begin, time) for time in times) for begin in range(low, high + 1))

    def price(self, resource, count):
        """What units of a resource cost, unit by unit."""
        return sum(self.order.prices[resource] for unit in range(count) if self.order.owned[resource] <= unit)

    def least_price(self, without=None):
        """What the least units of all resources but one cost."""
        return sum(self.price(k, self.bounds[units(k)][0]) for k in self.resources if k != without)

    def times(self, job, resource, begin, end):
        """The starts at which the job runs at none of the times, if the others leave no room for it."""
        variable, times = start(job), range(begin, end)
        beside = [i for i in self.jobs if i != job and self.least_time(i, times) == len(times)]
        used = sum(self.network.requests[i][resource] for i in [job, *beside])
        if used <= self.bounds[units(resource)][1]:
            return {variable: self.bounds[variable]}
        return {variable: hull(*self.bounds[variable], lambda value: not any(self.runs(job, value, time) for time in times))}

    def energy(self, resource, begin, end):
        """The units that are enough for the least work at the times."""
        variable, times = units(resource), range(begin, end)
        work = sum(self.network.requests[i][resource] * self.least_time(i, times) for i in self.jobs)
        return {variable: hull(*self.bounds[variable], lambda value: work <= value * len(times))}

    def request(self, job, resource):
        """The units that are enough for a job that runs for some time."""
        variable = units(resource)
        if self.network.durations[job] == 0:
            return {variable: self.bounds[variable]}
        return {variable: hull(*self.bounds[variable], lambda value: self.network.requests[job][resource] <= value)}

    def prices(self):
        """The costs that are no less than those of the least units."""
        return {COST: hull(*self.bounds[COST], lambda value: self.least_price() <= value)}

    def budget(self, resource):
        """The units that the greatest cost pays for."""
        variable, most = units(resource), self.bounds[COST][1] - self.least_price(resource)
        if self.order.prices[resource] == 0:
            return {variable: self.bounds[variable]}
        return {variable: hull(*self.bounds[variable], lambda value: self.price(resource, value) <= most)}

    def pair(self, first, second):
        """The starts of the second job at or after the least end of the first; then those of the first that end by its greatest."""
        (low, high), duration = self.bounds[start(first)], self.network.durations[first]
        behind = hull(*self.bounds[start(second)], lambda value: low + duration <= value)
        if behind is None:
            return {start(second): None}
        return {start(second): behind, start(first): hull(low, high, lambda value: value + duration <= behind[1])}
