"""A network and an order, read for the models of this folder, and what is plain about each optimal plan of them.

The texts are those of docs/FORMATS.md, an order with a deadline and prices alone; the planner is the one that tells faults.
Jobs, resources and times count from 0.
"""

import dataclasses
import functools
import itertools
import sys
import tomllib


@dataclasses.dataclass(frozen=True)
class Project:
    durations: list  # of each job
    requests: list  # of each job, of each resource
    pairs: list  # of jobs, of which the second starts only when the first has ended
    deadline: int
    prices: list  # of a unit of each resource

    @property
    def jobs(self):
        return range(len(self.durations))

    @property
    def resources(self):
        return range(len(self.prices))

    def users(self, resource):
        """The jobs that run and request units of this resource."""
        return [job for job in self.jobs if self.durations[job] > 0 and self.requests[job][resource] > 0]

    @functools.cached_property
    def earliest(self):
        """The earliest start of each job."""
        starts = [0] * len(self.durations)
        for first, second in self.sorted_pairs:
            starts[second] = max(starts[second], starts[first] + self.durations[first])
        return starts

    @functools.cached_property
    def latest(self):
        """The latest start of each job."""
        starts = [self.deadline - duration for duration in self.durations]
        for first, second in reversed(self.sorted_pairs):
            starts[first] = min(starts[first], starts[second] - self.durations[first])
        return starts

    @functools.cached_property
    def sorted_pairs(self):
        """The pairs in an order in which each pair into a job comes before those out of it."""
        ready, waiting, ordered = [], [0] * len(self.durations), []
        for _, second in self.pairs:
            waiting[second] += 1
        ready = [job for job in self.jobs if waiting[job] == 0]
        for job in ready:
            for pair in self.pairs:
                if pair[0] == job:
                    ordered.append(pair)
                    waiting[pair[1]] -= 1
                    if waiting[pair[1]] == 0:
                        ready.append(pair[1])
        return ordered

    def starts_of(self, job):
        """The times at which a job may start."""
        return range(self.earliest[job], self.latest[job] + 1)

    def usage(self, resource, time, first, last):
        """The units that are used at a time by the jobs that have started by then at `first`, and not ended at `last`."""
        return sum(self.requests[job][resource] for job in self.jobs if first[job] <= time < last[job] + self.durations[job])

    @functools.cached_property
    def least(self):
        """Units of each resource without which no schedule ends in time: those of the jobs that run at a time in all
        schedules, of the greatest request, and of the work that has to be done in each span of times."""
        return [max(self.greatest_request(resource), self.fixed_usage(resource), self.densest_work(resource))
                for resource in self.resources]

    def greatest_request(self, resource):
        return max((self.requests[job][resource] for job in self.users(resource)), default=0)

    def fixed_usage(self, resource):
        return max((self.usage(resource, time, self.latest, self.earliest) for time in range(self.deadline)), default=0)

    def densest_work(self, resource):
        """The most units that some span of times needs for the work that no schedule does outside of it, rounded up."""
        users = self.users(resource)
        begins = sorted({time for job in users for time in (self.earliest[job], self.latest[job])})
        ends = sorted({time + self.durations[job] for job in users for time in (self.earliest[job], self.latest[job])})
        spans = [(begin, end) for begin, end in itertools.product(begins, ends) if begin < end]
        return max((-(-sum(self.requests[job][resource] * self.inside(job, *span) for job in users) // (span[1] - span[0]))
                    for span in spans), default=0)

    def inside(self, job, begin, end):
        """How long a job runs within a span of times, at the least."""
        from_left = self.earliest[job] + self.durations[job] - begin
        from_right = end - self.latest[job]
        return max(0, min(self.durations[job], end - begin, from_left, from_right))

    @functools.cached_property
    def most(self):
        """Units of each resource above which a plan is dearer than the one in which each job starts as early as it can, or
        above which no schedule uses any."""
        peaks = [max((self.usage(resource, time, self.earliest, self.earliest) for time in range(self.deadline)), default=0)
                 for resource in self.resources]
        spare = self.cost(peaks) - self.cost(self.least)
        sums = [sum(requests[resource] for requests in self.requests) for resource in self.resources]
        return [min(total, least + spare // price) if price else total
                for total, least, price in zip(sums, self.least, self.prices)]

    def cost(self, capacities):
        return sum(price * units for price, units in zip(self.prices, capacities))


def read(network_path, order_path):
    """The project of a network and an order."""
    with open(order_path, "rb") as text:
        order = tomllib.load(text)
    with open(network_path) as text:
        rows = [line.split() for line in text]
    precedence = numbers(rows, ["PRECEDENCE", "RELATIONS:"])
    requests = numbers(rows, ["REQUESTS/DURATIONS:"])
    pairs = set()
    while precedence:
        job, _, count = precedence[:3]
        pairs |= {(job - 1, after - 1) for after in precedence[3:3 + count]}
        del precedence[:3 + count]
    width = 3 + len(order["prices"])
    table = [requests[at:at + width] for at in range(0, len(requests), width)]
    return Project([row[2] for row in table], [row[3:] for row in table], sorted(pairs), order["deadline"], order["prices"])


def numbers(rows, title):
    """The numbers of a part of a network text, from the second line after its title on."""
    part = itertools.takewhile(lambda row: row and row[0][0] not in "*R", rows[rows.index(title) + 2:])
    return [int(word) for row in part for word in row if word.strip("-")]


def printed(model):
    """Prints the model of the network and the order whose paths are the words of the command line."""
    print(model(read(*sys.argv[1:3])), end="")
