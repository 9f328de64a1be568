"""Texts of a given size that ask for much time or memory beside what they say. Made from 'The order' and 'The certificate' in
docs/FORMATS.md: each is right in its form, and with each certificate stands what `verify` has to say of it."""

from slow.networks import Network, network_text
from slow.orders import Order, order_text
from slow.plans import Plan, plan_text

LATEST = 10_000_000


def texts_of(network, order, plan, proof):
    return tuple(text.encode() for text in [network_text(network), order_text(order), plan_text(plan), proof])


def nested_keys(count):
    """An order with this many keys of twelve parts, each a table in a table. It must not have them."""
    keys = "".join(f"{number:x}.a.a.a.a.a.a.a.a.a.a.a=1\n" for number in range(count))
    return f"deadline = 4\nprices = [10]\n{keys}".encode()


def open_lines(jobs, count):
    """A certificate of this many `D` lines, of which none is closed: six of the jobs request more units than there are, and are
    put off again and again. It is unproved, since it breaks off."""
    requests = [[1, 0, 0], [0, 1, 0], [0, 0, 1], [1, 0, 2], [2, 1, 0], [0, 2, 1]] + [[0, 0, 0]] * (jobs - 6)
    network = Network(3, [2] * 6 + [0] * (jobs - 6), requests, set())
    rest = [0] * (jobs - 6)
    order = Order(LATEST, [1] * 3, [0] * 3, None, [0, 1, 2, 0, 1, 2, *rest], [LATEST] * jobs)
    plan = Plan(LATEST, 4, 12, [4] * 3, [0, 1, 2, 0, 1, 2, *rest])
    return texts_of(network, order, plan, "proof\nvector 2 2 2\n" + "".join(f"D {time}\n" for time in range(1, count + 1)))


def long_clause(size):
    """A certificate by clauses of this many bytes. Half of it is the literals of one clause, which are false of all that is in time, and
    the other half names that clause. It is unproved, since that shows nothing of the plan."""
    jobs = 5
    network = Network(1, [1] * jobs, [[1]] * jobs, set())
    order, plan = Order(jobs, [1], [0], None, [0] * jobs, [jobs] * jobs), Plan(jobs, 1, 1, [1], list(range(jobs)))
    literals = "".join(f"start {job % jobs + 1} >= {jobs + job % 5}\n" for job in range(size // 26))
    begin, name, end = f"proof 2\n{literals}cost >= 0\nholds\n", "clause 1\n", "end\n"
    return texts_of(network, order, plan, begin + name * ((size - len(begin) - len(end)) // len(name)) + end)


def short_lines(size):
    """A certificate by clauses of this many bytes. Three quarters of it are lines that have numbers, as short as may be, and behind them
    stand the numbers of the last ones. It is unproved, since that shows nothing of the plan."""
    network = Network(1, [1], [[1]], set())
    order, plan = Order(1, [1], [0], None, [0], [1]), Plan(1, 1, 1, [1], [0])
    begin, line, end = "proof 2\n", "prices\n", "end\n"
    count = size * 3 // 4 // len(line)
    number = f"{count}\n"
    numbers = number * ((size - len(begin) - len(line) * count - len(end)) // len(number))
    return texts_of(network, order, plan, begin + line * count + numbers + end)


def on_many_starts(size, values, last, part):
    """A certificate by clauses of this many bytes for 512 jobs of one time unit, each of which starts from time 1 to 49, so at least
    eleven of them run at once. The literals of its first clause say that each start is at least each of these values, or before time
    1, and these last ones. Then comes a part again and again. It is unproved, since that shows nothing of the plan."""
    jobs, until = 512, 50
    network = Network(1, [1] * jobs, [[1]] * jobs, set())
    order = Order(until, [1], [0], None, [1] * jobs, [until] * jobs)
    literals = "".join(f"start {job + 1} >= {value}\nstart {job + 1} <= 0\n" for value in values for job in range(jobs))
    begin, end = f"proof 2\n{literals}{last}energy 1 1 {until}\nholds\n", "end\n"
    text = begin + part * ((size - len(begin) - len(end)) // len(part)) + end
    return texts_of(network, order, Plan(until, 2, jobs, [jobs], [1] * jobs), text)


AT_LEAST_ELEVEN, EITHER = "units 1 >= 11\n", "units 1 >= 11\nunits 1 <= 20\n"


def many_starts(size):
    """A clause about both sides of 512 starts, of which all literals are false but the last two, is named again and again."""
    return on_many_starts(size, [50, 51, 52, 53], EITHER, "clause 1\n")


def closed_ones(size):
    """It is named where all its literals are false, so that nothing is left."""
    return on_many_starts(size, [50, 51, 52, 53], AT_LEAST_ELEVEN, AT_LEAST_ELEVEN + "clause 1\n" * 20_000)


def short_derivations(size):
    """Each derivation makes the last of its literals false, names it, and is at its end."""
    return on_many_starts(size, [50, 51, 52, 53], AT_LEAST_ELEVEN, AT_LEAST_ELEVEN + "clause 1\nholds\n")


def other_ones(size):
    """Each line makes some of its literals false, now of the first ones and now of the last ones, and then it is named."""
    places = [place for job in range(256) for place in (job + 1, 512 - job)]
    lines = "".join(f"start {place} >= 9\nclause 1\n" for place in places)
    return on_many_starts(size, [20, 21, 22, 23], EITHER, lines + "cost >= 0\nholds\n")


def useless_blocks(chance, resources, most, count):
    """A certificate for a job that requests all units of each resource. Blocks with a unit less of one of them are enough, and
    before them stands this number of blocks of fewer units. It is verified."""
    network = Network(resources, [1], [[most] * resources], set())
    order = Order(1, [1] * resources, [0] * resources, None, [0], [1])
    plan = Plan(1, 1, most * resources, [most] * resources, [0])
    vectors = [[chance.randrange(most) for _ in range(resources)] for _ in range(count)]
    vectors += [[most - (k == other) for k in range(resources)] for other in range(resources)]
    blocks = "".join(f"vector {' '.join(map(str, vector))}\nD 0\n" for vector in vectors)
    return texts_of(network, order, plan, f"proof\n{blocks}end\n")


def odd_request(chance, jobs):
    """A certificate for jobs of one time unit, all at time 0, with half of the units that they request together. The first job
    requests one unit, and each other an even number, so few alternatives have the first job. It is unproved: that job is not
    late."""
    requests = [1, *(2 * chance.randint(5, 50) for _ in range(jobs - 1))]
    network = Network(1, [1] * jobs, [[units] for units in requests], set())
    order, all_units = Order(2, [1], [0], None, [0] * jobs, [2] * jobs), sum(requests)
    plan = Plan(2, 1, all_units, [all_units], [0] * jobs)
    return texts_of(network, order, plan, f"proof\nvector {all_units // 2}\nD 0\nL 1\nend\n")
