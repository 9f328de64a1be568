"""A slow reader of orders: rule by rule over the table of an order. Made from 'The order' and its 'Faults' in docs/FORMATS.md."""

import collections
import math
import tomllib

from shared import Written

LATEST = 10_000_000
MOST_PRICE = 1_000_000
FAULTS = ["NotToml", "Missing", "Unknown", "NotWhole", "Range", "Count", "Memory", "Version"]

Order = collections.namedtuple("Order", "deadline prices owned ceilings release due")


def refused(name):
    return Written(f"refused order {FAULTS.index(name) + 1} {name}", 5)


def whole_numbers(value):
    """The whole numbers of a value, however deep they stand."""
    if isinstance(value, dict):
        value = list(value.values())
    if isinstance(value, list):
        return [number for element in value for number in whole_numbers(element)]
    return [value] if is_whole(value) else []


def is_whole(value):
    return isinstance(value, int) and not isinstance(value, bool)


def finite(word):
    """A float as it stands in a text. Python takes one beyond 64 bits for infinity; it is no TOML."""
    number = float(word)
    if math.isinf(number) and "inf" not in word:
        raise refused("NotToml")
    return number


def table_of(text):
    try:
        table = tomllib.loads(text, parse_float=finite)
    except tomllib.TOMLDecodeError:
        raise refused("NotToml")
    if not all(-2**63 <= number < 2**63 for number in whole_numbers(table)):
        raise refused("NotToml")
    return table


def number_of(value, most):
    if not is_whole(value):
        raise refused("NotWhole")
    if not 0 <= value <= most:
        raise refused("Range")
    return value


def numbers_of(value, count, most):
    if not isinstance(value, list) or not all(is_whole(element) for element in value):
        raise refused("NotWhole")
    if len(value) != count:
        raise refused("Count")
    return [number_of(element, most) for element in value]


def keys_of(table):
    """The keys that a table may have."""
    keys = {"deadline", "prices"}
    if "version" in table:
        if not is_whole(table["version"]):
            raise refused("NotWhole")
        if table["version"] != 2:
            raise refused("Version")
        keys |= {"version", "owned", "ceiling", "release", "due"}
    return keys


def read_order(text, resources, jobs):
    table = table_of(text)
    keys = keys_of(table)
    if "deadline" not in table or "prices" not in table:
        raise refused("Missing")
    if set(table) - keys:
        raise refused("Unknown")
    deadline = number_of(table["deadline"], LATEST)
    prices = numbers_of(table["prices"], resources, MOST_PRICE)
    lists = {key: numbers_of(table[key], count, LATEST)
             for key, count in [("owned", resources), ("ceiling", resources), ("release", jobs), ("due", jobs)]
             if key in table}
    due = [min(time, deadline) for time in lists.get("due", [deadline] * jobs)]
    return Order(deadline, prices, lists.get("owned", [0] * resources), lists.get("ceiling"),
                 lists.get("release", [0] * jobs), due)


def order_text(order):
    text = f"version = 2\ndeadline = {order.deadline}\nprices = {order.prices}\nowned = {order.owned}\n"
    text += f"release = {order.release}\ndue = {order.due}\n"
    return text if order.ceilings is None else text + f"ceiling = {order.ceilings}\n"


def cost_of(order, capacities):
    return sum(price * max(0, units - owned) for price, units, owned in zip(order.prices, capacities, order.owned))
