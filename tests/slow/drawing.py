"""A slow drawing of a plan as SVG: a row for each task, a stair for each resource and their axes, all in one scale. Made from
'racp show' and 'racp report' in docs/FORMATS.md."""

import re

from slow.charts import columns_of, cut
from slow.networks import critical_length, early_starts, late_starts, usage
from slow.pictures import elements, lines_drawn, picture_of, round_numbers

LEFT, RIGHT, WIDTH = 270, 970, 1000
MOST_NAME = 40


class Frame:
    """What the picture of a plan shows, and where: the drawings below the heading, each with how far down it begins."""

    def __init__(self, picture, deadline):
        self.groups = [(int(re.fullmatch(r"translate\(0 ([0-9]+)\)", it.get("transform"))[1]), it)
                       for it in elements(picture, "g") if it.get("transform")]
        self.deadline = deadline

    def across(self, time):
        return LEFT + (min(time, self.deadline) * (RIGHT - LEFT) // self.deadline if self.deadline else 0)

    def stair(self, steps, capacity, base, top):
        """The outline of a usage in steps, in a scale that has no units at the base and the capacity at the top."""
        corners = [(self.across(time), base - units * (base - top) // max(1, capacity)) for time, units in steps]
        return f"M{LEFT} {base}" + "".join(f"H{x}V{y}" for x, y in corners) + f"H{RIGHT}V{base}Z"


def short(name):
    """A name as it stands beside a drawing."""
    return name if columns_of(name) <= MOST_NAME else cut(name, MOST_NAME - 1) + "…"


def steps_of(network, plan, k):
    """From which time on how many units of a resource are used."""
    used = [usage(network, plan.starts, k, time) for time in range(plan.deadline + 1)]
    return [(time, units) for time, units in enumerate(used) if time == 0 or units != used[time - 1]]


def wrong_svg(got, network, order, plan, names, has_links):
    """What is wrong with a picture of a plan, or nothing."""
    picture = picture_of(got)
    if picture is None:
        return f"no picture: {got}"
    frame = Frame(picture, plan.deadline)
    if len(frame.groups) != network.resources + 2:
        return f"drawings: {frame.groups}"
    return (wrong_head(picture, plan) or wrong_axes(frame, frame.groups[1][1], ["above", "below"])
            or wrong_rows(frame, network, order, plan, names) or wrong_links(frame, network, plan, has_links)
            or wrong_panels(frame, network, plan, names) or wrong_places(frame, picture))


def unlike(what, wanted, drawn):
    return None if wanted == drawn else f"{what}: wanted {wanted}\n  drawn {drawn}"


def wrong_head(picture, plan):
    """What is wrong with the size and the heading of a picture, or nothing."""
    title = f"Plan of cost {plan.cost} by deadline {plan.deadline}"
    height = picture.get("height")
    return (unlike("size", (f"0 0 {WIDTH} {height}", str(WIDTH)), (picture.get("viewBox"), picture.get("width")))
            or unlike("title", title, picture[0].text)
            or unlike("heading", [title], [it.text for it in elements(picture, "text", **{"class": "title"})])
            or unlike("critical length", [f"critical length {plan.critical}"],
                      [it.text for it in elements(picture, "text") if (it.text or "").startswith("critical length ")]))


def wrong_axes(frame, drawing, places):
    """What is wrong with the axes of times of a drawing, or nothing: round numbers at these places, above and below what is drawn,
    each with an upright line; and a line at the deadline."""
    times = round_numbers(0, frame.deadline)
    lines = lines_drawn(elements(drawing, "path", **{"class": "line"}), "V")
    _, top, bottom = lines[0]

    def place_of(number):
        y = int(number.get("y"))
        return "above" if y < top else "below" if y > bottom else "in it"

    numbers = [(it.text, int(it.get("x")), place_of(it)) for it in elements(drawing, "text", **{"class": "mark"})]
    wanted = [(str(time), frame.across(time), place) for place in places for time in times]
    return (unlike("times", wanted, numbers)
            or unlike("lines at times", [(frame.across(time), top, bottom) for time in times], lines)
            or unlike("deadline", [(RIGHT, top, bottom)], lines_drawn(elements(drawing, "path", **{"class": "deadline"}), "V")))


def row_of(row):
    """The tooltip of a row, its name, where it begins and how high it is, its line of slack, and its shape."""
    title, stripe, name, slack, shape = row
    return title.text, name.text or "", (int(stripe.get("y")), int(stripe.get("height"))), slack.get("d"), shape


def rows_in(frame):
    return [row_of(it) for it in frame.groups[1][1] if it.tag.endswith("}g")]


def wrong_rows(frame, network, order, plan, names):
    """What is wrong with the rows of the tasks, or nothing: each stands right below the one before it."""
    rows = rows_in(frame)
    ends = [s + d for s, d in zip(plan.starts, network.durations)]
    late = late_starts(network, order.due)
    critical = critical_length(network, order.release)
    chain = [e == s for e, s in zip(early_starts(network, order.release), late_starts(network, [critical] * len(ends)))]
    places = [place for _, _, place, _, _ in rows]
    if len(rows) != len(ends) or any(a + high != b for (a, high), (b, _) in zip(places, places[1:])):
        return f"rows: {places}"
    for j, (tip, name, (top, high), slack, shape) in enumerate(rows):
        whole = names.get(j) or f"task {j + 1}"
        before = sorted(a + 1 for a, b in network.pairs if b == j)
        wanted = f"{whole}\ntask {j + 1}, from {plan.starts[j]} to {ends[j]}, slack {late[j] - plan.starts[j]}"
        wanted += f", after {', '.join(map(str, before))}" if before else ""
        line = f"M{frame.across(ends[j])} {top + high // 2}H{frame.across(late[j] + network.durations[j])}"
        wrong = (unlike(f"tooltip {j + 1}", wanted, tip) or unlike(f"name {j + 1}", short(whole), name)
                 or unlike(f"slack {j + 1}", line, slack)
                 or unlike(f"shape {j + 1}", shape_wanted(frame, plan.starts[j], ends[j], chain[j]), shape_drawn(shape, top, high)))
        if wrong is not None:
            return wrong
    return None


def shape_wanted(frame, start, end, is_critical):
    """What a task is drawn as: its colour, where it begins, and how wide a bar is, which can be seen, however short it is."""
    x, kind = frame.across(start), "critical" if is_critical else "bar"
    return (kind, x, "diamond") if start == end else (kind, x, max(1, frame.across(end) - x))


def shape_drawn(shape, top, high):
    """The same of a shape that stands within a row."""
    if shape.get("d"):
        x, y = map(int, re.fullmatch("M([0-9]+) ([0-9]+)l6 6l-6 6l-6 -6z", shape.get("d")).groups())
        size = (12, "diamond")
    else:
        x, y, size = int(shape.get("x")), int(shape.get("y")), (int(shape.get("height")), int(shape.get("width")))
    return (shape.get("class"), x, size[1]) if top <= y and y + size[0] <= top + high else f"beside its row: {y} {top}"


def wrong_links(frame, network, plan, has_links):
    """What is wrong with the arrows between tasks, or nothing: each goes from the end of one to the start of another."""
    middles = [top + high // 2 for _, _, (top, high), _, _ in rows_in(frame)]
    wanted = [(frame.across(plan.starts[a] + network.durations[a]), middles[a], frame.across(plan.starts[b]), middles[b])
              for b in range(len(plan.starts)) for a in range(len(plan.starts)) if (a, b) in network.pairs] if has_links else []
    drawing = frame.groups[1][1]
    lines = [re.fullmatch("M([0-9]+) ([0-9]+)C.* ([0-9]+) ([0-9]+)", it.get("d"))
             for it in elements(drawing, "path", **{"class": "link"})]
    tips = [re.match("M([0-9]+) ([0-9]+)", it.get("d")) for it in elements(drawing, "path", **{"class": "tip"})]
    return (unlike("arrows", wanted, [tuple(map(int, it.groups())) for it in lines])
            or unlike("tips", [(x, y) for _, _, x, y in wanted], [tuple(map(int, it.groups())) for it in tips]))


def wrong_panels(frame, network, plan, names):
    """What is wrong with the drawings of the resources, or nothing: each has its name, its capacity as a line, how busy it is, and
    its usage as a stair below the line."""
    for k, (_, panel) in enumerate(frame.groups[2:]):
        name = names.get(len(plan.starts) + k) or f"resource {k + 1}"
        units = plan.capacities[k]
        work = sum(d * r[k] for d, r in zip(network.durations, network.requests))
        busy = 100 * work // (units * plan.deadline) if units * plan.deadline else 0
        (left, top, right), = lines_drawn(elements(panel, "path", **{"class": "limit"}), "H")
        stair, = [it.get("d") for it in elements(panel, "path", **{"class": "used"})]
        base = int(re.match(f"M{LEFT} ([0-9]+)", stair)[1])
        texts = [it.text or "" for kind in ["head", None] for it in elements(panel, "text", **{"class": kind})]
        wrong = (unlike("line of a capacity", (LEFT, RIGHT), (left, right))
                 or unlike("name and share", [short(name), f"units {units}, {busy}% busy"], texts)
                 or unlike("numbers of units", [(str(units), top + 4), ("0", base + 4)],
                           [(it.text, int(it.get("y"))) for it in elements(panel, "text", **{"class": "end"})])
                 or unlike("stair", frame.stair(steps_of(network, plan, k), units, base, top), stair)
                 or wrong_axes(frame, panel, ["below"]))
        if wrong is not None:
            return f"resource {k + 1}: {wrong}"
    return None


def wrong_places(frame, picture):
    """What is wrong with the places of the drawings, or nothing: each ends before the next begins, and the last in the picture."""
    tops = [top for top, _ in frame.groups]
    lowest = [max(int(it.get("y")) for it in elements(group, "text")) for _, group in frame.groups]
    ends = [top + low for top, low in zip(tops, lowest)]
    begins = [top + min(int(it.get("y")) for it in elements(group, "text")) for top, group in frame.groups]
    after = [*begins[1:], int(picture.get("height"))]
    return None if all(end < begin for end, begin in zip(ends, after)) else f"drawings stand on others: {ends} {after}"
