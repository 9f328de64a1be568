"""A slow drawing of a plan as a chart: column by column and time unit by time unit. Made from 'racp show' in
docs/FORMATS.md. That page leaves open how much of a line names take: `most_label` and `room_of` say it."""

import unicodedata

from slow.networks import usage

LEAST_WIDTH = 40
MOST_LABEL = 24
LEAST_COLUMNS = 8
LONGEST_WORDS = len("resource 16")
TENTH = 10
EIGHTHS = " ▁▂▃▄▅▆▇█"


def labels_of(network, names):
    kinds = [("job", len(network.durations)), ("resource", network.resources)]
    for kind, count in kinds:
        for place in range(count):
            at = place if kind == "job" else len(network.durations) + place
            yield names.get(at) or f"{kind} {place + 1}"


def cut(label, most):
    taken = ""
    for letter in label:
        if columns_of(taken + letter) > most:
            break
        taken += letter
    return taken


def columns_of(text):
    """How many columns a text takes on a terminal."""
    return sum(0 if unicodedata.combining(letter) else 2 if unicodedata.east_asian_width(letter) in "WF" else 1
               for letter in text)


def span_of(deadline, most):
    span = 1
    while -(-deadline // span) > most:
        span += 1
    return span


def bar_of(start, end, span, columns, mark):
    if start == end:
        return "".join("|" if c == min(start // span, columns - 1) else " " for c in range(columns))
    return "".join(mark if any(start <= t < end for t in range(c * span, (c + 1) * span)) else " " for c in range(columns))


def levels_of(network, starts, k, capacity, span, columns, is_ascii):
    drawn = ""
    for c in range(columns):
        used = max(usage(network, starts, k, t) for t in range(c * span, (c + 1) * span))
        if is_ascii:
            drawn += " " if used == 0 else str(-(-9 * used // capacity))
        else:
            drawn += EIGHTHS[-(-8 * used // capacity) if used else 0]
    return drawn


def note_of(network, plan, k):
    """How many units of a resource there are and how busy they are."""
    capacity = plan.capacities[k]
    work = sum(d * r[k] for d, r in zip(network.durations, network.requests))
    whole = capacity * plan.deadline
    return f"{capacity} unit{'' if capacity == 1 else 's'}, {100 * work // whole if whole else 0}% busy"


def rows_wanted(network, plan, span, columns, is_ascii):
    """What has to follow the label in each row, jobs first."""
    for start, duration in zip(plan.starts, network.durations):
        yield f"{bar_of(start, start + duration, span, columns, '#' if is_ascii else '█')}  {start}..{start + duration}"
    for k, capacity in enumerate(plan.capacities):
        yield f"{levels_of(network, plan.starts, k, capacity, span, columns, is_ascii)}  {note_of(network, plan, k)}"


def room_of(network, plan, width):
    """How many columns of a line of this width there are for a name and for times. Two blanks stand after the name, and two
    before the note, for which there is as much room as the longest takes: that of a resource, or one of times up to the
    deadline."""
    notes = [f"{plan.deadline}..{plan.deadline}", *(note_of(network, plan, k) for k in range(network.resources))]
    return max(width, LEAST_WIDTH) - max(map(len, notes)) - 4


def most_label(room):
    """How many columns of this much room a name takes at most: half of it, and more only if eight columns are left for times
    and it is no longer than the longest words for a resource."""
    return min(MOST_LABEL, max(room // 2, min(LONGEST_WORDS, room - LEAST_COLUMNS)))


def ruler_wanted(begin, span, columns):
    """The two lines over the columns, of which each tenth has its first time over it and a mark."""
    times = marks = ""
    for c in range(0, columns, TENTH):
        times = times.ljust(begin + c) + str(c * span)
        marks = marks.ljust(begin + c) + "|"
    return [times, marks] if columns else []


def head_wanted(plan, width):
    head = [f"deadline {plan.deadline}", f"critical length {plan.critical}", f"cost {plan.cost}"]
    return [", ".join(head)] if len(", ".join(head)) <= max(width, LEAST_WIDTH) else head


def scale_of(network, plan, names, width):
    """The names as they stand in a chart of this width, the column at which the times begin, and how many time units a column
    stands for: the least with which there is room for all. docs/FORMATS.md leaves open how much of the room names take; the two
    functions above say it."""
    room = room_of(network, plan, width)
    labels = [cut(label, most_label(room)) for label in labels_of(network, names)]
    widest = max(map(columns_of, labels))
    return labels, widest + 2, span_of(plan.deadline, max(1, room - widest))


def wrong_chart(text, network, plan, names, width, is_ascii):
    """What is wrong with a chart, or nothing."""
    labels, begin, span = scale_of(network, plan, names, width)
    columns = -(-plan.deadline // span)
    rows = [label + " " * (begin - columns_of(label)) + row
            for label, row in zip(labels, rows_wanted(network, plan, span, columns, is_ascii), strict=True)]
    jobs = len(network.durations)
    lines = [*head_wanted(plan, width), "", *ruler_wanted(begin, span, columns), *rows[:jobs], "", *rows[jobs:], ""]
    if any(columns_of(line) > max(width, LEAST_WIDTH) or line != line.rstrip() for line in text.split("\n")):
        return f"a line is too long, or ends with blanks:\n{text}"
    return None if text == "\n".join(lines) else "wanted:\n{}\n  written:\n{}".format("\n".join(lines), text)
