"""A slow reader of tables of tasks, sign by sign, and random tables. Made from 'The table of tasks' and 'racp import' in
docs/FORMATS.md.

That page does not say what a quote within a cell means, or a carriage return within a line; `Open` says that a text has one."""

import collections
import re
import unicodedata
from fractions import Fraction

from slow.networks import Network, early_starts, random_network

LATEST, MOST_JOBS, MOST_RESOURCES, MOST, MOST_LEVEL = 10_000_000, 512, 16, 10_000, 2 ** 64 - 1
NAMES = ["Walls", "Roof", "First fix", "walls", "A, B", "C; D", "3FS", "7", "Über", "<b>", "Walls 2FS", "Sum", "1-3"]
TITLES = {
    "id": "id no nr # number job taskid jobid taskno tasknumber nummer vorgangsnummer",
    "name": "name task taskname activity activityname vorgang vorgangsname bezeichnung",
    "duration": "duration dauer",
    "predecessors": "predecessors predecessor predecessor(s) dependson after vorgänger",
    "successors": "successors successor successor(s) nachfolger",
    "earliest": "earliest startnoearlierthan anfangnichtfrüherals",
    "due": "due finishnolaterthan endenichtspäterals",
    "needs": "resourcenames resources ressourcennamen ressourcen",
    "level": "outlinelevel level gliederungsebene",
}
USED = {key: kind for kind, keys in TITLES.items() for key in keys.split()}
PASSED_OVER = """start finish end begin begindate startdate enddate finishdate scheduledstart scheduledfinish actualstart actualfinish
    anfang ende deadline stichtag cost costs kosten priority priorität %complete complete completion percentcomplete progress
    %abgeschlossen fortschritt wbs wbscode pspcode outlinenumber gliederungsnummer slack totalslack
    freeslack gesamtepufferzeit puffer critical kritisch notes note comment comments notizen bemerkung constrainttype constraintdate
    constraint einschränkungsart einschränkungstermin work arbeit indicators indikatoren active aktiv taskmode vorgangsmodus
    coordinator taskcolor weblink assignments milestone meilenstein summary status guid type""".split()
SUMS = "total totals grandtotal subtotal sum summe gesamt gesamtsumme zwischensumme".split()
DAYS, WEEKS = "d day days t tag tage tagen".split(), "w wk wks week weeks woche wochen".split()
KINDS = {"FS": "FS", "SS": "SS", "FF": "FF", "SF": "SF", "EA": "FS", "AA": "SS", "EE": "FF", "AE": "SF"}

# A row of a task.
Row = collections.namedtuple("Row", "line id name before after duration requests earliest due")


class Refused(Exception):
    """A table that is refused."""


class Open(Exception):
    """A table of which the page does not say what it is."""


class Table:
    """What a table says: a network, the names of the jobs and then of the resources, release and due times or none; how many
    tasks it has, of each the titles of the phases that it is in, how many phases there are, the titles of columns that are passed
    over, and the lines and words of warnings."""

    def __init__(self, network, names, earliest, due, tasks=None, paths=None, phases=0, passed_over=(), warnings=()):
        self.network, self.names, self.earliest, self.due = network, names, earliest, due
        self.tasks = len(network.durations) if tasks is None else tasks
        self.paths, self.phases = [[]] * self.tasks if paths is None else paths, phases
        self.passed_over, self.warnings = list(passed_over), list(warnings)

    def critical(self):
        starts = early_starts(self.network, self.earliest or [0] * len(self.network.durations))
        return max(start + duration for start, duration in zip(starts, self.network.durations))

    def understood(self):
        """The words for what was understood."""
        jobs = len(self.network.durations)
        waits = jobs - self.tasks
        words = f"{counted(self.tasks, 'task')}, " + (f"{counted(self.phases, 'phase')}, " if self.phases else "")
        words += counted(len(self.network.pairs) - waits, "link")
        words += f" ({counted(waits, 'job')} behind the tasks for lags)" if waits else ""
        needs = [f"{name} (most needed at once by a task: {max(row[k] for row in self.network.requests)})"
                 for k, name in enumerate(self.names[jobs:])]
        words += f", critical length {self.critical()}; resources: {', '.join(needs)}"
        return words + (f"; passed over: {', '.join(self.passed_over)}" if self.passed_over else "")


    def names_lines(self):
        """The lines of the names file."""
        lines, before = [], []
        for j, name in enumerate(self.names):
            if j < self.tasks:
                lines += headings(before, self.paths[j])
                before = self.paths[j]
            elif j == self.tasks < len(self.network.durations):
                lines.append("#wait")
            lines.append(f" {name}" if is_mark(name) else name)
        return lines


def headings(before, path):
    """The lines between two tasks that are in these phases, told by places and titles from the outermost on."""
    same = 0
    while same < min(len(before), len(path)) and before[same] == path[same]:
        same += 1
    begun = ["#" * (depth + 1) + " " + title for depth, (_, title) in enumerate(path) if depth >= same]
    return begun or (["#" * (same + 1)] if len(before) > same else [])


def is_mark(line):
    """Whether a line of a names file is no name."""
    return line == "#wait" or re.fullmatch("#+( .*)?", line, re.DOTALL) is not None


def counted(count, thing):
    return f"{count} {thing}{'' if count == 1 else 's'}"


def plain(word):
    """A name with a blank for each control character."""
    return "".join(" " if unicodedata.category(sign) == "Cc" else sign for sign in word)


def key_of(title):
    return re.sub(r"[\s.:_-]", "", title).lower()


# Numbers.

def number(word, most, low=0):
    if not re.fullmatch("[0-9]+", word) or not low <= int(word) <= most:
        raise Refused(f"number {word}")
    return int(word)


def amount(word):
    """The number that a word says, or none."""
    if re.fullmatch("[0-9]+", word):
        return Fraction(int(word))
    mark = "." if "." in word else "," if "," in word else None
    if mark:
        front, back = word.split(mark, 1)
        is_number = re.fullmatch("[0-9]+", front) and re.fullmatch("[0-9]{1,2}", back)
        return Fraction(f"{front}.{back}") if is_number else None
    digits = ""
    for part in re.split(r"['’\s]", word):
        if digits and len(part.encode()) != 3:
            return None
        digits += part
    return Fraction(int(digits)) if re.fullmatch("[0-9]+", digits) else None


def whole(value, most):
    """A number if it is whole and not too great, or none."""
    return int(value) if value is not None and value.denominator == 1 and value <= most else None


def units_in(word, most):
    """How many time units a word says, or none."""
    word = word.rstrip("?").strip()
    first = next((place for place, sign in enumerate(word) if sign.isalpha()), len(word))
    value, unit = amount(word[:first].strip()), word[first:].strip().rstrip(".").lower()
    if value is None or unit and unit not in DAYS + WEEKS:
        return None
    return whole(value * (5 if unit in WEEKS else 1), most)


def needed(value):
    if value is None:
        raise Refused("a number")
    return value


# Rows and cells.

def layout(text):
    """The sign between cells, and how many lines stand above the titles."""
    lines = text.split("\n")
    said = re.match("sep=(.)", lines[0].strip().strip('"'))
    said = said[1] if said else None
    with_words = [place for place, line in enumerate(lines) if line.strip()]
    for place in with_words[:50]:
        for sign in "\t;,":
            kinds = {USED.get(key_of(cell.strip().strip('"'))) for cell in lines[place].split(sign)}
            if said in (None, sign) and {"name", "duration"} <= kinds:
                return sign, place
    for place, line in enumerate(lines):
        if re.search(r'[^\s,;"]', line) and not (place == 0 and said):
            sign = said or next((sign for sign in "\t;" if sign in line), ",")
            return sign if sign in "\t;" else ",", place
    return said if said and said in "\t;" else ",", 0


def rows_of(text, between, line):
    """The rows of a text that begins at a line, each its line and a list of cells; lines without any sign are no rows."""
    rows, cells, cell, at, first = [], [], "", 0, line
    was_quoted = False
    while at < len(text):
        if text[at] == '"' and not cell.strip() and not was_quoted and between not in cell:
            cell, at, was_quoted = "", at + 1, True
            while at < len(text) and not (text[at] == '"' and text[at + 1:at + 2] != '"'):
                cell += text[at]
                at += 2 if text[at] == '"' else 1
            if at >= len(text):
                raise Refused("a quote that is not closed")
            at += 1
            if at < len(text) and text[at] not in between + "\n":
                raise Open("signs behind a quote")
        elif text[at] == between:
            cells, cell, at, was_quoted = [*cells, cell], "", at + 1, False
        elif text[at] == "\n":
            if cells or cell or was_quoted:
                rows.append((first, [*cells, cell]))
            line = text.count("\n", 0, at + 1) + 1
            cells, cell, at, was_quoted, first = [], "", at + 1, False, line
        else:
            cell, at = cell + text[at], at + 1
    return [*rows, (first, [*cells, cell])] if cells or cell or was_quoted else rows


def is_near(a, b):
    """Whether two words are one letter away from each other."""
    if len(a) > len(b):
        a, b = b, a
    if len(a) == len(b):
        return sum(x != y for x, y in zip(a, b)) == 1
    return len(a) + 1 == len(b) and any(b[:place] + b[place + 1:] == a for place in range(len(b)))


def columns_of(head):
    """The places of the columns by what they are for, those of the resources with their names, and the titles that are passed over."""
    places, resources, passed_over = {}, {}, []
    for place, title in enumerate(cell.strip() for cell in head):
        key = key_of(title)
        kind = USED.get(key)
        if kind in places or kind is None and key not in PASSED_OVER and plain(title) in resources:
            raise Refused(f"column {title} twice")
        if kind is not None:
            places[kind] = place
        elif key in PASSED_OVER:
            passed_over.append(plain(title))
        elif key:
            if len(key) >= 4 and any(len(known) >= 4 and is_near(key, known) for known in USED):
                raise Refused(f"column {title} near a title")
            resources[plain(title)] = place
    if resources and "needs" in places:
        passed_over.append(plain(head[places.pop("needs")].strip()))
    if not {"name", "duration"} <= set(places) or not (resources or "needs" in places) or len(resources) > MOST_RESOURCES:
        raise Refused("columns")
    return places, resources, passed_over


# What a row says.

def assigned(cell):
    """What a cell needs by the names of resources."""
    found = collections.Counter()
    for word in (part.strip() for part in re.split("[;,]", cell)):
        told = re.fullmatch(r"(?s)(.*)\[([^\[]*)\]", word)
        name, units = (told[1].strip(), told[2].strip()) if told else (word, "1")
        if not name:
            continue
        value = amount(units.removesuffix("%").strip())
        value = value / 100 if value is not None and units.endswith("%") else value
        found[plain(name)] += needed(whole(value, MOST))
        if found[plain(name)] > MOST:
            raise Refused("too many units")
    return found


def cell_at(cells, place):
    return cells[place] if place is not None and place < len(cells) else ""


def parents_of(tasks, places):
    """Of each row the place of the one that it is a part of, or none."""
    said = lambda kind: [cell_at(cells, places.get(kind)) for _, cells in tasks]
    ids, found = said("id"), []
    levels = [min(number(word, 10 ** 10_000), MOST_LEVEL) for word in said("level")] if "level" in places else None
    for k in range(len(tasks)):
        if levels:
            found.append(next((q for q in reversed(range(k)) if levels[q] < levels[k]), None))
        else:
            wholes = [q for q in range(k) if ids[q] and ids[k].startswith(ids[q] + ".") and ids[k] != ids[q] + "."]
            found.append(max(wholes, key=lambda q: (len(ids[q]), q), default=None))
    return found


def row_of(line, cells, width, places, resources, number, is_phase):
    """The row of a task or a phase; its requests by the names of resources."""
    if any(cells[width:]):
        raise Refused("too many cells")
    cell = lambda place: cell_at(cells, place)
    said = lambda kind: cell(places.get(kind))
    requests, duration = {}, 0
    if not is_phase:
        requests = {name: needed(whole(amount(cell(place) or "0"), MOST)) for name, place in resources.items()}
        requests.update(assigned(said("needs")))
    if not said("name"):
        raise Refused("no name")
    if not is_phase:
        is_milestone = not said("duration") and not any(requests.values())
        duration = 0 if is_milestone else needed(units_in(said("duration"), MOST))
    earliest = needed(units_in(said("earliest") or "0", LATEST))
    due = needed(units_in(said("due") or str(LATEST), LATEST))
    own = said("id") if "id" in places else str(number)
    return Row(line, own, plain(said("name")), said("predecessors"), said("successors"), duration, requests, earliest, due)


# Links.

class Linked:
    """The tasks of rows, by words."""

    def __init__(self, rows):
        self.ids, self.names = [row.id for row in rows], [row.name for row in rows]

    def task_of(self, word):
        """The place of the task with this id, or else with this name; none if there is none."""
        if word and word in self.ids:
            return self.ids.index(word)
        if self.names.count(word) > 1:
            raise Refused(f"name {word} of several tasks")
        return self.names.index(word) if word in self.names else None

    def kinded(self, word):
        """The task of a word without a lag, and the kind of link; none if it is no link."""
        place = self.task_of(word)
        if place is not None:
            return place, "FS"
        kind = KINDS.get(word[-2:].upper()) if word[-2:].isascii() else None
        place = self.task_of(word[:-2].strip()) if kind and len(word) >= 2 else None
        return None if place is None else (place, kind)

    def link_of(self, word):
        """The task, kind and lag of a word; none if it is no link."""
        found = self.kinded(word) if word else None
        if found or not word:
            return (*found, 0) if found else None
        if "+" in word:
            front, lag = word.rsplit("+", 1)
            lag = units_in(lag.strip(), MOST)
            found = None if lag is None else self.kinded(front.strip())
            return (*found, lag) if found else None
        front, lead = word.rsplit("-", 1) if "-" in word else ("", "")
        if "-" in word and units_in(lead.strip(), MOST) is not None and self.named_once(front.strip()) is None:
            if self.kinded(front.strip()):
                raise Refused("a lead")
        return None

    def named_once(self, word):
        return self.ids.index(word) if word and word in self.ids else self.names.index(word) if self.names.count(word) == 1 else None

    def range_of(self, word):
        """The tasks of a range of ids; none if it is no range."""
        first, dash, last = word.partition("-")
        first, last = first.strip(), last.strip()
        if not dash or not all(re.fullmatch("[0-9]+", word) and word in self.ids for word in (first, last)) or int(first) >= int(last):
            return None
        return [place for place, own in enumerate(self.ids) if re.fullmatch("[0-9]+", own) and int(first) <= int(own) <= int(last)]

    def links_in(self, cell):
        """The tasks, kinds and lags of a cell."""
        if (place := self.named_once(cell)) is not None:
            return [(place, "FS", 0)]
        found = []
        for word in (part.strip() for part in re.split("[;,]", cell)):
            link = self.link_of(word)
            if link:
                found.append(link)
            elif word and (places := self.range_of(word)) is not None:
                found += [(place, "FS", 0) for place in places]
            elif word:
                parts = [self.link_of(part) for part in word.split()]
                if None in parts:
                    raise Refused(f"link {word}")
                found += parts
        return found


def links_of(rows, warnings):
    """The links of rows: two places, a kind and a lag."""
    linked, links = Linked(rows), []
    for j, row in enumerate(rows):
        for cell, called, is_before in ((row.before, "predecessor", True), (row.after, "successor", False)):
            found = linked.links_in(cell)
            links += [(i, j, kind, lag) if is_before else (j, i, kind, lag) for i, kind, lag in found]
            if len({i for i, _, _ in found}) < len(found):
                warnings.append((row.line, f"{called} '{cell}' names a task twice; a spreadsheet may have made 1,1 of 1,10"))
    return links


def has_ring(count, pairs):
    left = set(range(count))
    while left:
        free = {j for j in left if not any(i in left for i, k in pairs if k == j)}
        if not free:
            return True
        left -= free
    return False


def is_in(parents, whole, part):
    """Whether a row is another, a part of it, a part of a part and so on."""
    while part is not None and part != whole:
        part = parents[part]
    return part == whole


def leaf_links(parents, leaves, links):
    """The links between tasks that links stand for, from and to phases too."""
    found = []
    for i, j, kind, lag in links:
        if is_in(parents, i, j) or is_in(parents, j, i) or kind != "FS" and not {i, j} <= set(leaves):
            raise Refused("a link of a phase")
        inside = lambda whole: [leaf for leaf in leaves if is_in(parents, whole, leaf)]
        found += [(first, second, kind, lag) for first in inside(i) for second in inside(j)]
    return found


def with_waits(rows, leaves, links):
    """The pairs of links between tasks, which alone are numbered, and the waiting jobs: the duration of each, and the row of the task
    that waits."""
    pairs, waits, numbers = set(), [], {leaf: number for number, leaf in enumerate(leaves)}
    for i, j, kind, lag in links:
        first, second = rows[i].duration, rows[j].duration
        distance = {"FS": first + lag, "SS": lag, "FF": first + lag - second, "SF": lag - second}[kind]
        if distance < first or distance - first > MOST:
            raise Refused("a link")
        if distance == first:
            pairs.add((numbers[i], numbers[j]))
        else:
            place = len(leaves) + len(waits)
            waits.append((distance - first, j))
            pairs |= {(numbers[i], place), (place, numbers[j])}
    return pairs, waits


def row_warnings(rows, leaves):
    """What looks wrong in the rows of tasks."""
    some_have_ids, found = any(row.id for row in rows), []
    for row in (rows[leaf] for leaf in leaves):
        if key_of(row.name) in SUMS:
            found.append((row.line, f"'{row.name}' looks like a sum; it is taken as a task"))
        elif some_have_ids and not row.id:
            found.append((row.line, f"'{row.name}' has no id, and others have; it is taken as a task"))
    return found


def phases_of(rows, parents, k):
    """The places and titles of the phases that a row is in, from the outermost on."""
    path = []
    while parents[k] is not None:
        k = parents[k]
        path.insert(0, (k, rows[k].name))
    return path


def table_of(rows, parents, names, places, passed_over):
    warnings = []
    leaves = [k for k in range(len(rows)) if k not in parents]
    links = links_of(rows, warnings)
    between = leaf_links(parents, leaves, links)
    if has_ring(len(rows), {(i, j) for i, j, _, _ in between}):
        raise Refused("a ring")
    warnings += row_warnings(rows, leaves)
    if not links and len(leaves) > 1:
        warnings.append((0, "no task waits for another"))
    pairs, waits = with_waits(rows, leaves, between)
    if not 1 <= len(leaves) <= len(leaves) + len(waits) <= MOST_JOBS or not 1 <= len(names) <= MOST_RESOURCES:
        raise Refused("too many")
    durations = [rows[leaf].duration for leaf in leaves] + [duration for duration, _ in waits]
    requests = [[rows[leaf].requests.get(name, 0) for name in names] for leaf in leaves] + [[0] * len(names) for _ in waits]
    above = lambda k: [k, *(phase for phase, _ in phases_of(rows, parents, k))]
    earliest = [max(rows[k].earliest for k in above(leaf)) for leaf in leaves] + [0] * len(waits)
    due = [min(rows[k].due for k in above(leaf)) for leaf in leaves] + [LATEST] * len(waits)
    called = [rows[leaf].name for leaf in leaves] + [f"wait for {rows[j].name}" for _, j in waits]
    return Table(Network(len(names), durations, requests, pairs), [*called, *names], earliest if "earliest" in places else None,
                 due if "due" in places else None, len(leaves), [phases_of(rows, parents, leaf) for leaf in leaves],
                 len(rows) - len(leaves), passed_over, warnings)


def read_cells(text):
    if re.search("\r(?!\n)", text):
        raise Open("a carriage return")
    text = "\n".join(line.removesuffix("\r") for line in text.split("\n"))
    between, above = layout(text)
    rows = rows_of("\n" * above + "\n".join(text.split("\n")[above:]), between, 1)
    if not rows or not any(cell.strip() for cell in rows[0][1]):
        raise Refused("empty")
    head = rows[0][1]
    if len(head) > 1_000:
        raise Refused("columns")
    places, resources, passed_over = columns_of(head)
    tasks = [(line, [cell.strip() for cell in row]) for line, row in rows[1:] if any(cell.strip() for cell in row)]
    if not 1 <= len(tasks) <= 2 * MOST_JOBS:
        raise Refused("rows")
    parents = parents_of(tasks, places)
    found = [row_of(line, cells, len(head), places, resources, j + 1, j in parents) for j, (line, cells) in enumerate(tasks)]
    ids = [row.id for row in found if row.id]
    if len(set(ids)) < len(ids):
        raise Refused("an id twice")
    names = [*resources, *dict.fromkeys(name for row in found for name in row.requests if name not in resources)]
    return table_of(found, parents, names, places, passed_over)


# Several tables.

def labels(paths):
    """What the tables in these files are called beside each other; refused if two are called the same."""
    names = [path.rpartition("/")[2] for path in paths]
    found = [name.rpartition(".")[0] or name for name in names]
    if len(set(found)) < len(found):
        raise Refused("two of one name")
    return found


def joined(parts):
    """The table of several, each told by its name and what it says."""
    of_all = list(dict.fromkeys(name for _, table in parts for name in table.names[len(table.network.durations):]))
    durations, requests, called, places = [], [], [], {}
    earliest, due = [], []
    for are_tasks in (True, False):
        for t, (label, table) in enumerate(parts):
            jobs = len(table.network.durations)
            for i in range(table.tasks) if are_tasks else range(table.tasks, jobs):
                needs = dict(zip(table.names[jobs:], table.network.requests[i]))
                places[t, i] = len(durations)
                durations.append(table.network.durations[i])
                requests.append([needs.get(name, 0) for name in of_all])
                called.append(f"{label}: {table.names[i]}")
                earliest.append(table.earliest[i] if table.earliest else 0)
                due.append(table.due[i] if table.due else LATEST)
    if len(durations) > MOST_JOBS or len(of_all) > MOST_RESOURCES:
        raise Refused("too many")
    pairs = {(places[t, i], places[t, j]) for t, (_, table) in enumerate(parts) for i, j in table.network.pairs}
    paths = [[((t, None), label), *(((t, place), title) for place, title in path)] for t, (label, table) in enumerate(parts)
             for path in table.paths]
    return Table(Network(len(of_all), durations, requests, pairs), [*called, *of_all],
                 earliest if any(table.earliest for _, table in parts) else None, due if any(table.due for _, table in parts) else None,
                 sum(table.tasks for _, table in parts), paths, len(parts) + sum(table.phases for _, table in parts))


# Patterson's format.

def read_numbers(text):
    words = text.split()
    take = lambda most, low=0: number(words.pop(0) if words else "", most, low)
    jobs, resources = take(MOST_JOBS, 1), take(MOST_RESOURCES, 1)
    for _ in range(resources):
        take(2 ** 32 - 1)
    durations, requests, pairs = [], [], set()
    for j in range(jobs):
        durations.append(take(MOST))
        requests.append([take(MOST) for _ in range(resources)])
        pairs |= {(j, take(jobs, 1) - 1) for _ in range(take(jobs))}
    if words:
        raise Refused("more numbers")
    if has_ring(jobs, pairs):
        raise Refused("a ring")
    names = [f"Job {j + 1}" for j in range(jobs)] + [f"R {k + 1}" for k in range(resources)]
    return Table(Network(resources, durations, requests, pairs), names, None, None)


def read(body):
    """What a table says."""
    if body.startswith((b"PK\x03\x04", b"\xd0\xcf\x11\xe0")):
        raise Refused("a workbook")
    try:
        text = body.decode().removeprefix("\ufeff")
    except UnicodeDecodeError:
        raise Refused("not UTF-8") from None
    if any(line.strip() == "PRECEDENCE RELATIONS:" for line in text.split("\n")):
        raise Refused("a network")
    first = next((line.split() for line in text.split("\n") if line.split()), ["a"])
    return read_numbers(text) if all(re.fullmatch("[0-9]+", word) for word in first) else read_cells(text)


# Random tables.

def quoted(chance, cell, between):
    needs = any(sign in cell for sign in between + '"')
    blanks = " " if chance.random() < 0.1 and between != "\t" else ""
    return blanks + '"' + cell.replace('"', '""') + '"' if needs or chance.random() < 0.1 else cell


def numbers_text(network):
    """A table in Patterson's format."""
    jobs = range(len(network.durations))
    lines = [[len(jobs), network.resources], [9] * network.resources]
    for i in jobs:
        after = sorted(b + 1 for a, b in network.pairs if a == i)
        lines.append([network.durations[i], *network.requests[i], len(after), *after])
    return "".join(" ".join(map(str, line)) + "\n" for line in lines)


def random_title(chance, kind):
    """A title of this kind, written in some way."""
    written = {"taskname": "Task Name", "dependson": "Depends on", "taskid": "Task-ID", "no": "No.", "startnoearlierthan":
               "Start no earlier than", "resourcenames": "Resource Names"}
    key = chance.choice(TITLES[kind].split())
    return chance.choice([key, key.upper() if key.isascii() else key, written.get(key, key.capitalize())])


def random_links(chance, network, called, j, is_before):
    """A cell with links of a task."""
    others = sorted(i for i, k in network.pairs if k == j) if is_before else sorted(k for i, k in network.pairs if i == j)
    lags = ["", "", "", "FS", " FS", "fs+2", "FS + 1 day", "+1", "SS+4", "EA", "FF+3"] if chance.random() < 0.3 else [""]
    return chance.choice([",", ";", ", ", " "]).join(called(i) + chance.choice(lags) for i in others)


def random_outline(chance, count):
    """Rows of an outline: of each its level, and the number of its task, or none of a phase."""
    rows, level = [], 0
    for task in range(count):
        level = chance.randint(0, level)
        while chance.random() < 0.3:
            rows.append((level, None))
            level += chance.choice([1, 1, 2])
        rows.append((level, task))
    return rows


def outline_ids(rows):
    """Ids by which rows with these levels are parts of each other."""
    ids, open_rows, counts = [], [], {}
    for level, _ in rows:
        open_rows = [(other, own) for other, own in open_rows if other < level]
        whole = open_rows[-1][1] if open_rows else ""
        counts[whole] = counts.get(whole, 0) + 1
        ids.append(f"{whole}.{counts[whole]}" if whole else str(counts[whole]))
        open_rows.append((level, ids[-1]))
    return ids


def random_table(chance):
    """The text of a random table."""
    network = random_network(chance, 7)
    if chance.random() < 0.2:
        return numbers_text(network)
    count = len(network.durations)
    has_phases = chance.random() < 0.4
    rows = random_outline(chance, count) if has_phases else [(0, task) for task in range(count)]
    by_level, has_ids = chance.random() < 0.5, has_phases or chance.random() < 0.6
    is_named, is_before = chance.random() < 0.4, chance.random() < 0.8
    names = [chance.choice(NAMES) + ("" if chance.random() < 0.3 else f" {j}") for j in range(len(rows))]
    ids = [str(j + 1) for j in range(len(rows))]
    if has_phases and not by_level:
        ids = outline_ids(rows)
    elif has_ids:
        ids = [chance.choice(["", "T", "0", "1."]) + str(j + chance.choice([1, 1, 4])) for j in range(len(rows))]
    row_of_task = {task: j for j, (_, task) in enumerate(rows) if task is not None}
    called = lambda task: names[row_of_task[task]] if is_named else ids[row_of_task[task]]
    units = lambda number: chance.choice(["", "", "", " days", "d", ".0", " Tage?"]) if number else ""
    per_row = lambda of_task, of_phase: [of_phase(j) if task is None else of_task(task) for j, (_, task) in enumerate(rows)]
    parents = [next((q for q in reversed(range(j)) if rows[q][0] < rows[j][0]), None) for j in range(len(rows))]
    apart = lambda j: [ids[q] + chance.choice(["", "", "FS", "FS+2", "SS"]) for q in range(j) if not is_in(parents, q, j)]
    phase_links = lambda j: chance.choice(["", ids[j], *apart(j), *apart(j)]) if is_before else ""
    columns = [[random_title(chance, "name"), *names],
               [random_title(chance, "duration"), *per_row(lambda task: f"{network.durations[task]}{units(network.durations[task])}",
                                                           lambda _: chance.choice(["", "9", "12 days?", "much"]))],
               [random_title(chance, "predecessors" if is_before else "successors"),
                *per_row(lambda task: random_links(chance, network, called, task, is_before), phase_links)]]
    columns += [[random_title(chance, "id"), *ids]] if has_ids else []
    if has_phases and by_level:
        columns.append([random_title(chance, "level"), *(str(level + 1) for level, _ in rows)])
    if chance.random() < 0.2:
        columns.append([random_title(chance, "needs"), *per_row(lambda task: chance.choice([";", ", "]).join(
            f"R{k}" + chance.choice([f"[{units}]", f"[{units}00%]"]) for k, units in enumerate(network.requests[task]) if units),
            lambda _: chance.choice(["", "", "Crew[2]", "R1, Crew", "R0[x]"]))])
    else:
        columns += [[f"R{k}", *per_row(lambda task: str(network.requests[task][k]) if network.requests[task][k] or chance.random() < 0.5
                                       else "", lambda _: chance.choice(["", "7", "-"]))] for k in range(network.resources)]
    for kind in ["earliest", "due"]:
        if chance.random() < 0.3:
            columns.append([random_title(chance, kind), *(chance.choice(["", "0", "3", "17", str(LATEST)]) for _ in rows)])
    if chance.random() < 0.3:
        columns.append([chance.choice(["Cost", "% Complete", "Start", "Slack"]), *("9" for _ in rows)])
    chance.shuffle(columns)
    between = chance.choice(",,;\t")
    above = chance.choice(["", "", "", f"sep={between}\n", "The house\n\n"])
    return above + "".join(between.join(quoted(chance, column[row], between) for column in columns) + chance.choice(["\n", "\r\n"])
                           for row in range(len(rows) + 1))
