"""What `racp export` writes for planners, compared with a plan and with the days that slow/calendars.py counts; and what TaskJuggler and
the stylesheet of Planner make of it, where they are installed."""

import csv
import datetime
import pathlib
import re
import shutil
import subprocess
import tempfile
import xml.etree.ElementTree as xml

import slow.calendars

TJ3 = shutil.which("tj3")
SHEET = pathlib.Path("/usr/share/planner/stylesheets/msp2planner.xsl")
XSLTPROC = shutil.which("xsltproc") if SHEET.exists() else None
SPACE = "{http://schemas.microsoft.com/project}"
DAY = datetime.timedelta(1)


class Plan:
    """The rows of an exported table with their times and days, counted apart from the program."""

    def __init__(self, table, plan, calendar):
        self.table = list(csv.DictReader(table.splitlines(keepends=True)))
        self.rows = [row for row in self.table if row["id"]]
        self.resources = list(self.table[0])[7:]
        said = [line.split() for line in plan.splitlines()]
        self.deadline = next(int(words[1]) for words in said if words[0] == "deadline")
        self.units = [int(words[2]) for words in said if words[0] == "capacity"]
        self.starts = [int(words[2]) for words in said if words[0] == "start"][: len(self.rows)]
        self.durations = [int(row["duration"]) for row in self.rows]
        self.calendar = calendar
        self.links = [[parsed(link) for link in row["predecessors"].split(", ") if link] for row in self.rows]
        self.blocks = calendar.days(max([self.deadline, *(self.link_end(link) for links in self.links for link in links)]) + 1)

    def end(self, place):
        return self.starts[place] + self.durations[place]

    def link_end(self, link):
        return self.end(link[0] - 1) + link[1]

    def days(self, start, end):
        return slow.calendars.told(self.calendar, start, end, self.blocks)

    def work(self, start, end):
        """How many days are worked on from a time to another."""
        return sum(len(block) for block in self.blocks[start:end]) if self.calendar.span == 1 else self.work_of_weeks(start, end)

    def work_of_weeks(self, start, end):
        if start == end:
            return 0
        first, last = self.days(start, end)
        return sum(first <= day <= last for block in self.blocks for day in block)

    def moments(self, place, between="T", seconds=":00"):
        """When a task begins and when it ends."""
        start, end = self.starts[place], self.end(place)
        first, last = self.days(start, end)
        begins = "08:00" if start < end or start == 0 else "17:00"
        ends = "08:00" if end == 0 else "17:00"
        return f"{first}{between}{begins}{seconds}", f"{last}{between}{ends}{seconds}"

    def needs(self, place):
        return [int(self.rows[place][name]) for name in self.resources]

    def ready(self, place):
        return max([0, *(self.link_end(link) for link in self.links[place])])

    def is_followed(self, place):
        return any(link[0] == place + 1 for links in self.links for link in links)


def parsed(link):
    """The number and the lag of a link such as `3+2`."""
    job, _, lag = link.partition("+")
    return int(job), int(lag or 0)


def texts(node, tag):
    return [child.text or "" for child in node.iter(SPACE + tag)]


def fields(node, *tags):
    return [node.findtext(SPACE + tag) for tag in tags]


# MS Project.

def wanted_task(plan, place, task):
    """What is wanted of a task in XML."""
    start, finish = plan.moments(place)
    hours = 8 * plan.work(plan.starts[place], plan.end(place))
    tied = plan.ready(place) < plan.starts[place]
    last = None if plan.is_followed(place) else f"{plan.days(0, plan.deadline)[1]}T17:00:00"
    said = [str(place + 1), plan.rows[place]["name"], start, finish, f"PT{hours}H0M0S", f"PT{hours * sum(plan.needs(place))}H0M0S"]
    said += [str(int(not hours)), "0", "4" if tied else "0", start if tied else None, last]
    links = [[str(link[0]), "1", str(4800 * plan.work(plan.end(link[0] - 1), plan.link_end(link)))] for link in plan.links[place]]
    found = fields(task, "UID", "Name", "Start", "Finish", "Duration", "Work", "Milestone", "Summary", "ConstraintType", "ConstraintDate", "Deadline")
    found_links = [fields(link, "PredecessorUID", "Type", "LinkLag") for link in task.iter(SPACE + "PredecessorLink")]
    return None if (found, found_links) == (said, links) else f"the task {found}, {found_links} and not {said}, {links}"


def wrong_rows(plan, tasks):
    """What is wrong with the rows in XML, which are numbered and stand in an outline."""
    if len(tasks) != len(plan.table):
        return f"{len(tasks)} rows of {len(plan.table)}"
    place = 0
    for number, (row, task) in enumerate(zip(plan.table, tasks), 1):
        if fields(task, "ID", "OutlineLevel") != [str(number), str(int(row["level"]) + 1)]:
            return f"row {number} has {fields(task, 'ID', 'OutlineLevel')}"
        if row["id"]:
            wrong, place = wanted_task(plan, place, task), place + 1
        else:
            wrong = None if fields(task, "Name", "Summary") == [row["name"], "1"] else f"the phase {fields(task, 'Name', 'Summary')}"
        if wrong:
            return wrong
    return None if len({task.findtext(SPACE + "UID") for task in tasks}) == len(tasks) else "two rows have the same UID"


def wrong_calendar(plan, root):
    """What is wrong with the days of the week and the free days, each of which is told twice."""
    week = [fields(day, "DayType", "DayWorking") for day in root.iter(SPACE + "WeekDay")]
    wanted = [[str(day + 1), str(int((day - 1) % 7 in plan.calendar.worked))] for day in range(7)]
    free = [f"{day}T00:00:00" for day in sorted(plan.calendar.free) if day.weekday() in plan.calendar.worked]
    days = texts(root, "FromDate")
    is_right = week == wanted + [["0", "0"]] * len(free) and days == free * 2
    return None if is_right else f"the week {week}, free days {days} and not {wanted}, {free}"


def wrong_needs(plan, root):
    """What is wrong with the resources and with what tasks need of them."""
    resources = [fields(node, "ID", "Name", "MaxUnits") for node in root.iter(SPACE + "Resource")]
    wanted = [[str(k + 1), name, f"{units}.0"] for k, (name, units) in enumerate(zip(plan.resources, plan.units))]
    if resources != wanted:
        return f"resources {resources} and not {wanted}"
    found = [fields(node, "TaskUID", "ResourceUID", "Units", "Work", "Start", "Finish") for node in root.iter(SPACE + "Assignment")]
    expected = []
    for place in range(len(plan.rows)):
        hours = 8 * plan.work(plan.starts[place], plan.end(place))
        expected += [[str(place + 1), str(k + 1), f"{units}.0", f"PT{hours * units}H0M0S", *plan.moments(place)]
                     for k, units in enumerate(plan.needs(place)) if units]
    numbers = texts(root.find(SPACE + "Assignments"), "UID")
    return None if found == expected and len(set(numbers)) == len(numbers) else f"needs {found} and not {expected}"


def wrong_project(text, plan):
    """What is wrong with a project of MS Project."""
    root = xml.fromstring(text)
    tasks = root.find(SPACE + "Tasks")
    wrong = wrong_rows(plan, list(tasks)) or wrong_calendar(plan, root) or wrong_needs(plan, root)
    return wrong or (wrong_sheet(text, plan) if XSLTPROC else None)


def wrong_sheet(text, plan):
    """What is wrong with what the stylesheet of Planner makes of a project: its tasks with their times, links and units."""
    done = subprocess.run([XSLTPROC, SHEET, "-"], input=text, capture_output=True)
    if done.returncode:
        return f"xsltproc: {done.stderr.decode()}"
    root = xml.fromstring(done.stdout)
    ids = {row["id"]: str(number) for number, row in enumerate(plan.table, 1)}
    found = {node.get("id"): node for node in root.iter("task")}
    if len(found) != len(plan.table) or "NaN" in "".join(found[ids[row["id"]]].get("work", "NaN") for row in plan.rows):
        return f"Planner has {len(found)} rows of {len(plan.table)}, or no work of one"
    for place, row in enumerate(plan.rows):
        node = found[ids[row["id"]]]
        moments = [re.sub("[-:]", "", moment) + "Z" for moment in plan.moments(place)]
        seconds = 8 * 3600 * plan.work(plan.starts[place], plan.end(place))
        links = [(ids[str(link[0])], "FS", str(8 * 3600 * plan.work(plan.end(link[0] - 1), plan.link_end(link)))) for link in plan.links[place]]
        said = [node.get("name"), node.get("start"), node.get("end"), float(node.get("duration")), float(node.get("work"))]
        wanted = [row["name"], *moments, seconds, seconds * sum(plan.needs(place))]
        found_links = [(link.get("predecessor-id"), link.get("type"), link.get("lag")) for link in node.findall("predecessors/predecessor")]
        if said != wanted or found_links != links:
            return f"Planner has {said}, {found_links} and not {wanted}, {links}"
    units = {(node.get("task-id"), node.get("resource-id")): float(node.get("units")) for node in root.iter("allocation")}
    needs = {(ids[row["id"]], str(k + 1)): 100.0 * needed for place, row in enumerate(plan.rows) for k, needed in enumerate(plan.needs(place)) if needed}
    return None if units == needs else f"Planner has the units {units} and not {needs}"


# TaskJuggler.

def juggled(name):
    """A name as TaskJuggler has it: a blank stands behind a backslash and behind a dollar sign."""
    return re.sub(r"([\\$])", r"\1 ", name)


def bookings(text):
    """The units that are to serve each task."""
    found = {}
    for line in text.splitlines():
        words = line.split()
        if words[:1] == ["task"]:
            units = found.setdefault(words[1], [])
        elif words[:1] == ["allocate"]:
            units.append(words[1])
    return found


def wrong_units(plan, found):
    """What is wrong with the units that serve tasks."""
    taken = {}
    for place in range(len(plan.rows)):
        units = found.get(f"t{place + 1}", [])
        counts = [sum(unit.startswith(f"r{k + 1}_") for unit in units) for k in range(len(plan.resources))]
        wanted = plan.needs(place) if plan.durations[place] else [0] * len(plan.resources)
        known = all(1 <= int(unit.split("_")[1]) <= plan.units[int(unit.split("_")[0][1:]) - 1] for unit in units)
        if counts != wanted or len(set(units)) != len(units) or not known:
            return f"the units {units} of task {place + 1} and not {wanted}"
        for unit in units:
            taken.setdefault(unit, []).append((plan.starts[place], plan.end(place)))
    for unit, spans in taken.items():
        spans.sort()
        if any(end > start for (_, end), (start, _) in zip(spans, spans[1:])):
            return f"unit {unit} serves two tasks at once: {spans}"
    return None


def wrong_juggled(text, plan):
    """What is wrong with a project of TaskJuggler, and with what TaskJuggler makes of it."""
    wrong = wrong_units(plan, bookings(text.decode()))
    return wrong or (wrong_schedule(text, plan) if TJ3 else None)


def wrong_schedule(text, plan):
    """What is wrong with the schedule that TaskJuggler makes."""
    with tempfile.TemporaryDirectory() as folder:
        path = pathlib.Path(folder, "plan.tjp")
        path.write_bytes(text)
        done = subprocess.run([TJ3, "--silent", path], cwd=folder, capture_output=True)
        if done.returncode or done.stderr:
            return f"tj3 ends with {done.returncode}: {done.stderr.decode(errors='replace')}"
        lines = pathlib.Path(folder, "tasks.csv").read_text().splitlines()[1:]
    found = {}
    for line in lines:
        match = re.fullmatch(r'"(t\d+)";"(.*)";"([^"]*)";"([^"]*)";"(.*)"', line)
        if not match:
            return f"tj3 writes {line!r}"
        found[match[1]] = [match[2], match[3], match[4], sorted(re.findall(r"\((r\d+_\d+)\)", match[5]))]
    booked = bookings(text.decode())
    wanted = {f"t{place + 1}": [juggled(row["name"]), *plan.moments(place, " ", ""), sorted(booked[f"t{place + 1}"])]
              for place, row in enumerate(plan.rows)}
    return None if found == wanted else f"tj3 has {found} and not {wanted}"


def skipped():
    """What is not tested here, since a program is missing."""
    lines = [] if TJ3 else ["skipped: schedules by TaskJuggler, since tj3 is not installed"]
    return lines + ([] if XSLTPROC else ["skipped: what Planner reads, since planner or xsltproc is not installed"])
