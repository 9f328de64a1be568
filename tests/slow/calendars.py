"""Days of a calendar, as docs/FORMATS.md tells them, counted one by one with Python's dates."""

import datetime
import tomllib

NAMES = ["mon", "tue", "wed", "thu", "fri", "sat", "sun"]
LAST = datetime.date.max
DAY = datetime.timedelta(1)


class NoCalendar(Exception):
    """Why a text is no calendar: a part of what has to be said of it."""


def worked_days(word):
    """The days of the week that a word tells, 0 for Monday."""
    if word == "":
        raise NoCalendar("no day of a week")
    days = set()
    for part in word.split(","):
        first, hyphen, last = part.partition("-")
        if first.strip() not in NAMES or hyphen and last.strip() not in NAMES:
            raise NoCalendar("workdays")
        day, end = NAMES.index(first.strip()), NAMES.index((last if hyphen else first).strip())
        days.add(day)
        while day != end:
            day = (day + 1) % 7
            days.add(day)
    return days


def plain_date(value, why):
    if type(value) is not datetime.date:
        raise NoCalendar(why)
    return value


class Calendar:
    """The calendar of a text."""

    def __init__(self, text):
        try:
            table = tomllib.loads(text)
        except tomllib.TOMLDecodeError as error:
            raise NoCalendar("not TOML") from error
        if set(table) - {"start", "workdays", "unit", "holidays"}:
            raise NoCalendar("the keys")
        if "start" not in table:
            raise NoCalendar("start is missing")
        self.start = plain_date(table["start"], "start has to be")
        self.worked = worked_days(table.get("workdays", "mon-sun"))
        self.span = {"day": 1, "week": 7}.get(table.get("unit", "day"))
        if self.span is None:
            raise NoCalendar("unit")
        self.free = set()
        free = 0
        for holiday in table.get("holidays", []):
            first, last = holiday if isinstance(holiday, list) and len(holiday) == 2 else (holiday, holiday)
            first, last = plain_date(first, "a holiday"), plain_date(last, "a holiday")
            if last < first:
                raise NoCalendar("before they begin")
            day = max(first, self.start)
            while day <= last:
                self.free.add(day)
                free += 1
                if day == LAST:
                    break
                day += DAY
        if 4000 < free:
            raise NoCalendar("4,000")

    def days(self, count):
        """The working days of each of so many first blocks that count; fewer if the calendar of dates ends before. Where the last block
        has a working day after the year 9999, None stands for it."""
        found, begin = [], self.start
        while len(found) < count:
            block, day = [], begin
            for left in reversed(range(self.span)):
                if day.weekday() in self.worked and day not in self.free:
                    block.append(day)
                if day == LAST:
                    beyond = any((day.weekday() + k) % 7 in self.worked for k in range(1, left + 1))
                    return found + ([block + [None] * beyond] if block or beyond else [])
                day += DAY
            if block:
                found.append(block)
            begin = day
        return found


def told(calendar, start, end, blocks):
    """The first and the last day of what runs from a time to another, or none after the year 9999."""
    def last_day(time):
        place = max(time - 1, 0)
        if len(blocks) <= place:
            return None
        return blocks[place][-1] if time else blocks[0][0]

    if start == end:
        return last_day(end), last_day(end)
    return (blocks[start][0] if start < len(blocks) else None), last_day(end)


def numbered_blocks(calendar, until):
    """The first and the last working day of each block that counts, as numbers of Python's dates, which may go on after the year 9999:
    those of blocks that begin no later than the day of this number, and of one more."""
    free = {day.toordinal() for day in calendar.free}
    found, begin = [], calendar.start.toordinal()
    while not found or found[-1][0] <= until:
        days = [day for day in range(begin, begin + calendar.span) if (day - 1) % 7 in calendar.worked and day not in free]
        if days:
            found.append((days[0], days[-1]))
        begin += calendar.span
    return found


def time_by(calendar, date):
    """The greatest time of which the last day is not after a date, or none."""
    blocks = numbered_blocks(calendar, date.toordinal())
    ends = [blocks[0][0], *(last for _, last in blocks)]
    times = [time for time, end in enumerate(ends) if end <= date.toordinal()]
    return max(times, default=None)


def time_from(calendar, date):
    """The least time of which the first day is not before a date."""
    blocks = numbered_blocks(calendar, date.toordinal())
    return min(time for time, (first, _) in enumerate(blocks) if first >= date.toordinal())
