"""Axes of dates in pictures, as docs/FORMATS.md tells them, counted one by one with Python's dates."""

import datetime

LAST = datetime.date.max.toordinal()
ROOM = {"week": 30, "month": 52, "quarter": 56, "year": 36}


class Axis:
    """The axis of the times from a first to a last one; it has no dates if `is_dated` is false."""

    def __init__(self, calendar, first, last):
        self.first, self.last = first, last
        self.blocks = blocks_of(calendar, last + 1)
        self.start, self.end = self.blocks[first][0], self.end_of(last)
        self.days = self.end + 1 - self.start
        self.is_dated = first < last and self.end <= LAST

    def end_of(self, time):
        return self.blocks[time - 1][-1] if time else self.blocks[0][0]

    def across(self, time):
        return 270 + max(time - self.first, 0) * 700 // (self.last - self.first)

    def begin(self, day):
        """Where the first time is drawn that starts on a day or later."""
        if self.end < day:
            return 970
        return self.across(next((time for time, block in enumerate(self.blocks) if day <= block[0]), self.last))

    def periods(self, kind, months=0):
        """Where each period begins and the next does, and its name. What is no week has so many months."""
        day = datetime.date.fromordinal(self.start)
        if kind == "week":
            begins = range(self.start - day.weekday(), self.end + 8, 7)
            names = [f"W{datetime.date.fromordinal(min(begin, LAST)).isocalendar()[1]:02}" for begin in begins]
        else:
            first = (day.year * 12 + day.month - 1) // months * months
            numbers = range(first, first + 40 * months, months)
            begins = [ordinal(number) for number in numbers]
            names = [name_of(kind, number) for number in numbers]
        places = [self.begin(begin) for begin in begins]
        return [(left, right, name, ROOM[kind]) for left, right, name in zip(places, places[1:], names)]

    def long(self):
        if self.days <= 366:
            return self.periods("month", 1)
        if self.days <= 1098:
            return self.periods("quarter", 3)
        each = next(unit * 10 ** power for power in range(9) for unit in (1, 2, 5) if (self.days - 1) // 365 <= unit * 10 ** power * 12)
        return self.periods("year", 12 * each)

    def free(self, top, bottom):
        lines = []
        for time in range(self.first + 1, self.last):
            days = self.blocks[time][0] - self.end_of(time) - 1
            if days:
                lines.append(f'<path class="line" stroke-width="{min(days, 6) + 1}" d="M{self.across(time)} {top}V{bottom}"/>\n')
        return "".join(lines)

    def below(self, top, bottom):
        """The text of the axis below a chart from `top` to `bottom`."""
        if self.days > 150:
            return marks(self.long(), top, bottom + 15)
        return self.free(top, bottom) + marks(self.periods("week"), top, bottom + 11) + marks(self.periods("month", 1), bottom + 13, bottom + 23)

    def above(self, y):
        """The text of the axis at this height above a chart."""
        if self.days > 150:
            return "".join(name(period, y) for period in self.long())
        return "".join(name(period, y) for period in self.periods("week")) + "".join(name(period, y - 16, 850) for period in self.periods("month", 1))


def blocks_of(calendar, count):
    """The working days of so many blocks that count, as numbers of Python's dates, which may go on after the year 9999."""
    free = {day.toordinal() for day in calendar.free}
    found, begin = [], calendar.start.toordinal()
    while len(found) < count:
        days = [day for day in range(begin, begin + calendar.span) if (day - 1) % 7 in calendar.worked and day not in free]
        if days:
            found.append(days)
        begin += calendar.span
    return found


def ordinal(number):
    """The first day of a month, which may be one that Python has no dates for."""
    year, month = divmod(number, 12)
    if not 1 <= year <= 9999:
        return 0 if year < 1 else LAST + 1
    return datetime.date(year, month + 1, 1).toordinal()


def name_of(kind, number):
    year, month = divmod(number, 12)
    return {"month": f"{year:04}-{month + 1:02}", "quarter": f"{year:04}-Q{month // 3 + 1}", "year": f"{year:04}"}[kind]


def name(period, y, most=1000):
    left, right, word, room = period
    right = min(right, most)
    return f'<text class="mark" x="{(left + right) // 2}" y="{y}">{word}</text>\n' if left + room <= right else ""


def marks(periods, top, bottom):
    return "".join((f'<path class="line" d="M{period[0]} {top}V{bottom}"/>' if period[0] < period[1] else "") + name(period, bottom) for period in periods)
