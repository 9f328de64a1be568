"""A slow reader of network texts: lists of lines and of words, and starts that are put off until each job starts after the jobs
that it succeeds. Made from 'The network text', its 'Faults' and 'racp cpm' in docs/FORMATS.md, sentence by sentence."""

from shared import Run
from slow.networks import Network

FAULTS = ["NoJobs", "NoRenewable", "ManyProjects", "OtherResources", "NoPrecedence", "NoRequests", "BadNumber", "Limit",
          "BadRow", "NotSingleMode", "BadSuccessor", "TooFew", "TooMany", "Cycle"]


class Refused(Exception):
    """A text that is refused: the name of the fault and the line that carries it."""

    def __init__(self, name, line):
        super().__init__(name, line)
        self.name, self.line = name, line


def lines_of(text):
    before_end_mark = text.split(b"\x1a")[0]
    pieces = before_end_mark.split(b"\n")
    if pieces[-1] == b"":
        pieces.pop()
    return [piece[:-1] if piece.endswith(b"\r") else piece for piece in pieces]


def words_in(line):
    return [word for word in line.replace(b"\t", b" ").split(b" ") if word]


def number(word, line):
    if not all(byte in b"0123456789" for byte in word):
        raise Refused("BadNumber", line)
    return int(word)


def first_line(lines, begin, wanted):
    """The place, from `begin` on, of the first line whose words are wanted, or none."""
    for place in range(begin, len(lines)):
        if wanted(words_in(lines[place])):
            return place
    return None


def is_exactly(*title):
    return lambda words: words == list(title)


def begins_with_star(words):
    return words != [] and words[0].startswith(b"*")


def part_end(lines, title, next_title):
    """The place of the line that ends the part that begins with the title at this place."""
    end = first_line(lines, title + 2, lambda words: begins_with_star(words) or words == [next_title])
    return len(lines) if end is None else end


def head_value(head, *key):
    """The number that the head gives this key, with its line; none if no line has the key."""
    for place, line in enumerate(head):
        if b":" not in line:
            continue
        before, after = line.split(b":", 1)
        if words_in(before)[:len(key)] == list(key):
            values = words_in(after)
            if not values:
                raise Refused("BadNumber", place + 1)
            return number(values[0], place + 1), place + 1
    return None


def size(head, greatest, missing, *key):
    found = head_value(head, *key)
    if found is None:
        raise Refused(missing, 0)
    value, line = found
    if not 1 <= value <= greatest:
        raise Refused("Limit", line)
    return value


def expect_in_head(head, wanted, fault, *key):
    found = head_value(head, *key)
    if found is not None and found[0] != wanted:
        raise Refused(fault, found[1])


def read_head(head):
    """The numbers of jobs and of resources."""
    expect_in_head(head, 1, "ManyProjects", b"projects")
    jobs = size(head, 512, "NoJobs", b"jobs")
    resources = size(head, 16, "NoRenewable", b"-", b"renewable")
    expect_in_head(head, 0, "OtherResources", b"-", b"nonrenewable")
    expect_in_head(head, 0, "OtherResources", b"-", b"doubly", b"constrained")
    return jobs, resources


class Stream:
    """The words, each with its line, of a part that begins with the title at this place, to be taken one by one."""

    def __init__(self, lines, title, end, skipped=lambda words: False):
        self.title_line = title + 1
        self.words = []
        for place in range(title + 2, end):
            words = words_in(lines[place])
            if not skipped(words):
                self.words += [(word, place + 1) for word in words]

    def take(self):
        if not self.words:
            raise Refused("TooFew", self.title_line)
        word, line = self.words.pop(0)
        return number(word, line), line

    def expect(self, wanted, fault):
        value, line = self.take()
        if value != wanted:
            raise Refused(fault, line)

    def within(self, least, greatest, fault):
        value, line = self.take()
        if not least <= value <= greatest:
            raise Refused(fault, line)
        return value

    def expect_end(self):
        if self.words:
            _, line = self.take()
            raise Refused("TooMany", line)


def read_successors(stream, jobs):
    """For each job the set of its successors."""
    successors = {}
    for job in range(1, jobs + 1):
        stream.expect(job, "BadRow")
        stream.expect(1, "NotSingleMode")
        count = stream.within(0, 512, "Limit")
        successors[job] = {stream.within(1, jobs, "BadSuccessor") for _ in range(count)}
    stream.expect_end()
    return successors


def read_jobs(stream, jobs, resources):
    """For each job its duration, and its requests."""
    durations, requests = {}, {}
    for job in range(1, jobs + 1):
        stream.expect(job, "BadRow")
        stream.expect(1, "NotSingleMode")
        durations[job] = stream.within(0, 10_000, "Limit")
        requests[job] = [stream.within(0, 10_000, "Limit") for _ in range(resources)]
    stream.expect_end()
    return durations, requests


def is_dashes(words):
    return len(words) == 1 and set(words[0]) == set(b"-")


def has_ring(successors):
    """Takes away jobs that no other job left has as a successor, as long as there are any."""
    left = set(successors)
    while True:
        free = {job for job in left if not any(job in successors[other] for other in left)}
        if not free:
            return left != set()
        left -= free


def read(text):
    """The number of resources, and the successors, the durations and the requests of the jobs."""
    lines = lines_of(text)
    title = first_line(lines, 0, is_exactly(b"PRECEDENCE", b"RELATIONS:"))
    jobs, resources = read_head(lines[:title])
    if title is None:
        raise Refused("NoPrecedence", 0)
    end = part_end(lines, title, b"REQUESTS/DURATIONS:")
    successors = read_successors(Stream(lines, title, end), jobs)
    title = first_line(lines, end, is_exactly(b"REQUESTS/DURATIONS:"))
    if title is None:
        raise Refused("NoRequests", 0)
    end = part_end(lines, title, b"RESOURCEAVAILABILITIES:")
    durations, requests = read_jobs(Stream(lines, title, end, is_dashes), jobs, resources)
    if has_ring(successors):
        raise Refused("Cycle", 0)
    return resources, successors, durations, requests


def early_starts(successors, durations):
    """All jobs start at 0; a job that starts before the end of one that it succeeds is put off, until there is none."""
    starts = {job: 0 for job in durations}
    changed = True
    while changed:
        changed = False
        for job in successors:
            for successor in successors[job]:
                if starts[successor] < starts[job] + durations[job]:
                    starts[successor] = starts[job] + durations[job]
                    changed = True
    return starts


def answer(starts, durations):
    critical = max(starts[job] + durations[job] for job in starts)
    rows = [f"start {job} {starts[job]}\n" for job in sorted(starts)]
    return Run(0, f"critical {critical}\n{''.join(rows)}end\n".encode(), b"")


def refusal(name, line):
    return Run(5, f"refused sm {FAULTS.index(name) + 1} {name} line {line}\n".encode(), b"")


def wanted_of(text):
    try:
        _, successors, durations, _ = read(text)
    except Refused as fault:
        return refusal(fault.name, fault.line)
    return answer(early_starts(successors, durations), durations)


def critical_of(text):
    """The critical length of a network that is read."""
    _, successors, durations, _ = read(text)
    starts = early_starts(successors, durations)
    return max(starts[job] + durations[job] for job in starts)


def network_of(text):
    """A network that is read, whose jobs count from 0."""
    resources, successors, durations, requests = read(text)
    pairs = {(job - 1, successor - 1) for job in successors for successor in successors[job]}
    return Network(resources, [*durations.values()], [*requests.values()], pairs)
