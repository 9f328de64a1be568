"""Random network texts to read: networks in random layouts, some with a ring, most with a word or a line changed, deleted or
doubled. Made from 'The network text' in docs/FORMATS.md."""

import re


def random_text(chance):
    jobs, resources = chance.randint(1, 8), chance.randint(1, 3)
    lines = random_head(chance, jobs, resources)
    lines += [b"PRECEDENCE RELATIONS:", b"jobnr. #modes #successors successors"]
    lines += random_layout(chance, random_rows_of_successors(chance, jobs))
    lines += chance.choice([[], [b"****"], [b"***", b"", b"1 2 3"]])
    lines += [b" REQUESTS/DURATIONS:", b"jobnr. mode duration R 1"]
    lines += with_dashes(chance, random_layout(chance, random_rows_of_requests(chance, jobs, resources)))
    lines += chance.choice([[], [b"*"], [b"RESOURCEAVAILABILITIES:", b"R 1", b"4"]])
    text = chance.choice([b"\n", b"\r\n"]).join(lines)
    text += chance.choice([b"", b"\n", b"\r\n", b"\n\x1aend", b"\x1a\n1 1"])
    for _ in range(chance.choice([0, 0, 1, 1, 1, 2])):
        text = with_a_line_changed(chance, text) if chance.random() < 0.2 else with_a_word_changed(chance, text)
    return text


def random_head(chance, jobs, resources):
    keys = [(b"jobs (incl. supersource/sink )", jobs), (b"  - renewable", resources)]
    keys += [key for key in [(b"projects", 1), (b"  - nonrenewable", 0), (b"  - doubly constrained", 0)]
             if chance.random() < 0.8]
    if chance.random() < 0.2:
        keys.append((chance.choice(keys)[0], chance.choice([0, 1, 2, 16, 17, 512, 513])))
    lines = [random_space(chance, b"").join([key, b":", random_number(chance, value)]) for key, value in keys]
    lines += [b"****", b"file with basedata : A.BAS", b"horizon : 7", b"RESOURCES", b"PROJECT INFORMATION:", b"1 3 0"]
    if chance.random() < 0.5:
        chance.shuffle(lines)
    return lines


def random_number(chance, value):
    return b"0" * chance.choice([0, 0, 0, 0, 1, 30]) + str(value).encode()


def random_space(chance, *others):
    return chance.choice([b" ", b"   ", b"\t", b" \t ", *others])


def random_rows_of_successors(chance, jobs):
    order = chance.sample(range(1, jobs + 1), jobs)
    successors = {job: [later for later in order[place + 1:] if chance.random() < 0.4]
                  for place, job in enumerate(order)}
    for job in chance.sample(order, chance.choice([0, 0, 1, 2]) % (jobs + 1)):
        successors[job] *= 2
    if chance.random() < 0.15:
        successors[chance.choice(order)].append(chance.choice(order))
    return [[job, 1, len(successors[job]), *successors[job]] for job in sorted(successors)]


def random_rows_of_requests(chance, jobs, resources):
    greatest = chance.choice([0, 3, 10_000])
    return [[job, 1, *(chance.randint(0, greatest) for _ in range(1 + resources))] for job in range(1, jobs + 1)]


def random_layout(chance, rows):
    """Lines with these numbers, of which some rows are wrapped or joined, with some blank lines between."""
    wrapped = chance.choice([0, 0.1, 0.5])
    text = b""
    for row in rows:
        for value in row:
            text += random_number(chance, value)
            text += b"\n" if chance.random() < wrapped else random_space(chance)
        text += b" " if chance.random() < wrapped else chance.choice([b"\n", b"\n", b" \n\t\n", b"\n\n"])
    return text.split(b"\n")


def with_dashes(chance, lines):
    for _ in range(chance.choice([0, 1, 2])):
        lines.insert(chance.randint(0, len(lines)), b"-" * chance.randint(1, 9))
    return lines


def with_a_line_changed(chance, text):
    """The text with one line deleted, or doubled at another place."""
    lines = text.split(b"\n")
    line = chance.choice(lines)
    if chance.random() < 0.5:
        lines.remove(line)
    else:
        lines.insert(chance.randint(0, len(lines)), line)
    return b"\n".join(lines)


def with_a_word_changed(chance, text):
    """The text with one word changed, deleted or doubled; most often a number."""
    numbers = list(re.finditer(rb"\b[0-9]+\b", text))
    words = list(re.finditer(rb"[^ \t\n]+", text))
    word = chance.choice(numbers if chance.random() < 0.8 and numbers else words)
    changed = chance.choice([
        b"0", b"1", b"2", b"3", b"8", b"9", b"16", b"17", b"512", b"513", b"10000", b"10001", b"9" * 50, b"4294967297",
        b"18446744073709551617", b"+1", b"-1", b"-", b"--", b"1x", b"1:", b":", b"*", b"\r", b"\x0b1", b"\x1a",
        b"PRECEDENCE RELATIONS:", b"REQUESTS/DURATIONS:", b"", b"", b"", word[0].lower(), word[0].upper(),
        word[0] + b" " + word[0], word[0] + b"\n" + word[0]])
    return text[:word.start()] + changed + text[word.end():]
