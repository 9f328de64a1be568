"""Changes of texts: of their bytes, lines, numbers and words, and two texts put together. Made from the words and the bounds of
docs/FORMATS.md: numbers are at them and beside them."""

import re

NETWORK, ORDER, PLAN, PROOF = range(4)
FORMATS = ["sm", "toml", "plan", "proof"]
MOST_BYTES = 40_000

WORDS = {
    NETWORK: [b"PRECEDENCE RELATIONS:", b"REQUESTS/DURATIONS:", b"RESOURCEAVAILABILITIES:", b"projects : 1", b"jobs : 5",
              b"- renewable : 1 R", b"- nonrenewable : 0 N", b"- doubly constrained : 0 D", b"****", b"----", b"-", b":", b"\x1a",
              b"\r", b"\t", b"1 1 0", b"1 1 1 1", b"1 1 1 2"],
    ORDER: [b"deadline = ", b"prices = ", b"version = 2", b"owned = [0]", b"ceiling = [3]", b"release = [0]", b"due = [9]", b"= ",
            b"[", b"]", b"[1]", b"[a]", b"[[a]]", b"{}", b"{ a = 1 }", b", ", b"# ", b"\"", b"'", b"\"\"\"", b"'''", b"\\u0041",
            b"\\", b"true", b"inf", b"nan", b"1.5", b"9e9", b"9E10000", b"0x10", b"0o7", b"0b1", b"1_000", b"+1", b"-0",
            b"a.b = 1", b"2026-11-22",
            b"10:11:12", b"2026-11-22T10:11:12Z", b"\xff", b"\xc3\xa4", b"\x00", b"\r\n"],
    PLAN: [b"deadline ", b"critical ", b"cost ", b"capacity ", b"start ", b"end", b"end\n", b"\r", b" "],
    PROOF: [b"proof\n", b"vector ", b"D ", b"L ", b"C ", b"end\n", b"D 0\n", b"L 1\n", b"C 1\n", b"\r", b" ",
            b"proof 2\n", b"units 1 >= ", b"start 2 <= ", b"cost >= ", b"pair 1 2\n", b"times 2 1 0 1\n", b"energy 1 0 1\n",
            b"request 2 1\n", b"prices\n", b"budget 1\n", b"clause 1\n", b"holds\n", b"keep\n", b"1\n", b"2\n"],
}
NUMBERS = [0, 1, 2, 3, 15, 16, 17, 511, 512, 513, 10_000, 10_001, 1_000_000, 1_000_001, 10_000_000, 10_000_001,
           10 ** 15, 10 ** 15 + 1, 2 ** 31 - 1, 2 ** 31, 2 ** 32 - 1, 2 ** 32, 2 ** 63 - 1, 2 ** 63, 2 ** 64, 10 ** 40]
BYTES = b"\x00\t\n\r \x1a-+.,:*#=[]{}\"'\\_0129Aaex\x7f\x80\xff"


# Changes of bytes.

def flipped(chance, text):
    at = chance.randrange(len(text))
    return text[:at] + bytes([text[at] ^ 1 << chance.randrange(8)]) + text[at + 1:]


def with_a_byte(chance, text):
    at = chance.randint(0, len(text))
    return text[:at] + bytes([chance.choice(BYTES)]) + text[at + chance.choice([0, 1]):]


def without_bytes(chance, text):
    at = chance.randrange(len(text))
    return text[:at] + text[at + chance.choice([1, 1, 2, 4, 16]):]


def cut(chance, text):
    return text[:chance.randrange(len(text))]


def with_a_slice_twice(chance, text):
    begin = chance.randrange(len(text))
    end = min(len(text), begin + chance.choice([1, 2, 8, 64, 512]))
    at = chance.choice([end, chance.randint(0, len(text))])
    return text[:at] + text[begin:end] * chance.choice([1, 1, 1, 3]) + text[at:]


# Changes of lines.

def with_lines_changed(chance, text):
    """The text with a line dropped, doubled, moved or put in the place of another."""
    lines = text.split(b"\n")
    at, other = chance.randrange(len(lines)), chance.randrange(len(lines))
    kind = chance.choice(["drop", "double", "swap", "move"])
    if kind == "double":
        lines.insert(other, lines[at])
    elif kind == "swap":
        lines[at], lines[other] = lines[other], lines[at]
    else:
        line = lines.pop(at)
        if kind == "move":
            lines.insert(other, line)
    return b"\n".join(lines)


# Changes of numbers and words.

def with_another_number(chance, text):
    """The text with one of its numbers, often the last of a line, changed a little, or to one of those above."""
    found = list(re.finditer(rb"-?[0-9]+", text))
    if not found:
        return with_a_byte(chance, text)
    last = [number for number in found if text[number.end():number.end() + 1] in b"\n"]
    found = last if last and chance.random() < 0.5 else found
    number = chance.choice(found)
    value = int(number[0])
    small = [value + 1, value - 1, value + chance.randint(-9, 9), int(chance.choice(found)[0]), -value, 2 * value]
    other = str(chance.choice(small if chance.random() < 0.6 else NUMBERS)).encode()
    zeros = chance.choice([b""] * 12 + [b"0", b"0" * 50])
    return text[:number.start()] + zeros + other + text[number.end():]


def with_a_word(chance, text, words):
    """The text with one of these words in the place of one of its own, or before it."""
    found = list(re.finditer(rb"[^ \t\n]+", text))
    if not found:
        return chance.choice(words) + text
    place = chance.choice(found)
    end = place.end() if chance.random() < 0.5 else place.start()
    between = chance.choice([b"", b" ", b"\n"]) if end == place.start() else b""
    return text[:place.start()] + chance.choice(words) + between + text[end:]


# Two texts put together.

def spliced(chance, text, other):
    """The beginning of a text and the end of another, mostly whole lines."""
    if chance.random() < 0.7:
        ours, theirs = text.splitlines(keepends=True), other.splitlines(keepends=True)
        return b"".join(ours[:chance.randint(0, len(ours))] + theirs[chance.randint(0, len(theirs)):])
    return text[:chance.randint(0, len(text))] + other[chance.randint(0, len(other)):]


BYTES_CHANGED = [flipped, with_a_byte, with_a_byte, without_bytes, without_bytes, cut, with_a_slice_twice]


def changed_once(chance, kind, text, others):
    turn = chance.random()
    if turn < 0.15 or not text:
        return with_a_word(chance, text, WORDS[kind])
    if turn < 0.22:
        return spliced(chance, text, chance.choice(others))
    if turn < (0.8 if kind == PLAN else 0.62):
        return with_another_number(chance, text)
    if turn < (0.9 if kind == PLAN else 0.77):
        return with_lines_changed(chance, text)
    return chance.choice(BYTES_CHANGED)(chance, text)


def mutated(chance, kind, text, others):
    """A text of this format with one to four changes; the others are texts of the same format."""
    for _ in range(chance.choice([1, 1, 1, 1, 2, 2, 3, 4])):
        text = changed_once(chance, kind, text, others)
    return text[:MOST_BYTES]
