"""Hostile edits of the bytes of a file. Each takes a source of chance, a text and another one."""
import re

from lib.soak.calls import TOO_WIDE, WIDE

LIKELY = b"0123456789 \n\r\tcaigolbjfx.-\x00\x7f\x80\xff"
LARGE = [0, 1, 7, 99, 1000, 65536, 100000, 2**31 - 2, 2**31 - 1, 2**31, 2**32, 2**32 + 1, 2**64 + 2, 10**30]


def cut_at(chance, text):
    """A beginning of the text, a middle and the rest."""
    first, last = sorted(chance.choices(range(len(text) + 1), k=2))
    if chance.randrange(2):
        last = min(last, first + chance.randrange(1, 5))
    return text[:first], text[first:last], text[last:]


def other_bytes(chance, text, _):
    before, middle, behind = cut_at(chance, text)
    return before + bytes(chance.choices(chance.choice([LIKELY, range(256)]), k=min(len(middle), 8))) + behind


def less(chance, text, _):
    before, _, behind = cut_at(chance, text)
    return before + behind


def more(chance, text, _):
    before, middle, behind = cut_at(chance, text)
    return before + bytes(chance.choices(LIKELY, k=chance.randrange(1, 6))) + middle + behind


def moved(chance, text, _):
    before, middle, behind = cut_at(chance, text)
    return before + behind + middle if chance.randrange(2) else middle + before + behind


def doubled(chance, text, _):
    before, middle, behind = cut_at(chance, text)
    return before + middle + middle + behind


def cut(chance, text, _):
    return text[: chance.randrange(len(text) + 1)]


def joined(chance, text, other):
    return chance.choice([text + other, text + b"\n" + other, cut(chance, text, b"") + cut_at(chance, other)[2]])


def replaced(chance, pattern, text, put):
    """The text with one of what is found replaced."""
    found = list(re.finditer(pattern, text))
    if not found:
        return text
    it = chance.choice(found)
    return text[: it.start()] + put(it[0]) + text[it.end() :]


def large_number(chance, text, _):
    head, end, rest = text.partition(b"\n")
    return replaced(chance, rb"\d+", head, lambda _: str(chance.choice(LARGE)).encode()) + end + rest


def near_number(chance, text, _):
    near = chance.choice([-2, -1, 1, 2])
    return replaced(chance, rb"\d{1,9}", text, lambda old: str(max(0, int(old) + near)).encode())


def more_inputs(chance, text, _):
    """A binary file with so many inputs more, for which it has no lines."""
    count = chance.choice([1, 2, 100, 5000, WIDE // 2, TOO_WIDE, 2**31 - 999])
    header = re.match(rb"aig (\d{1,9}) (\d{1,9}) ", text)
    if not header:
        return text
    largest, inputs = (int(it) + count for it in header.groups())
    return b"aig %d %d " % (largest, inputs) + text[header.end() :]


def same_number(chance, text, _):
    some = re.findall(rb"\d+", text) or [b"0"]
    return replaced(chance, rb"\d+", text, lambda _: chance.choice(some))


def digit_doubled(chance, text, _):
    return replaced(chance, rb"\d", text, lambda old: old * 2)


def line_end(chance, text, _):
    return replaced(chance, rb"\r?\n", text, lambda _: chance.choice([b"\r\n", b"\r", b"", b"\n\n", b" \n", b"\n\r"]))


def line_doubled(chance, text, _):
    """The text with a line once more, directly behind it or at the end."""
    lines = text.splitlines(True)
    place = chance.randrange(len(lines)) if lines else 0
    again = lines[place : place + 1]
    return b"".join([*lines, *again] if chance.randrange(2) else [*lines[:place], *again, *lines[place:]])


def cut_at_line(chance, text, _):
    """The text up to the end of a line, or near it."""
    ends = [found.end() for found in re.finditer(b"\n", text)] or [0]
    return text[: max(0, chance.choice(ends) + chance.choice([-1, 0, 0, 1, 2]))]


def line_ends(_, text, __):
    return text.replace(b"\n", b"\r\n")


def lines_exchanged(chance, text, _):
    lines = text.split(b"\n")
    first, second = chance.choices(range(len(lines)), k=2)
    lines[first], lines[second] = lines[second], lines[first]
    return b"\n".join(lines)


EDITS = [other_bytes, less, more, moved, doubled, cut, joined, large_number, near_number, near_number, same_number]
EDITS += [more_inputs, digit_doubled, line_end, line_ends, lines_exchanged, line_doubled, line_doubled, cut_at_line]
MAP_EDITS = [near_number, same_number, lines_exchanged, lines_exchanged, digit_doubled, less, more, cut, line_end]


def edited(chance, text, other):
    """The text with one to four edits, which may join another one to it."""
    for _ in range(chance.choice([1, 1, 1, 2, 3, 4])):
        text = chance.choice(EDITS)(chance, text, other)
    return text
