"""Circuits as arrays, worked out plainly: which counts, words and bytes a text has, what the first fault of counts, words and
bytes is, which text they have, and what a step makes of values. Then also circuits and edits made by chance.

A fault is a kind, a place, a number and a subject, as an outcome of the library has them.
"""
import collections
import re
from pathlib import Path

TOP = Path(__file__).resolve().parents[2]
# the numbers of the header by their names: those of kinds, places, options and statuses
NUMBERS = {
    name: int(number)
    for name, number in re.findall(r"\bAIGTOOLS_([A-Z_]+) = (\d+)", (TOP / "include/aigtools.h").read_text())
}
LARGEST = 2147483647
LETTERS = b"ilobcjf"

Counts = collections.namedtuple(
    "Counts",
    "max_var inputs latches outputs bad constraints justice justice_literals fairness gates symbols has_comment name_bytes"
    " comment_bytes",
)


def fault(kind, place="WHOLE", number=0, subject=0):
    return NUMBERS[kind], NUMBERS[place], number, subject


class Text:
    """A text that is right, from its front on."""

    def __init__(self, data):
        self.data, self.at = data, 0

    def is_over(self):
        return self.at >= len(self.data)

    def line(self):
        end = self.data.find(b"\n", self.at)
        begin, self.at = self.at, len(self.data) if end < 0 else end + 1
        return self.data[begin : None if end < 0 else end]

    def numbers(self):
        return [int(it) for it in self.line().split()]

    def rest(self):
        return self.data[self.at :]

    def delta(self):
        value = shift = 0
        while True:
            byte = self.data[self.at]
            self.at += 1
            value |= (byte & 127) << shift
            shift += 7
            if byte < 128:
                return value


def listed(text, is_binary, inputs, latches):
    """The words of inputs and latches."""
    words = []
    for variable in range(1, inputs + 1):
        words += [2 * variable] if is_binary else text.numbers()
    for variable in range(inputs + 1, inputs + latches + 1):
        row = [2 * variable] * is_binary + text.numbers()
        words += row + [0] * (3 - len(row))
    return words


def gates_of(text, is_binary, first, count):
    """The words of gates, of which the first has this variable in a binary file."""
    words = []
    for variable in range(first, first + count):
        if is_binary:
            left = 2 * variable - text.delta()
            words += [2 * variable, left, left - text.delta()]
        else:
            words += text.numbers()
    return words


def symbols_of(text):
    """The words of symbols, their names, and the comment, or None."""
    words, names, length = [], [], 0
    while not text.is_over():
        line = text.line()
        if line.rstrip(b" \r") == b"c":
            return words, b"".join(names), text.rest()
        place, _, name = line.partition(b" ")
        words += [LETTERS.index(place[:1]), int(place[1:]), length, len(name)]
        names.append(name)
        length += len(name)
    return words, b"".join(names), None


def arrays_of(data):
    """The counts, the words and the bytes of a text that is right."""
    text = Text(data)
    word, *numbers = text.line().split()
    header = [*map(int, numbers), 0, 0, 0, 0][:9]
    largest, inputs, latches, outputs, gates, bad, constraints, justice, fairness = header
    is_binary = word == b"aig"
    words = listed(text, is_binary, inputs, latches)
    for _ in range(outputs + bad + constraints):
        words += text.numbers()
    sizes = [text.numbers()[0] for _ in range(justice)]
    words += sizes
    for _ in range(sum(sizes) + fairness):
        words += text.numbers()
    words += gates_of(text, is_binary, inputs + latches + 1, gates)
    symbols, names, comment = symbols_of(text)
    lengths = len(symbols) // 4, int(comment is not None), len(names), len(comment or b"")
    counts = Counts(largest, inputs, latches, outputs, bad, constraints, justice, sum(sizes), fairness, gates, *lengths)
    return counts, words + symbols, names + (comment or b"")


def sections(n):
    """How many entries each section has, and the role of each of their words: v a definition, l a literal, r a reset, s a
    size."""
    yield from ((n.inputs, "v"), (n.latches, "vlr"), (n.outputs, "l"), (n.bad, "l"), (n.constraints, "l"))
    yield from ((n.justice, "s"), (n.justice_literals, "l"), (n.fairness, "l"), (n.gates, "vll"))


def section_length(n):
    return sum(count * len(roles) for count, roles in sections(n))


def rows(n, words):
    """Each entry of the sections: its first word, the roles of its words, and these."""
    at = 0
    for count, roles in sections(n):
        for _ in range(count):
            yield at, roles, words[at : at + len(roles)]
            at += len(roles)


def row_fault(roles, row, max_var):
    """What is wrong with an entry, or None."""
    if roles[0] == "v" and (row[0] % 2 or not row[0]):
        return "NOT_VARIABLE"
    if any(it > 2 * max_var + 1 for role, it in zip(roles, row) if role in "vl"):
        return "LITERAL_RANGE"
    if roles == "vlr" and row[2] > 1 and row[2] != row[0]:
        return "BAD_RESET"
    return None


def are_in_range(n):
    return max(n[:10]) <= LARGEST and n.has_comment <= 1 and (n.has_comment or not n.comment_bytes)


def sizes_in(n, words):
    begin = n.inputs + 3 * n.latches + n.outputs + n.bad + n.constraints
    return words[begin : begin + n.justice]


def do_counts_fit(n, words, data):
    return (
        are_in_range(n)
        and section_length(n) + 4 * n.symbols == len(words)
        and n.name_bytes + n.comment_bytes == len(data)
        and sum(sizes_in(n, words)) == n.justice_literals
    )


def symbol_fault(n, words, data):
    """The first fault of symbols, or that they leave a name over, or None."""
    at, start, named = section_length(n), 0, set()
    counts = n.inputs, n.latches, n.outputs, n.bad, n.constraints, n.justice, n.fairness
    for at in range(at, at + 4 * n.symbols, 4):
        kind, position, offset, length = words[at : at + 4]
        end = start + length
        if kind > 6 or offset != start or end > n.name_bytes or b"\n" in data[start:end]:
            return fault("BAD_SYMBOL", "WORD", at)
        if position >= counts[kind]:
            return fault("SYMBOL_RANGE", "WORD", at)
        if (kind, position) in named:
            return fault("SYMBOL_TWICE", "WORD", at)
        named.add((kind, position))
        start = end
    return None if start == n.name_bytes else fault("BAD_COUNTS")


def first_cyclic(gates):
    """The literal of the first gate that depends on a cycle, or None."""
    waiting, users = dict.fromkeys((gate[0] for gate in gates), 0), collections.defaultdict(list)
    for own, *operands in gates:
        for operand in operands:
            if operand & ~1 in waiting:
                waiting[own] += 1
                users[operand & ~1].append(own)
    placed = [own for own, count in waiting.items() if not count]
    for own in placed:
        for user in users[own]:
            waiting[user] -= 1
            if not waiting[user]:
                placed.append(user)
    return next((own for own, count in waiting.items() if count), None)


def structural_fault(n, words):
    """The first fault of a circuit whose entries are right, or None."""
    defined, used, operands, gates = set(), [], [], []
    for at, roles, row in rows(n, words):
        if roles[0] == "v":
            if row[0] in defined:
                return fault("REDEFINED", subject=row[0] // 2)
            defined.add(row[0])
        if roles == "vll":
            gates.append(row)
            operands += row[1:]
        elif roles != "v" and roles != "s":
            used.append(row[1 if roles == "vlr" else 0])
    for literal in used + operands:
        if literal > 1 and literal & ~1 not in defined:
            return fault("UNDEFINED", subject=literal)
    cyclic = first_cyclic(gates)
    return cyclic and fault("CYCLIC", subject=cyclic)


def first_fault(n, words, data):
    """The first fault of arrays, or None where they tell a circuit."""
    if not do_counts_fit(n, words, data):
        return fault("BAD_COUNTS")
    for at, roles, row in rows(n, words):
        kind = row_fault(roles, row, n.max_var)
        if kind:
            return fault(kind, "WORD", at)
    return symbol_fault(n, words, data) or structural_fault(n, words)


def text_of(n, words, data):
    """The ASCII text of arrays that tell a circuit."""
    header = [n.max_var, n.inputs, n.latches, n.outputs, n.gates, n.bad, n.constraints, n.justice, n.fairness]
    while len(header) > 5 and not header[-1]:
        header.pop()
    lines = [" ".join(["aag", *map(str, header)]).encode()]
    for _, roles, row in rows(n, words):
        lines.append(" ".join(map(str, row[:2] if roles == "vlr" and not row[2] else row)).encode())
    for at in range(section_length(n), len(words), 4):
        kind, position, start, length = words[at : at + 4]
        lines.append(b"%c%d %b" % (LETTERS[kind], position, data[start : start + length]))
    comment = b"c\n" + data[n.name_bytes :] if n.has_comment else b""
    return b"\n".join(lines) + b"\n" + comment


def is_ordered(n, words):
    """Whether the sections are those of a circuit whose variables are numbered in order."""
    if n.max_var != n.inputs + n.latches + n.gates or sum(sizes_in(n, words)) != n.justice_literals:
        return False
    variable = 0
    for _, roles, row in rows(n, words):
        if row_fault(roles, row, n.max_var):
            return False
        if roles[0] == "v":
            variable += 1
            if row[0] != 2 * variable or roles == "vll" and max(row[1:]) >= row[0]:
                return False
    return True


def values_length(n):
    return 1 + n.max_var + n.outputs + n.bad + n.constraints + n.latches


def step_fault(n, words, values):
    """What is wrong with a step, or None: a fault, or how many values there would be."""
    if not are_in_range(n) or section_length(n) > len(words):
        return fault("BAD_COUNTS")
    if not is_ordered(n, words):
        return fault("NOT_ORDERED")
    if len(values) < values_length(n):
        return values_length(n)
    for at in range(1, 1 + n.inputs + n.latches):
        if values[at] > 2:
            return fault("BAD_VALUE", "VALUE", at)
    return None


def literal_value(values, literal):
    value = values[literal // 2]
    return 1 - value if literal % 2 and value < 2 else value


def stepped(n, words, values):
    """The values of a step from these of inputs and latches, and what stood behind them."""
    made, shown, following = [0, *values[1 : 1 + n.inputs + n.latches]], [], []
    parts = [row for _, roles, row in rows(n, words) if roles == "vll"]
    for _, left, right in parts:
        left, right = literal_value(made, left), literal_value(made, right)
        made.append(0 if not left or not right else 1 if left == right == 1 else 2)
    at = n.inputs + 3 * n.latches
    shown = words[at : at + n.outputs + n.bad + n.constraints]
    following = words[n.inputs + 1 : at : 3]
    made += [literal_value(made, it) for it in [*shown, *following]]
    return bytes(made) + bytes(values[len(made) :])


def numbers_of(mapped, n):
    """The new variables that the map of an image tells, where the source had these counts."""
    comment = Text(mapped[mapped.rindex(b"c\naigmap 1 ") + 2 :])
    comment.line()
    for _ in range(n.inputs + n.latches):
        comment.line()
    first = n.inputs + n.latches + 1
    return [*range(1, first), *(first + comment.numbers()[1] for _ in range(n.gates))]


def edited_word(chance, n, words):
    """Another number in the place of a word."""
    other = chance.randrange(len(words))
    numbers = [0, 1, 2, 3, 2 * n.max_var, 2 * n.max_var + 1, 2 * n.max_var + 2, LARGEST, LARGEST + 1, 4294967294, 4294967295]
    numbers += [words[other]] * 6 + [words[other] ^ 1] * 6 + [chance.randrange(2 * n.max_var + 4)] * 3
    return chance.choice(numbers) % 2**32


def edited_count(chance, name, count):
    """Another number in the place of a count."""
    if name in ("name_bytes", "comment_bytes"):
        numbers = [2**32 + count, 2**64 - 1, 2**64 - chance.randrange(1, 9), 2**63]
    else:
        numbers = [LARGEST, LARGEST + 1, 2**32 - 1, 2**30, (count + 2**30) % 2**32]
    return chance.choice([*numbers, 0, 1, 2, max(count - 1, 0), count + 1, count + 1, chance.randrange(9)])


def edited_bytes(chance, n, data):
    """Another byte, one more or one less, which perhaps is counted, and the counts."""
    at, how, byte = chance.randrange(len(data) + 1), chance.randrange(3), bytes([chance.choice(b"\n\0 a\xff")])
    made = data[:at] + byte * (how > 0) + data[at + (how < 2) :]
    name = chance.choice(["name_bytes", "comment_bytes", "has_comment"])
    if name != "has_comment":
        n = n._replace(**{name: max(getattr(n, name) + len(made) - len(data), 0)})
    return n, made


def exchanged(chance, n, words):
    """Two entries of a section exchanged, or the operands of a gate."""
    at, roles, row = chance.choice([*rows(n, words)])
    others = [it for it in rows(n, words) if it[1] == roles]
    other, _, second = chance.choice(others)
    words[at : at + len(row)], words[other : other + len(row)] = second, row
    if roles == "vll" and chance.randrange(2):
        words[at + 1], words[at + 2] = words[at + 2], words[at + 1]


def edit(chance, n, words, data):
    """The arrays with an edit."""
    how = chance.randrange(20)
    if how < 10 and words:
        words[chance.randrange(len(words))] = edited_word(chance, n, words)
    elif how < 14 and section_length(n) and section_length(n) <= len(words):
        exchanged(chance, n, words)
    elif how < 16:
        n, data = edited_bytes(chance, n, data)
    elif how < 18:
        name = chance.choice(Counts._fields)
        n = n._replace(**{name: edited_count(chance, name, getattr(n, name))})
    elif how == 18:
        del words[len(words) - chance.randrange(5) :]
    else:
        words += [chance.randrange(9) for _ in range(chance.randrange(5))]
    return n, words, data


def balanced(chance, n):
    """The counts with both lengths of bytes changed so that their sum, taken to 64 bits, stays."""
    less = chance.choice([1, n.name_bytes + 1, 2**32, 2**63])
    return n._replace(
        name_bytes=(n.name_bytes - less) % 2**64, comment_bytes=(n.comment_bytes + less) % 2**64, has_comment=1
    )


def edited(chance, n, words, data):
    """The arrays with some edits made by chance: one, two or three."""
    words = [*words]
    for _ in range(chance.choice([1, 1, 1, 2, 3])):
        try:
            n, words, data = edit(chance, n, words, data)
        except (IndexError, ValueError):  # there is nothing to edit
            continue
    return (balanced(chance, n) if not chance.randrange(50) else n), words, data
