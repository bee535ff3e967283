#!/usr/bin/env python3
"""Writes the circuits that bench/run.py measures: those that are named FAMILY-N, of about N gates each, and forms of
other circuits, of which each is a binary file NAME.aig.

families:
  random      gates mostly over what stands a little before them, with a latch to 25 of them
  far         gates over anything before them, with 64 inputs, latches and outputs
  multiplier  an array multiplier, without latches, its inputs and outputs named
  memory      words of latches, with a port that writes and one that reads, all named
  chain       gates over the one before each and an input: as deep as a circuit can be

Each form of a circuit has a file NAME.FORM:
  aig           in binary
  ordered.aag   in ASCII, its gates in order
  shuffled.aag  its gates in any order
  sparse.aag    its variables spread up to 8 times their number
  wild.aag      both
  huge.aag      both, its variables spread up to 2147483647
  reversed.aag  of a chain, the last gate first
  later.aag     by version 1.9, its latches with resets and its outputs as bad states
  one.steps     a stimulus of one run, of as many steps as make 100,000,000 gates of all steps
  runs.steps    one of 256 runs

Each file is canonical, and the same on every machine. A tenth of what a stimulus has is x.
"""
import argparse
import math
import os
import random
import re

LARGEST = 2147483647
ENDS = 64
# of the longest stimulus, gates of all steps; and how many runs another has
RUN_GATES = 100_000_000
RUNS = 256
OUT = os.path.join(os.path.dirname(os.path.abspath(__file__)), "out")


class Circuit:
    """A circuit in binary order, whose literals are those of a file."""

    def __init__(self, inputs, latches):
        # the variable of its first gate
        self.first = inputs + latches + 1
        ends = range(2, 2 * self.first, 2)
        self.inputs, self.latches = ends[:inputs], ends[inputs:]
        self.nexts, self.outputs, self.gates = [0] * latches, [], []
        # the lines of names and comment
        self.tail = ""

    def total(self):
        return self.first - 1 + len(self.gates)

    def counts(self):
        return [len(self.inputs), len(self.latches), len(self.outputs), len(self.gates)]

    def both(self, left, right):
        """A new gate."""
        self.gates.append((max(left, right), min(left, right)))
        return 2 * (self.first + len(self.gates) - 1)

    def one_of(self, left, right):
        """Whether one of them is true and the other is not; and whether both are."""
        both = self.both(left, right)
        return self.both(both ^ 1, self.both(left ^ 1, right ^ 1) ^ 1), both

    def choice(self, condition, then, other):
        return self.both(self.both(condition, then) ^ 1, self.both(condition ^ 1, other) ^ 1) ^ 1

    def name(self, kind, names):
        self.tail += "".join(f"{kind}{at} {it}\n" for at, it in enumerate(names))


def near_gates(count):
    chance = random.Random(1)
    draw = chance.random
    made = Circuit(max(8, count // 200), max(8, count // 25))
    # what no gate stands on yet: a gate takes one of the last of these, seldom any, and something mostly near
    unused = chance.sample(range(1, made.first), made.first - 1)
    for variable in range(made.first, made.first + count):
        reach = len(unused) if draw() < 0.04 else min(48, len(unused))
        taken = len(unused) - 1 - int(draw() * reach)
        one, unused[taken] = unused[taken], unused[-1]
        kind = draw()
        reach = 64 if kind < 0.55 else 2048 if kind < 0.92 else variable
        other = variable - 1 - int(draw() * min(reach, variable - 1))
        made.both(2 * one + int(draw() * 2), 2 * other + int(draw() * 2))
        unused[-1] = variable
    chance.shuffle(unused)
    ends = [2 * it + it % 2 for it in unused]
    made.nexts, made.outputs = ends[: len(made.latches)], ends[len(made.latches) :]
    return made


def far_gates(count):
    chance = random.Random(2)
    made = Circuit(ENDS, ENDS)
    for variable in range(made.first, made.first + count):
        made.both(int(chance.random() * (2 * variable - 2)) + 2, int(chance.random() * (2 * variable - 2)) + 2)
    made.nexts, made.outputs = ([chance.randrange(2 * (made.first + count)) for _ in range(ENDS)] for _ in range(2))
    return made


def multiplier(count):
    width = math.isqrt(count // 8)
    made = Circuit(2 * width, 0)
    total = [0] * width
    for factor in made.inputs[width:]:
        sums, carry = [], 0
        for given, held in zip(made.inputs, total):
            half, first = made.one_of(made.both(given, factor), held)
            whole, second = made.one_of(half, carry)
            carry = made.both(first ^ 1, second ^ 1) ^ 1
            sums.append(whole)
        made.outputs.append(sums[0])
        total = sums[1:] + [carry]
    made.outputs += total
    made.name("i", (f"{word}[{bit}]" for word in "ab" for bit in range(width)))
    made.name("o", (f"p[{bit}]" for bit in range(len(made.outputs))))
    return made


def memory(count):
    bits = 3 * count.bit_length() // 5
    width = max(1, count // (6 << bits))
    made = Circuit(2 * bits + width + 1, width << bits)
    written, read, given = made.inputs[:bits], made.inputs[bits : 2 * bits], made.inputs[2 * bits : -1]
    chosen = made.inputs[-1:]
    for bit in written:
        chosen = [made.both(it, sign) for sign in (bit ^ 1, bit) for it in chosen]
    words = [made.latches[at : at + width] for at in range(0, width << bits, width)]
    made.nexts = [made.choice(it, new, old) for it, word in zip(chosen, words) for new, old in zip(given, word)]
    for bit in read:
        pairs = zip(words[::2], words[1::2])
        words = [[made.choice(bit, one, zero) for zero, one in zip(*pair)] for pair in pairs]
    made.outputs = words[0]
    ports = (("waddr", bits), ("raddr", bits), ("wdata", width))
    made.name("i", [f"{port}[{bit}]" for port, count in ports for bit in range(count)] + ["we"])
    made.name("l", (f"mem[{word}][{bit}]" for word in range(1 << bits) for bit in range(width)))
    made.name("o", (f"rdata[{bit}]" for bit in range(width)))
    return made


def chain(count):
    made = Circuit(1, 0)
    literal = 2
    for _ in range(count):
        literal = made.both(literal, 2)
    made.outputs = [literal]
    return made


FAMILIES = {"random": near_gates, "far": far_gates, "multiplier": multiplier, "memory": memory, "chain": chain}
STIMULI = ("one.steps", "runs.steps")


def spelled(circuit):
    """The binary text."""
    text = bytearray(f"aig {circuit.total()} {' '.join(map(str, circuit.counts()))}\n", "ascii")
    text += "".join(f"{it}\n" for it in circuit.nexts + circuit.outputs).encode()
    for variable, (left, right) in enumerate(circuit.gates, circuit.first):
        for delta in (2 * variable - left, left - right):
            while delta > 127:
                text.append(delta % 128 + 128)
                delta //= 128
            text.append(delta)
    return text + circuit.tail.encode("latin-1")


def lines(circuit, largest=0, order=None, is_later=False):
    """The lines of the ASCII text, with variables spread up to the largest, if there is one, and gates in that order."""
    total, counts = circuit.total(), circuit.counts()
    variables = random.Random(3).sample(range(1, largest + 1), total) if largest else range(1, total + 1)
    new = [literal for it in (0, *variables) for literal in (2 * it, 2 * it + 1)]
    if is_later:
        counts[2:] = [0, counts[3], counts[2]]
    yield f"aag {largest or total} {' '.join(map(str, counts))}\n"
    yield from (f"{new[it]}\n" for it in circuit.inputs)
    for at, (latch, following) in enumerate(zip(circuit.latches, circuit.nexts)):
        reset = (" 1", f" {new[latch]}")[at % 2] if is_later else ""
        yield f"{new[latch]} {new[following]}{reset}\n"
    yield from (f"{new[it]}\n" for it in circuit.outputs)
    for at in range(len(circuit.gates)) if order is None else order:
        left, right = circuit.gates[at]
        yield f"{new[2 * (circuit.first + at)]} {new[left]} {new[right]}\n"
    # what were outputs are bad states
    yield re.sub(r"(?m)^o(?=\d+ )", "b", re.split(r"(?m)^c\n", circuit.tail)[0]) if is_later else circuit.tail


def shuffled(circuit):
    """The places of the gates, in any order."""
    return random.Random(4).sample(range(len(circuit.gates)), len(circuit.gates))


def spread(circuit):
    return 8 * circuit.total()


ASCII = {
    "ordered.aag": lines,
    "shuffled.aag": lambda it: lines(it, order=shuffled(it)),
    "sparse.aag": lambda it: lines(it, spread(it)),
    "wild.aag": lambda it: lines(it, spread(it), shuffled(it)),
    "huge.aag": lambda it: lines(it, LARGEST, shuffled(it)),
    "reversed.aag": lambda it: lines(it, order=reversed(range(len(it.gates)))),
    "later.aag": lambda it: lines(it, is_later=True),
}


def steps_of(form, count):
    """How many runs a stimulus of so many gates has, and steps each."""
    runs = RUNS if form == "runs.steps" else 1
    return runs, max(2, RUN_GATES // count // runs)


def stimulus(inputs, runs, steps):
    chance, shown = random.Random(5), bytes(120 if it < 26 else 48 + it % 2 for it in range(256))
    for _ in range(runs):
        yield from (chance.randbytes(inputs).translate(shown) + b"\n" for _ in range(steps))
        yield b".\n"


def read(path):
    """The circuit of a canonical binary file, of inputs, latches that start at 0, outputs and gates."""
    with open(path, "rb") as file:
        data = file.read()
    front, at = data.partition(b"\n")[0], 0
    words = front.split()
    counts = [int(it) for it in words[1:] if it.isdigit()]
    if words[:1] != [b"aig"] or len(words) != 6 or len(counts) != 5 or counts[0] != counts[1] + counts[2] + counts[4]:
        raise ValueError("no binary file of inputs, latches, outputs and gates")
    made = Circuit(counts[1], counts[2])
    ends = data[len(front) + 1 :].split(b"\n", counts[2] + counts[3])
    made.nexts, made.outputs = ([int(it) for it in some] for some in (ends[: counts[2]], ends[counts[2] : -1]))
    deltas = ends[-1]
    for variable in range(made.first, made.first + counts[4]):
        left, at = lowered(2 * variable, deltas, at)
        right, at = lowered(left, deltas, at)
        made.gates.append((left, right))
    made.tail = deltas[at:].decode("latin-1")
    return made


def lowered(literal, deltas, at):
    """The literal less the delta that stands there, and where the next one stands."""
    weight = 1
    while deltas[at] > 127:
        literal -= weight * (deltas[at] - 128)
        weight *= 128
        at += 1
    return literal - weight * deltas[at], at + 1


def path_of(name, form, folder=OUT):
    """Of a file its own name stands for the circuit."""
    return os.path.join(folder, f"{os.path.basename(name).removesuffix('.aig')}.{form}")


def text_of(circuit, count, form):
    """The text of a form of a circuit of so many gates by its name."""
    if form in ASCII:
        return "".join(ASCII[form](circuit)).encode()
    return b"".join(stimulus(len(circuit.inputs), *steps_of(form, count))) if form in STIMULI else spelled(circuit)


def count_of(name):
    """About how many gates the circuit of this name has: FAMILY-N, or else a binary file's path."""
    family, _, count = name.partition("-")
    if family in FAMILIES:
        return int(count)
    with open(name, "rb") as file:
        return max(1, int(file.readline().split()[5]))


def make(name):
    family, _, count = name.partition("-")
    return FAMILIES[family](int(count)) if family in FAMILIES else read(name)


def is_there(name, path):
    """Whether a form of the circuit is there, and is no older than the file that it is made of."""
    made_of_file = os.path.isfile(name)
    return os.path.isfile(path) and not (made_of_file and os.path.getmtime(path) < os.path.getmtime(name))


def write(name, forms, folder=OUT):
    """Writes those of the forms of the circuit that are not there."""
    paths = {form: path_of(name, form, folder) for form in forms}
    paths = {form: path for form, path in paths.items() if not is_there(name, path)}
    if not paths:
        return
    os.makedirs(folder, exist_ok=True)
    circuit, count = make(name), count_of(name)
    for form, path in paths.items():
        with open(f"{path}.new", "wb") as file:
            file.write(text_of(circuit, count, form))
        os.replace(f"{path}.new", path)


def name_of(text):
    """A name of the form FAMILY-N, or a file, for argparse."""
    form = re.fullmatch(r"([a-z]+)-(\d+)", text)
    if os.path.isfile(text):
        try:
            read(text)
        except (ValueError, IndexError) as fault:
            raise argparse.ArgumentTypeError(f"{text} cannot be taken: {fault}") from fault
    elif not form or form[1] not in FAMILIES or not 100 <= int(form[2]) <= 10_000_000:
        no_name = f"{text} is no file, and no FAMILY-N, with a family of --help and N from 100 to 10000000"
        raise argparse.ArgumentTypeError(no_name)
    return text


def main():
    asked = argparse.ArgumentParser(description=__doc__, formatter_class=argparse.RawDescriptionHelpFormatter)
    asked.add_argument("names", metavar="FAMILY-N|FILE.aig", nargs="+", type=name_of)
    asked.add_argument("--form", action="append", choices=["aig", *ASCII, *STIMULI], help="these forms alone (all)")
    asked.add_argument("--folder", default=OUT, help="where the files go (bench/out)")
    given = asked.parse_args()
    for name in given.names:
        write(name, given.form or ["aig", *ASCII, *STIMULI], given.folder)


if __name__ == "__main__":
    main()
