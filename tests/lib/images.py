"""Compares what the program writes in binary with the images that a plain search gives, on circuits made by chance.

Each circuit has shuffled gates, variables far apart, unused indices, symbols and perhaps a comment; half of them have resets,
bad states, constraints, justice properties and fairness constraints. Its gates are placed by looking at all of them again for
each: the next one is the first in the file whose operands over gates are all placed. What the program writes must be that
image's file, and its ASCII text must give the file again. With the map, the file must have the block that is made here, and
undone it must give the circuit's text. Of circuits that may have cycles, the first gate that the plain search leaves out must
be told. What circuit and image mean, step by step, is compared in traces.py.
"""
import dataclasses
import random
import subprocess

CIRCUITS = 400
CYCLIC = 300

COMMENTS = [None, "", "made by chance\n", "no line feed", "aigmap 1 0 0 0 0 0\naigmap end\n", "\naigmap end\n"]


@dataclasses.dataclass
class Circuit:
    """The variables of inputs and latches; of each latch also the next literal and what it starts at, "0", "1" or "x"; lists of
    literals, of which each justice property is one; and gates of three literals in any order."""

    largest: int
    inputs: list
    latches: list
    nexts: list
    resets: list
    outputs: list
    bad: list
    constraints: list
    justice: list
    fairness: list
    gates: list
    symbols: str
    comment: str | None

    def lists(self):
        """The lists of literals, the justice properties' one by one."""
        return [self.outputs, self.bad, self.constraints, *self.justice, self.fairness]


def literals(chance, literal, most):
    """Fewer literals than so many."""
    return [literal() for _ in range(chance.randrange(most))]


def circuit(chance, may_be_cyclic=False, most_latches=3, most_inputs=4, most_gates=11, reach=None):
    """A circuit made by chance. Its gates are over any variable, or over those that reach so far before them."""
    inputs, latches, count = (chance.randrange(most + 1) for most in (most_inputs, most_latches, most_gates))
    total = inputs + latches + count
    largest = chance.choice([total + 3, 1000, 2147483647])
    variables = chance.sample(range(1, largest + 1), total)
    first = inputs + latches
    has_more = chance.randrange(2)

    def literal(places=total, lowest=0):
        place = chance.randrange(lowest, places + 1)
        return chance.randrange(2) + (2 * variables[place - 1] if place else 0)

    gates = []
    for place in range(first, total):
        below = total if may_be_cyclic else place
        lowest = max(0, place - reach) if reach else 0
        gates.append((2 * variables[place], literal(below, lowest), literal(below, lowest)))
    chance.shuffle(gates)
    made = Circuit(
        largest=largest,
        inputs=variables[:inputs],
        latches=variables[inputs:first],
        nexts=[literal() for _ in range(latches)],
        resets=[chance.choice("01x" if has_more else "0") for _ in range(latches)],
        outputs=literals(chance, literal, 4),
        bad=literals(chance, literal, 3 * has_more + 1),
        constraints=literals(chance, literal, 2 * has_more + 1),
        justice=[literals(chance, literal, 4) for _ in range(chance.randrange(3 * has_more + 1))],
        fairness=literals(chance, literal, 2 * has_more + 1),
        gates=gates,
        symbols="",
        comment=chance.choice(COMMENTS),
    )
    return dataclasses.replace(made, symbols=symbols(chance, made))


def symbols(chance, made):
    """Symbols of some of what there is, in any order."""
    named = [made.inputs, made.latches, made.outputs, made.bad, made.constraints, made.justice, made.fairness]
    lines = [f"{letter}{at} name {at}\n" for letter, of in zip("ilobcjf", named) for at in range(len(of)) if chance.randrange(2)]
    chance.shuffle(lines)
    return "".join(lines)


def tail(made):
    return made.symbols + ("" if made.comment is None else f"c\n{made.comment}")


def header(word, made):
    """The header: its last numbers are left out where they are 0, down to five of them."""
    of = [made.inputs, made.latches, made.outputs, made.gates, made.bad, made.constraints, made.justice, made.fairness]
    numbers = [made.largest, *map(len, of)]
    while len(numbers) > 5 and not numbers[-1]:
        numbers.pop()
    return " ".join([word, *map(str, numbers)])


def next_lines(made, own):
    """The line of each latch from its next literal on, where its own literal is as told."""
    numbers = {"0": "", "1": " 1"}
    return [f"{following}{numbers.get(reset, f' {it}')}" for it, following, reset in zip(own, made.nexts, made.resets)]


def literal_lines(made):
    """The lines between latches and gates: each justice property's size stands before the literals of all of them."""
    sizes = [len(property) for property in made.justice]
    numbers = [*made.outputs, *made.bad, *made.constraints, *sizes, *sum(made.justice, []), *made.fairness]
    return [str(number) for number in numbers]


def ascii_text(made):
    lines = [header("aag", made)]
    lines += [str(2 * variable) for variable in made.inputs]
    own = [2 * variable for variable in made.latches]
    lines += [f"{it} {line}" for it, line in zip(own, next_lines(made, own))]
    lines += literal_lines(made)
    lines += [f"{own} {left} {right}" for own, left, right in made.gates]
    return ("\n".join(lines) + "\n" + tail(made)).encode()


def placed(gates):
    """The gates in their order, each found by looking at all of them; those that depend on a cycle are left out."""
    own, order = {gate[0] // 2 for gate in gates}, []
    while True:
        waiting = own - {gate[0] // 2 for gate in order}
        ready = [it for it in gates if it[0] // 2 in waiting and all(x // 2 not in waiting for x in it[1:])]
        if not ready:
            return order
        order.append(ready[0])


def spelled(delta):
    groups = bytearray()
    while delta > 127:
        groups.append(delta % 128 + 128)
        delta //= 128
    return bytes(groups + bytes([delta]))


def renumbering(made, order):
    """The new literal of each old one."""
    new = {old: at for at, old in enumerate([0, *made.inputs, *made.latches, *(gate[0] // 2 for gate in order)])}
    return lambda old: 2 * new[old // 2] + old % 2


def renumbered(made):
    """The circuit with its gates in their order, all literals by their new numbers, and larger operands first."""
    order = placed(made.gates)
    literal = renumbering(made, order)
    gates = []
    for own, *operands in order:
        right, left = sorted(map(literal, operands))
        gates.append((literal(own), left, right))
    first = len(made.inputs)
    return dataclasses.replace(
        made,
        largest=first + len(made.latches) + len(made.gates),
        inputs=list(range(1, first + 1)),
        latches=list(range(first + 1, first + len(made.latches) + 1)),
        nexts=[literal(it) for it in made.nexts],
        outputs=[literal(it) for it in made.outputs],
        bad=[literal(it) for it in made.bad],
        constraints=[literal(it) for it in made.constraints],
        justice=[[literal(it) for it in property] for property in made.justice],
        fairness=[literal(it) for it in made.fairness],
        gates=gates,
    )


def binary_text(it):
    """The text of a circuit in binary order."""
    lines = [header("aig", it), *next_lines(it, [2 * variable for variable in it.latches]), *literal_lines(it)]
    deltas = b"".join(spelled(own - left) + spelled(left - right) for own, left, right in it.gates)
    return ("\n".join(lines) + "\n").encode() + deltas + tail(it).encode()


def image(made):
    return binary_text(renumbered(made))


def mapped_image(made):
    """The image, its comment being the block, which tells numbering, places and exchanged operands, and the source's."""
    order = placed(made.gates)
    literal = renumbering(made, order)
    counts = f"{len(made.inputs)} {len(made.latches)} {len(made.gates)}"
    block = f"aigmap 1 {made.largest} {counts} {int(made.comment is not None)}\n"
    block += "".join(f"{variable}\n" for variable in made.inputs + made.latches)
    for gate in made.gates:
        block += f"{gate[0] // 2} {order.index(gate)} {int(literal(gate[1]) < literal(gate[2]))}\n"
    block += "aigmap end\n"
    return image(dataclasses.replace(made, comment=block + (made.comment or "")))


def converted(program, text, *words):
    ran = subprocess.run([program, "aigtoaig", *words], input=text, capture_output=True, check=False)
    return ran.stdout if (ran.returncode, ran.stderr) == (0, b"") else ran


def told_of_cycle(gates):
    """What is told of the first gate that the plain search leaves out, if there is one."""
    order = placed(gates)
    left = [gate for gate in gates if gate not in order]
    return f"aiger: -: gate {left[0][0]} depends on a cycle\n".encode() if left else None


def refused_for_cycle(program, gates, text):
    """Whether the first gate that the plain search leaves out is told, if there is one, to binary and to ASCII."""
    told = told_of_cycle(gates)
    for ran in converted(program, text), converted(program, text, "--ascii"):
        came = None if isinstance(ran, bytes) else (ran.returncode, ran.stdout, ran.stderr)
        if came != ((1, b"", told) if told else None):
            return False
    return True


def judge(program, made):
    """What is wrong with the image of this circuit, if anything is."""
    text, wanted, mapped = ascii_text(made), image(made), mapped_image(made)
    if converted(program, text, "--ascii") != text:
        return f"it does not come back: {text!r}"
    if converted(program, text) != wanted:
        return f"it has another image: {text!r}"
    if converted(program, converted(program, wanted, "--ascii")) != wanted:
        return f"its image does not come back: {wanted!r}"
    if converted(program, text, "--keep-map") != mapped:
        return f"it has another mapped image: {text!r}"
    if converted(program, mapped, "--undo-map", "--ascii") != text:
        return f"it is not undone: {mapped!r}"
    return None


def judge_cycle(program, made):
    """What is wrong with what is told of a cycle of this circuit, if anything is."""
    text = ascii_text(made)
    return None if refused_for_cycle(program, made.gates, text) else f"another cycle is told of it: {text!r}"


def cases(program, _):
    chance = random.Random(7)
    for _ in range(CIRCUITS):
        yield judge, program, circuit(chance)
    for _ in range(CYCLIC):
        yield judge_cycle, program, circuit(chance, may_be_cyclic=True)
