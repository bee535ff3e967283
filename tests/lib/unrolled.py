"""Compares the unrolled circuits that the program writes with those of a plain model, and what they do with what the source does.

The circuits are those of images.py, with more latches, of which many have as next literal the latch before, their own negation, a
constant or an input. A few have about as many gates as are written at once, with bad states and a constraint. Those with justice
properties or fairness constraints must be refused. Of each other one the program must write the text of the circuit that is made
here, literal by literal, over one to six frames: as ASCII and as binary, from the source and from its image. Simulated, that
circuit must give in one step the outputs of all frames, and the bad states of all frames as far as the constraints have held, as
they come from the source's own equations, frame after frame.
"""
import dataclasses
import random
from pathlib import Path

from lib import images, traces

CIRCUITS = 500
# how many gates the larger ones have: 256 are written at once
MANY = [255, 256, 257, 511, 512, 513]
REFUSED = 50
FRAMES = 6
STEPS = 4


def next_literal(chance, made, place):
    """The next literal of the latch at a place: any, or one of those that go wrong first."""
    own, before = made.latches[place], made.latches[place - 1]
    known = [made.nexts[place], 2 * before, 2 * before + 1, 2 * own, 2 * own + 1, 0, 1, *(2 * it for it in made.inputs)]
    return chance.choice(known)


def circuit(chance):
    """A circuit made by chance, with up to nine latches."""
    made = images.circuit(chance, most_latches=9)
    return dataclasses.replace(made, nexts=[next_literal(chance, made, place) for place in range(len(made.latches))])


def with_gates(chance, made, count):
    """The circuit with so many gates, two bad states and a constraint."""
    used, gates = {*made.inputs, *made.latches, *(gate[0] // 2 for gate in made.gates)}, list(made.gates)
    known, spare = [0, *(2 * it for it in used)], [it for it in range(1, count + len(used) + 1) if it not in used]
    chance.shuffle(spare)

    def literal():
        return chance.choice(known) + chance.randrange(2)

    for variable in spare[: count - len(gates)]:
        gates.append((2 * variable, literal(), literal()))
        known.append(2 * variable)
    chance.shuffle(gates)
    largest, bad = max(made.largest, *spare), [literal(), literal()]
    return dataclasses.replace(made, largest=largest, gates=gates, bad=bad, constraints=[literal()])


def without_liveness(chance, made):
    """The circuit without justice properties and fairness constraints."""
    found = dataclasses.replace(made, justice=[], fairness=[])
    return dataclasses.replace(found, symbols=images.symbols(chance, found))


def free_latches(made):
    """The uninitialised latches, each of which has an input for its first value."""
    return [latch for latch, reset in zip(made.latches, made.resets) if reset == "x"]


def unrolled(made, frames):
    """The circuit over so many frames. What a literal is in a frame is looked up each time anew, back to the first frame."""
    it = images.renumbered(made)
    free, places = free_latches(it), {gate[0] // 2: place for place, gate in enumerate(it.gates)}
    inputs, size = len(it.inputs), len(it.gates) + len(it.constraints) + len(it.bad)
    before_gates = len(free) + frames * inputs

    def first(latch, reset):
        return 2 * (free.index(latch) + 1) if reset == "x" else int(reset)

    def of_variable(frame, variable):
        if variable == 0:
            return 0
        if variable in it.inputs:
            return 2 * (len(free) + frame * inputs + it.inputs.index(variable) + 1)
        if variable in places:
            return 2 * (before_gates + frame * size + places[variable] + 1)
        place = it.latches.index(variable)
        return at(frame - 1, it.nexts[place]) if frame else first(variable, it.resets[place])

    def at(frame, literal):
        return of_variable(frame, literal // 2) ^ literal % 2

    gates, outputs, bad, held = [], [], [], 1

    def conjunction(left, right):
        own = 2 * (before_gates + len(gates) + 1)
        gates.append((own, max(left, right), min(left, right)))
        return own

    for frame in range(frames):
        outputs += [at(frame, output) for output in it.outputs]
        for _, left, right in it.gates:
            conjunction(at(frame, left), at(frame, right))
        for constraint in it.constraints:
            held = conjunction(held, at(frame, constraint))
        bad += [conjunction(held, at(frame, state)) for state in it.bad]
    return images.Circuit(
        largest=before_gates + len(gates),
        inputs=list(range(1, before_gates + 1)),
        latches=[],
        nexts=[],
        resets=[],
        outputs=outputs,
        bad=bad,
        constraints=[],
        justice=[],
        fairness=[],
        gates=gates,
        symbols="",
        comment=None,
    )


def side_by_side(first, lines):
    """The trace line of the unrolled circuit, where these are the lines of its frames, with properties, and these the
    first values of latches without a reset."""
    given, outputs, bad, held = "", "", "", "1"
    for line in lines:
        _, inputs, shown, _, states, constraints = line.split(" ")
        given += inputs
        outputs += shown
        for constraint in constraints:
            held = traces.conjunction(held, constraint)
        bad += "".join(traces.conjunction(held, it) for it in states)
    return f" {first}{given} {outputs}  {bad} \n"


def frames_as_step(made, first, rows):
    """The trace line of the unrolled circuit, by the source's own equations: from these first values of latches without a
    reset, over these inputs of each frame."""
    order, free, lines = images.placed(made.gates), iter(first), []
    state = "".join(next(free) if reset == "x" else reset for reset in made.resets)
    for given in rows:
        _, line, state = traces.step(made, order, state, given)
        lines.append(line)
    return side_by_side(first, lines)


def lines_of_steps(chance, made, frames):
    """Some vectors, each of which is a step of the unrolled circuit, and the trace of them."""
    given, wanted = "", ""
    for _ in range(STEPS):
        characters = chance.choice(["01", "01x", "0001xx"])
        first = "".join(chance.choices(characters, k=len(free_latches(made))))
        rows = ["".join(chance.choices(characters, k=len(made.inputs))) for _ in range(frames)]
        given += f"{first}{''.join(rows)}\n"
        wanted += frames_as_step(made, first, rows)
    return given.encode(), f"{wanted}.\n".encode()


def judge(program, folder, number, made, frames, given, trace):
    """What is wrong with the unrolled circuit of this one, if anything is."""
    source, image, wanted = images.ascii_text(made), images.image(made), unrolled(made, frames)
    text, binary = images.ascii_text(wanted), images.binary_text(wanted)
    steps, words = Path(folder) / f"steps.{number}", ["aigunroll", "--frames", str(frames)]
    steps.write_bytes(given)
    asked = [(source, [*words, "--ascii"], text), (source, words, binary), (image, words, binary)]
    asked += [(it, ["aigsim", "--properties", "-", str(steps)], trace) for it in (text, binary)]
    for given_file, arguments, expected in asked:
        came = traces.ran(program, given_file, *arguments)
        if came != (expected, b"", 0):
            return f"{arguments} of {given_file!r}: wanted {expected!r}, came {came!r}"
    steps.unlink()
    return None


def refused(program, made, frames):
    """What is wrong with the refusal of this circuit, if anything is."""
    came = traces.ran(program, images.ascii_text(made), "aigunroll", "--frames", str(frames))
    if came != (b"", b"aiger: -: justice or fairness cannot be unrolled\n", 1):
        return f"{images.ascii_text(made)!r} is not refused: {came!r}"
    return None


def all_refused(count):
    """What is wrong where so many circuits were to be refused."""
    return None if count == REFUSED else "too few circuits have justice properties or fairness constraints"


def cases(program, folder):
    chance, made_refused = random.Random(25), 0
    for number in range(CIRCUITS):
        made, frames = circuit(chance), chance.randrange(1, FRAMES + 1)
        if (made.justice or made.fairness) and made_refused < REFUSED:
            yield refused, program, made, frames
            made_refused += 1
        made = without_liveness(chance, made)
        yield judge, program, folder, number, made, frames, *lines_of_steps(chance, made, frames)
    for number, count in enumerate(MANY, CIRCUITS):
        made, frames = without_liveness(chance, with_gates(chance, circuit(chance), count)), chance.randrange(1, FRAMES + 1)
        yield judge, program, folder, number, made, frames, *lines_of_steps(chance, made, frames)
    yield all_refused, made_refused
