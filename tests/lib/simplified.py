"""Compares what the program writes with --simplify with what a plain model makes, and with what was there before, on circuits
made by chance.

The circuits are those of images.py, and others with many gates over few variables, a part of which are there twice. The
program must write the text of the circuit that is made here: gate by gate in the order of the image, with what stands for the
operands looked up each time anew. That circuit must have no more gates than the image, all of them needed, none with a constant
or with equal operands, and no two alike; inputs, latches, counts and names must be those of the source; and simplified once more
it must come back. Its traces, with x, must be those that the source's own equations give, and each literal of a justice property
and each fairness constraint must be as the source's is in each step.

Unrolled circuits must be those of unrolled.py simplified, and do in one step what the source does in several. Clauses are those
of what is left without outputs, with multiplexers as one: a search over all inputs must say of them what it says of those of the whole, and so must
cadical. What shows that they cannot be satisfied, made as in refutations.py and mostly spoiled, must be judged by --simplify as
a plain checker judges it. Answers must give the same witness as without. The same is done with miters and invariants, and with
what is made of a justice property, as a circuit and as clauses.
"""
import collections
import dataclasses
import random
import shutil
from pathlib import Path

from lib import answers, images, invariants, liveness, miters, refutations, traces, unrolled

CIRCUITS = 1000
UNROLLED = 300
REFUTED = 300
PAIRS = 200
INVARIANTS = 150
LIVE = 150


def negated(literal, sign):
    return literal ^ sign % 2


def folded(it):
    """The circuit in binary order with what stands for its literals, and the literal that stands for each gate. It has a gate
    for each that it had, by the same variable."""
    stands, gates = {}, []

    def of(literal):
        return negated(stands.get(literal // 2, literal - literal % 2), literal)

    def value(left, right):
        if 0 in (left, right):
            return 0
        if right == 1 or left == right:
            return left
        same = [own for own, *operands in gates if operands == [left, right] and stands.get(own // 2) == own]
        return same[0] if same else None

    for own, *operands in it.gates:
        right, left = sorted(map(of, operands))
        found = value(left, right)
        stands[own // 2] = own if found is None else found
        gates.append((own, left, right))
    return with_literals(dataclasses.replace(it, gates=gates), of)


def with_literals(it, of):
    """The circuit by what stands for the literals that it shows."""
    names = "nexts", "outputs", "bad", "constraints", "fairness"
    lists = {name: [of(literal) for literal in getattr(it, name)] for name in names}
    return dataclasses.replace(it, **lists, justice=[[of(literal) for literal in property] for property in it.justice])


def needed(it):
    """The variables on which something depends that the circuit shows."""
    found, gates = set(), {own // 2: operands for own, *operands in it.gates}
    open_ones = [literal // 2 for literals in (it.nexts, *it.lists()) for literal in literals]
    while open_ones:
        variable = open_ones.pop()
        if variable not in found:
            found.add(variable)
            open_ones += [literal // 2 for literal in gates.get(variable, ())]
    return found


def simplified(made):
    """The circuit simplified."""
    it = folded(images.renumbered(made))
    some = needed(it)
    return images.renumbered(dataclasses.replace(it, gates=[gate for gate in it.gates if gate[0] // 2 in some]))


def without_outputs(made):
    return dataclasses.replace(made, outputs=[], symbols="")


def multiplexer(one, other):
    """What decides, and what is chosen where that is 1 and where it is 0, if gates with these operands make a multiplexer."""
    selector, if_one = one if one[0] ^ 1 in other else reversed(one)
    if selector ^ 1 not in other:
        return None
    return selector, if_one, other[1] if other[0] == selector ^ 1 else other[0]


def multiplexers(it):
    """The gates that are the negation of a multiplexer, and those of which they are made, which nothing else uses."""
    operands = {own // 2: of for own, *of in it.gates}
    uses = collections.Counter(literal // 2 for literals in (*operands.values(), it.bad) for literal in literals)
    choices, inner = {}, set()
    for own, *of in it.gates:
        parts = {literal // 2 for literal in of if literal % 2 and uses[literal // 2] == 1} & operands.keys()
        if len(parts) == 2 and not parts & (choices.keys() | inner):
            found = multiplexer(*(operands[literal // 2] for literal in of))
            if found:
                choices[own // 2] = found
                inner |= parts
    return choices, inner


def text_of_clauses(it):
    """The clauses of a circuit without latches, where a multiplexer has four, as a text."""
    choices, inner = multiplexers(it)

    def of_gate(own, left, right):
        if own // 2 not in choices:
            return () if own // 2 in inner else answers.gate_clauses(own, left, right)
        by, one, zero = choices[own // 2]
        return [by ^ 1, one ^ 1, own ^ 1], [by ^ 1, one, own], [by, zero ^ 1, own ^ 1], [by, zero, own]

    return answers.text_of_clauses(it, of_gate)


def clauses(made, frames):
    """The clauses of what is left of the unrolled circuit, as a text."""
    return text_of_clauses(simplified(without_outputs(unrolled.unrolled(made, frames))))


def wanted_clauses(made, frames):
    """Standard output, standard error and the status where the clauses of what is left are asked for."""
    why = answers.refusal(made, None)
    return answers.fault("-", why) if why else (clauses(made, frames), b"", 0)


def wanted(made, frames, name, proof, is_lrat=False):
    """The same where this refutation is of them."""
    largest, found = refutations.read_clauses(clauses(made, frames))
    why = refutations.why_not(found, largest, proof, is_lrat)
    return answers.fault(name, why) if why else (b"none within %d\n" % frames, b"", 0)


# ---- what must be so of a simplified circuit


def not_simple(made, it):
    """Why a circuit is not what is left of another, if it is not."""
    operands = [tuple(operands) for _, *operands in it.gates]
    if len(it.gates) > len(made.gates):
        return "it has more gates"
    if any(literal < 2 for pair in operands for literal in pair) or any(left == right for left, right in operands):
        return "a gate can be folded"
    if len(set(operands)) < len(operands):
        return "two gates are alike"
    if not {own // 2 for own, *_ in it.gates} <= needed(it):
        return "a gate is not needed"
    if [*map(len, it.lists())] != [*map(len, made.lists())] or it.resets != made.resets:
        return "it has other counts, or resets"
    if (len(it.inputs), it.symbols, it.comment) != (len(made.inputs), made.symbols, made.comment):
        return "it has other inputs, or names"
    return None if simplified(it) == it else "it can be simplified again"


def goals(made, order, state, given):
    """The values of the literals of justice properties and of fairness constraints."""
    at = {0: "0", **dict(zip(made.inputs, given)), **dict(zip(made.latches, state))}
    for own, *operands in order:
        at[own // 2] = traces.conjunction(*traces.values(at, operands))
    return [traces.values(at, literals) for literals in [*made.justice, made.fairness]]


def goals_differ(made, it, run):
    """Whether a run has other values of these."""
    orders, state = [images.placed(made.gates), images.placed(it.gates)], "".join(made.resets)
    for given in run:
        if goals(made, orders[0], state, given) != goals(it, orders[1], state, given):
            return True
        _, _, state = traces.step(made, orders[0], state, given)
    return False


# ---- circuits


def crowded(chance):
    """A circuit with many gates over few variables. Some are the gates of others again, with the operands exchanged."""
    made = images.circuit(chance, most_inputs=3, most_latches=2, most_gates=25, reach=chance.choice([None, 4, 9]))
    used = {*made.inputs, *made.latches, *(gate[0] // 2 for gate in made.gates)}
    spare = iter([it for it in range(1, 2 * len(used) + 40) if it not in used])
    again = {gate[0] // 2: next(spare) for gate in made.gates if chance.randrange(3)}

    def of(literal):
        return 2 * again.get(literal // 2, literal // 2) + literal % 2

    gates = [(of(own), of(right), of(left)) for own, left, right in made.gates if own // 2 in again] + made.gates
    chance.shuffle(gates)
    largest = max([made.largest, *(gate[0] // 2 for gate in gates)])
    made = dataclasses.replace(made, largest=largest, gates=gates)
    return with_literals(made, lambda it: of(it) if chance.randrange(2) else it)


def circuit(chance):
    return (crowded if chance.randrange(2) else images.circuit)(chance)


# ---- the program


def wrong(program, given, words, come):
    """What is wrong with the answer to these words, if anything is."""
    came = traces.ran(program, given, *words)
    return None if came == come else f"{words} of {given!r}: wanted {come!r}, came {came!r}"


def first_wrong(program, asked):
    """What is wrong with the first of these answers that is not as wanted."""
    return next(filter(None, (wrong(program, *it) for it in asked)), None)


def judge(program, folder, number, made, lines, given):
    """What is wrong with the simplified circuit, if anything is."""
    source, it, steps = images.ascii_text(made), simplified(made), Path(folder) / f"steps.{number}"
    run = [line for line in lines if len(line) == len(made.inputs) and set(line) <= set("01x")]
    why = not_simple(made, it) or (goals_differ(made, it, run) and "a goal differs")
    if why:
        return f"{source!r} and {images.ascii_text(it)!r}: {why}"
    steps.write_bytes(given.encode())
    binary, text, words = images.binary_text(it), images.ascii_text(it), ["aigtoaig", "--simplify"]
    bare = images.binary_text(dataclasses.replace(it, symbols="", comment=None))
    (_, full), bad_at = traces.texts(made, lines)
    errors = f"aiger: {steps}: line {bad_at}: bad stimulus line\n".encode() if bad_at else b""
    asked = [(source, [*words, "--ascii"], text), (source, words, binary), (images.image(made), words, binary)]
    asked += [(binary, words, binary), (text, [*words, "--ascii"], text), (source, [*words, "--strip"], bare)]
    asked = [(*it, b"", 0) for it in asked]
    asked += [(of, ["aigsim", "--properties", "-", str(steps)], full, errors, int(bool(bad_at))) for of in (binary, text)]
    found = first_wrong(program, [(of, asks, tuple(come)) for of, asks, *come in asked])
    steps.unlink()
    return found


def judge_unrolled(program, folder, number, made, frames, given, trace):
    """What is wrong with the unrolled circuit that is simplified."""
    source, it, steps = images.ascii_text(made), simplified(unrolled.unrolled(made, frames)), Path(folder) / f"steps.{number}"
    steps.write_bytes(given)
    text, binary, words = images.ascii_text(it), images.binary_text(it), ["aigunroll", "--simplify", "--frames", str(frames)]
    asked = [(source, [*words, "--ascii"], text), (source, words, binary), (images.image(made), words, binary)]
    asked += [(of, ["aigsim", "--properties", "-", str(steps)], trace) for of in (text, binary)]
    found = first_wrong(program, [(of, asks, (come, b"", 0)) for of, asks, come in asked])
    steps.unlink()
    return found


def searched(made, frames, found):
    """What a search says of the clauses of what is left, and its lemmas; nothing where there are too many."""
    try:
        return refutations.search(found, refutations.variables(made, frames))
    except refutations.TooMany:
        return None, []


def differently_solved(made, frames, text, folder):
    """Whether cadical says of all clauses what it does not say of these."""
    if not shutil.which(invariants.SOLVER):
        return False
    first, second = (invariants.solved(it, folder) is None for it in (answers.clauses(made, frames), text))
    return first != second


def judge_clauses(program, folder, at):
    """What is wrong with simplified clauses, with what is said of a refutation of them, or with the witness of an answer."""
    chance, folder = random.Random(at), Path(folder) / f"clauses.{at}"
    made = unrolled.without_liveness(chance, chance.choice([refutations.circuit, crowded])(chance))
    made = dataclasses.replace(made, bad=made.bad or [2 * it for it in (made.inputs + made.latches)[:2]] or [1])
    bad, is_lrat = chance.choice([None, chance.randrange(len(made.bad))]), not chance.randrange(3)
    frames, _, _, is_unsatisfiable, _ = refutations.searched(made, chance.randrange(1, unrolled.FRAMES + 1), bad)
    text, source = clauses(answers.asked(made, bad), frames), images.ascii_text(made)
    largest, found = refutations.read_clauses(text)
    is_now, lemmas = searched(made, frames, found)
    folder.mkdir()
    if None not in (is_now, is_unsatisfiable) and is_now != is_unsatisfiable:
        return f"{source!r} over {frames} frames: {is_unsatisfiable} of all clauses, and {is_now} of what is left"
    if differently_solved(answers.asked(made, bad), frames, text, folder):
        return f"{source!r} over {frames} frames: {invariants.SOLVER} says another thing of what is left"
    proof, answer = refutations.given(chance, largest, found, lemmas, is_lrat), answers.given(chance, made, frames)
    model, words = folder / "model", answers.words_of(frames, bad)
    model.write_bytes(images.image(made))
    shown = wanted(answers.asked(made, bad), frames, "-", proof, is_lrat)
    asked = [
        (source, [*words, "--simplify", "--cnf"], (text, b"", 0)),
        (proof, [*words, "--simplify", *["--lrat"] * is_lrat, "--refutation", "-", str(model)], shown),
    ]
    run = answers.wanted(made, frames, bad, "-", answer)
    asked += [(answer, [*words, *some, "--answer", "-", str(model)], run) for some in ([], ["--simplify"])]
    said = first_wrong(program, asked)
    shutil.rmtree(folder)
    if shown[2] == 0 and is_unsatisfiable is False:
        said = f"{source!r} over {frames} frames and {proof!r}: a bad state is reached"
    return said


def judge_miter(program, folder, number, first, second, words):
    """What is wrong with the simplified miter of these two, or with how they are refused."""
    one, texts = Path(folder) / f"first.{number}", [images.ascii_text(it) for it in (first, second)]
    one.write_bytes(texts[0])
    come = miters.wanted(first, second, words, (str(one), "-"))
    wants = [come, come]
    if not come[2]:
        it = simplified(miters.miter(first, miters.paired(first, second, words)))
        wants = [(of(it), b"", 0) for of in (images.ascii_text, images.binary_text)]
    asked = [(texts[1], [*words, "--simplify", *more, str(one), "-"], it) for more, it in zip((["--ascii"], []), wants)]
    found = first_wrong(program, asked)
    one.unlink()
    return found and f"{texts[0]!r}: {found}"


def judge_invariant(program, folder, at):
    """What is wrong with the simplified clauses of an invariant, or with what is said of a refutation of them."""
    chance, folder = random.Random(at), Path(folder) / f"shown.{at}"
    made, proof = images.renumbered(invariants.circuit(chance)), b"0\n"
    table, (model, rows, refuted) = invariants.moves(made), (folder / it for it in ("model", "rows", "proof"))
    text = invariants.given(chance, made, invariants.cubes_around(chance, table, invariants.reached(made, table)))
    come = said = shown = invariants.shown_in(made, None, (model, rows), text)
    if not isinstance(shown, tuple):
        written = clauses(shown, 1)
        largest, found = refutations.read_clauses(written)
        proof = refutations.given(chance, largest, found, searched(shown, 1, found)[1])
        why = refutations.why_not(found, largest, proof)
        come, said = (written, b"", 0), answers.fault(refuted, why) if why else (b"never\n", b"", 0)
    folder.mkdir()
    for file, given in (model, images.image(made)), (rows, text), (refuted, proof):
        file.write_bytes(given)
    words = ["aigunroll", "--simplify", "--invariant", str(rows), str(model)]
    asked = [(b"", [*words, "--cnf"], come), (b"", [*words, "--refutation", str(refuted)], said)]
    wrong_one = first_wrong(program, asked)
    shutil.rmtree(folder)
    return wrong_one and f"{images.ascii_text(made)!r}, {text!r} and {proof!r}: {wrong_one}"


def judge_live(program, made, number):
    """What is wrong with what is left of the circuit for a justice property, or with its clauses over some frames."""
    source, live, justice = images.ascii_text(made), liveness.with_loop(made, number), str(number)
    if live.largest > liveness.LARGEST:
        return None
    frames, left = 1 + number % 3, simplified(live)
    words = ["aigtoaig", "--justice-as-bad", justice, "--simplify"]
    asked = [(source, words, (images.binary_text(left), b"", 0))]
    asked.append((source, [*words, "--ascii"], (images.ascii_text(left), b"", 0)))
    words = [*answers.words_of(frames, None), "--justice", justice, "--simplify", "--cnf"]
    return first_wrong(program, [*asked, (source, words, (clauses(live, frames), b"", 0))])


def cases(program, folder):
    chance = random.Random(41)
    for number in range(CIRCUITS):
        made = circuit(chance)
        yield judge, program, folder, number, made, *traces.stimulus(chance, len(made.inputs))
    for number in range(UNROLLED):
        made = (unrolled.circuit if number % 2 else crowded)(chance)
        made, frames = unrolled.without_liveness(chance, made), chance.randrange(1, unrolled.FRAMES + 1)
        yield judge_unrolled, program, folder, number + CIRCUITS, made, frames, *unrolled.lines_of_steps(chance, made, frames)
    for number in range(PAIRS):
        yield judge_miter, program, folder, number, *miters.pair(chance)
    for at in range(REFUTED):
        yield judge_clauses, program, folder, at
    for at in range(INVARIANTS):
        yield judge_invariant, program, folder, at
    for _ in range(LIVE):
        made = liveness.circuit(chance)
        for number in range(len(made.justice)):
            yield judge_live, program, made, number
