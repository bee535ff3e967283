"""Compares the miters that the program writes with those of a plain model, and what they do with what both circuits do.

The first of two circuits is one of unrolled.py. The second is the same by other variables, with its gates in another
order and often with something changed, put in or left out, or it is another one. In half of the pairs inputs, outputs
and bad states have names, by which the second has them in another order; some names are missing or wrong. Some pairs
have just as many variables as a miter may have, or one too many. Of each pair the program must write the text of the
circuit that is made here, as ASCII and as binary, from files of either kind, or it must refuse the right one of the two
for the right reason. Simulated, that circuit must show where the two differ, as it comes from their own equations, side
by side.
"""
import collections
import dataclasses
import random
import re
from pathlib import Path

from lib import images, traces, unrolled, waves

PAIRS = 1000
LARGEST = 2147483647
# more names than any circuit has inputs, or of what is compared
NAMES = 16
# how often each refusal comes at least
ENOUGH = 3
LIVENESS, INPUTS = "justice or fairness cannot be compared", "not as many inputs"
OUTPUTS, TOO_LARGE = "not as many outputs and bad states", "too large to compare"
NO_NAME, TWICE, MISSING = "no name", "name given twice", "no such name in the other file"
KINDS = {"i": "input", "o": "output", "b": "bad state"}
REASONS = [LIVENESS, INPUTS, OUTPUTS, TOO_LARGE]
REASONS += [f"{it} N: {why}" for it in KINDS.values() for why in (NO_NAME, TWICE, MISSING)]
NUMBER = re.compile(r" \d+:")
# what stands before the number of a name
WORDS = ["", "a", "a ", "a b", "\u00fc", "i0 "]


def seen(made):
    """What is compared of a circuit."""
    return [*made.outputs, *made.bad]


def places(made):
    """The letter and the position of each input, and of all that is compared."""
    lists = zip("iob", (made.inputs, made.outputs, made.bad))
    inputs, outputs, bad = ([(letter, at) for at in range(len(of))] for letter, of in lists)
    return inputs, outputs + bad


# ---- circuits by chance


def variables(made):
    return [*made.inputs, *made.latches, *(gate[0] // 2 for gate in made.gates)]


def relabelled(made, of, largest):
    """The circuit by other variables, of which 0 stays."""

    def literals(given):
        return [2 * of(it // 2) + it % 2 for it in given]

    lists = {name: literals(getattr(made, name)) for name in ("nexts", "outputs", "bad", "constraints", "fairness")}
    return dataclasses.replace(
        made,
        largest=largest,
        inputs=[of(it) for it in made.inputs],
        latches=[of(it) for it in made.latches],
        justice=[literals(it) for it in made.justice],
        gates=[tuple(literals(it)) for it in made.gates],
        **lists,
    )


def spread(chance, made, largest):
    """The circuit by variables up to this one, its gates in any order, and operands exchanged."""
    old = variables(made)
    new = dict(zip(old, chance.sample(range(1, largest + 1), len(old))))
    it = relabelled(made, lambda variable: new.get(variable, 0), largest)
    gates = [(own, *chance.sample(operands, 2)) for own, *operands in it.gates]
    return dataclasses.replace(it, gates=chance.sample(gates, len(gates)))


def negated(chance, given):
    """The literals, with one of them negated, if there is one."""
    at = chance.randrange(len(given)) if given else None
    return [literal ^ (place == at) for place, literal in enumerate(given)]


def changed(chance, made):
    """The circuit, with something changed, put in or left out."""
    used = [0, *variables(made)]
    literal, fresh, how = 2 * chance.choice(used) + chance.randrange(2), max(used) + 1, chance.randrange(9)
    if how == 0:
        gates = [(own, left ^ (not chance.randrange(3)), right) for own, left, right in made.gates]
        return dataclasses.replace(made, gates=gates)
    if how == 1:
        resets = [chance.choice("01x") for _ in made.resets]
        return dataclasses.replace(made, resets=resets)
    if how in (2, 3):
        latches, nexts, resets = [*made.latches, fresh], [*made.nexts, literal], [*made.resets, chance.choice("0xx")]
        return dataclasses.replace(made, largest=max(made.largest, fresh), latches=latches, nexts=nexts, resets=resets)
    if how == 4:
        gates = [*made.gates, (2 * fresh, literal, 1)]
        return dataclasses.replace(made, largest=max(made.largest, fresh), gates=gates)
    name = chance.choice(["nexts", "outputs", "bad", "constraints"])
    given = getattr(made, name)
    if how == 5 and name != "nexts":
        return dataclasses.replace(made, **{name: [*given, literal]})
    if how == 6 and name != "nexts":
        return dataclasses.replace(made, **{name: given[1:]})
    return dataclasses.replace(made, **{name: negated(chance, given)})


def split(chance, made):
    """The circuit, with some of its outputs as bad states, or the other way round."""
    given = seen(made)
    at = chance.randrange(len(given) + 1)
    return dataclasses.replace(made, outputs=given[:at], bad=given[at:])


def fitting(chance, first, second):
    """The largest variable of the second with which the miter has the largest there may be, or one more."""
    needed = miter(dataclasses.replace(first, largest=0), dataclasses.replace(second, largest=0)).largest
    return max(len(variables(second)), LARGEST - first.largest - needed + chance.randrange(2))


def named(chance, made, called):
    """The circuit with these names of inputs and of what is compared, and others, in any order. A few are wrong."""
    lists = places(made)
    lines = [[letter, at, name] for of, names in zip(lists, called) for (letter, at), name in zip(of, names)]
    if lines and not chance.randrange(5):
        line, other = chance.choice(lines), chance.choice(lines)
        line[2] = chance.choice([None, other[2], f"{line[2]} ", f"{line[2]}x"])
    for letter, of in (("l", made.latches), ("c", made.constraints)):
        lines += [[letter, at, chance.choice(["x", "a0"])] for at in range(len(of)) if chance.randrange(2)]
    chance.shuffle(lines)
    symbols = "".join(f"{letter}{at} {name}\n" for letter, at, name in lines if name is not None)
    return dataclasses.replace(made, symbols=symbols)


def shuffled(chance, made, called):
    """The circuit with its inputs, and what is compared, in another order, and their names."""
    inputs, compared = zip(made.inputs, called[0]), zip(seen(made), called[1])
    inputs, compared = (chance.sample(it, len(it)) for it in map(list, (inputs, compared)))
    at = chance.randrange(len(compared) + 1)
    literals = [it for it, _ in compared]
    made = dataclasses.replace(made, inputs=[it for it, _ in inputs], outputs=literals[:at], bad=literals[at:])
    return made, ([name for _, name in inputs], [name for _, name in compared])


def pair(chance):
    """Two circuits, and the words by which they are compared."""
    first = unrolled.circuit(chance)
    second = unrolled.circuit(chance) if not chance.randrange(8) else first
    first, second = (unrolled.without_liveness(chance, it) if chance.randrange(12) else it for it in (first, second))
    for _ in range(chance.choice([0, 0, 1, 1, 2])):
        second = changed(chance, second)
    if not chance.randrange(4):
        first = changed(chance, first)
    first = spread(chance, first, chance.choice(ends(first)))
    may_be = ends(second) if chance.randrange(8) else [fitting(chance, first, second)]
    second = spread(chance, second, chance.choice(may_be))
    if chance.randrange(2):
        first, second = (split(chance, it) if chance.randrange(2) else it for it in (first, second))
        return *(dataclasses.replace(it, symbols=images.symbols(chance, it)) for it in (first, second)), ["aigmiter"]
    called = [[f"{chance.choice(WORDS)}{at}" for at in range(NAMES)] for _ in places(first)]
    second, others = shuffled(chance, second, called)
    return named(chance, first, called), named(chance, second, others), ["aigmiter", "--by-name"]


def ends(made):
    """Some largest variables that a circuit could have."""
    count = len(variables(made))
    return [count, count + 3, 1000, 10**9]


# ---- what comes of them


def names(made):
    """The names of inputs, and of what is compared, or None."""
    called = waves.names_of(made.symbols.encode())
    return [[called.get(place) for place in of] for of in places(made)]


def told(place, why):
    letter, at = place
    return f"{KINDS[letter]} {at}: {why}"


def name_fault(made):
    """The first input, output or bad state without a name, or with that of one before it."""
    for of, called in zip(places(made), names(made)):
        for at, name in enumerate(called):
            if name is None or name in called[:at]:
                return told(of[at], NO_NAME if name is None else TWICE)
    return None


def missing(first, second):
    """The first input, output or bad state of the second whose name is none of the first."""
    for of, wanted, called in zip(places(second), names(first), names(second)):
        for place, name in zip(of, called):
            if name not in wanted:
                return told(place, MISSING)
    return None


def other_counts(first, second):
    if len(first.inputs) != len(second.inputs):
        return INPUTS
    return None if len(seen(first)) == len(seen(second)) else OUTPUTS


def is_live(made):
    return bool(made.justice or made.fairness)


def fault(first, second, words):
    """Which of the two is refused, and why, or nothing."""
    by_name = "--by-name" in words
    why = LIVENESS if is_live(first) else by_name and name_fault(first)
    if why:
        return 0, why
    why = by_name and (other_counts(first, second) or name_fault(second) or missing(first, second))
    why = why or (LIVENESS if is_live(second) else other_counts(first, second))
    why = why or (TOO_LARGE if miter(first, second).largest > LARGEST else None)
    return (1, why) if why else None


def paired(first, second, words):
    """The second with its inputs, and what is compared, in the order of the names of the first, if that is asked."""
    if "--by-name" not in words:
        return second
    (inputs, compared), (own_inputs, own_compared), count = names(first), names(second), len(first.outputs)
    literals = [seen(second)[own_compared.index(name)] for name in compared]
    given = [second.inputs[own_inputs.index(name)] for name in inputs]
    return dataclasses.replace(second, inputs=given, outputs=literals[:count], bad=literals[count:])


def conjunction(gates, variable, left, right):
    """Puts a gate behind others, its larger operand first."""
    gates.append((2 * variable, max(left, right), min(left, right)))
    return 2 * variable


def differences(gates, variable, pairs):
    """Puts three gates for each pair of literals, from this variable on. Their last ones are 1 where the two differ."""
    found = []
    for left, right in pairs:
        both, neither = conjunction(gates, variable, left, right), conjunction(gates, variable + 1, left ^ 1, right ^ 1)
        found.append(conjunction(gates, variable + 2, both ^ 1, neither ^ 1))
        variable += 3
    return found


def miter(first, second):
    """The miter of two circuits that can be compared, place by place."""
    before, free = first.largest, unrolled.free_latches
    moved = relabelled(second, lambda variable: variable and before + variable, before + second.largest)
    ties = [(2 * own, 2 * given, 1) for given, own in zip(first.inputs, moved.inputs)]
    gates, compared = [*first.gates, *ties, *moved.gates], [*zip(seen(first), seen(moved))]
    bad = differences(gates, moved.largest + 1, compared) + [it ^ 1 for it in moved.constraints]
    latches, nexts, resets = (getattr(first, it) + getattr(moved, it) for it in ("latches", "nexts", "resets"))
    constraints, starts = list(first.constraints), [*zip(free(first), free(moved))]
    largest = moved.largest + 3 * len(compared)
    if starts:
        later = largest + 1
        latches, nexts, resets = [*latches, later], [*nexts, 1], [*resets, "0"]
        unlike = differences(gates, later + 1, [(2 * left, 2 * right) for left, right in starts])
        for at, it in enumerate(unlike, later + 1 + 3 * len(starts)):
            constraints.append(conjunction(gates, at, it, 2 * later + 1) ^ 1)
        largest = later + 4 * len(starts)
    lists = {"outputs": [], "bad": bad, "constraints": constraints, "justice": [], "fairness": [], "gates": gates}
    made = {"largest": largest, "inputs": first.inputs, "latches": latches, "nexts": nexts, "resets": resets, **lists}
    return images.Circuit(**made, symbols="", comment=None)


def wanted(first, second, words, files):
    """Standard output, standard error and the status where circuits of files of these names are compared."""
    why = fault(first, second, words)
    if why:
        at, said = why
        return b"", f"aiger: {files[at]}: {said}\n".encode(), 1
    made = miter(first, paired(first, second, words))
    return (images.ascii_text if "--ascii" in words else images.image)(made), b"", 0


# ---- what they do


def unlike(left, right):
    return "x" if "x" in (left, right) else "01"[left != right]


def free_values(made, state):
    return [value for value, reset in zip(state, made.resets) if reset == "x"]


def line_of(first, second, lines, later):
    """The trace line of the miter, where these are those of the two circuits in the same step, with properties."""
    state, given, outputs, following, bad, constraints = lines[0].split(" ")
    other, _, other_outputs, other_following, other_bad, others = lines[1].split(" ")
    differ = "".join(map(unlike, outputs + bad, other_outputs + other_bad)) + "".join(traces.NOT[it] for it in others)
    starts = [*map(unlike, free_values(first, state), free_values(second, other))]
    constraints += "".join(traces.NOT[traces.conjunction(traces.NOT[later], it)] for it in starts)
    now, then = (later, "1") if starts else ("", "")
    return f"{state}{other}{now} {given}  {following}{other_following}{then} {differ} {constraints}\n"


def trace(first, second, words, runs):
    """The trace of the miter over the steps of these runs, by the equations of both circuits."""
    second = paired(first, second, words)
    circuits = [(it, images.placed(it.gates), "".join(it.resets)) for it in (first, second)]
    for run in runs:
        states, later = [reset for *_, reset in circuits], "0"
        for given in run:
            steps = [traces.step(it, order, state, given) for (it, order, _), state in zip(circuits, states)]
            yield line_of(first, second, [line for _, line, _ in steps], later)
            states, later = [state for *_, state in steps], "1"
        yield ".\n"


def runs_of(chance, inputs):
    characters = chance.choice(["01", "01x", "0001xx"])
    counts = [chance.randrange(1, 5) for _ in range(chance.randrange(1, 3))]
    return [["".join(chance.choices(characters, k=inputs)) for _ in range(count)] for count in counts]


# ---- the program


def wrong(program, given, words, come):
    """What is wrong with the answer to these words, if anything is."""
    came = traces.ran(program, given, *words)
    return None if came == come else f"{words} of {given!r}: wanted {come!r}, came {came!r}"


def judge(program, folder, number, first, second, words, runs):
    """What is wrong with the miter of these two, if anything is: from either form, from files and from a stream."""
    one, other, image, steps = files = [f"{folder}/{it}.{number}" for it in ("first", "second", "image", "steps")]
    stimulus = "".join("".join(f"{it}\n" for it in run) + ".\n" for run in runs).encode()
    texts = images.ascii_text(first), images.ascii_text(second), images.image(first), stimulus
    for name, text in zip(files, texts):
        Path(name).write_bytes(text)
    both, of_images = (first, second), (images.renumbered(first), images.renumbered(second))
    asked = [
        (texts[1], [*words, "--ascii"], (one, "-"), both),
        (texts[0], words, ("-", other), both),
        (b"", [*words, "--ascii"], (one, other), both),
        (images.image(second), [*words, "--ascii"], (image, "-"), of_images),
    ]
    asked = [(given, [*options, *names], wanted(*of, options, names)) for given, options, names, of in asked]
    if not asked[0][2][2]:
        come = "".join(trace(*both, words, runs)).encode(), b"", 0
        asked += [(miter, ["aigsim", "--properties", "-", steps], come) for _, _, (miter, *_) in asked[:2]]
    found = next(filter(None, (wrong(program, *it) for it in asked)), None)
    for name in files:
        Path(name).unlink()
    return found and f"{texts[0]!r} and {texts[1]!r}: {found}"


def all_met(count):
    """What did not come often enough."""
    few = [it for it in (None, *REASONS) if count[it] < ENOUGH]
    return f"too few pairs are answered so: {few} of {count}" if few else None


def cases(program, folder):
    chance, count = random.Random(31), collections.Counter()
    for number in range(PAIRS):
        first, second, words = pair(chance)
        _, why = fault(first, second, words) or (None, None)
        count[why and NUMBER.sub(" N:", why)] += 1
        yield judge, program, folder, number, first, second, words, runs_of(chance, len(first.inputs))
    yield all_met, count
