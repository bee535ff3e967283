"""Compares what the program makes of invariants with what they mean, on circuits made by chance.

The circuits are small ones of answers.py and refutations.py, and some with a bad state that no run reaches. The states that
runs reach while the constraints hold are found by trying all inputs, and an invariant is made of cubes that just the other
states meet. Of half of them a cube is left out, changed or put in, and some are spoiled as texts. The program must write the
clauses of the circuit that is made here of model and invariant, or tell the first wrong line. A search, and cadical if it
is there, must refute them exactly where the invariant is right, by all states and inputs. Given a refutation,
right or spoiled, the program must say what the plain checker of refutations.py says; and never where a bad state is reached.
"""
import dataclasses
import itertools
import random
import re
import shutil
import subprocess
from pathlib import Path

from lib import answers, images, refutations, traces, unrolled, witnesses

CIRCUITS = 400
# inputs and latches of a circuit
MOST = 7
SOLVER = "cadical"
ROW = re.compile(rb"[01-]* 1")
# lines that say nothing of a cube, and lines that are put where they may not stand
SILENT = [b"", b"#", b"# 0 1\0\xff\r", b".i 2", b".e", b".x 0 1", b"..", b".\r"]
LINES = [b"\r", b" 1", b"1", b"- 1 ", b"-  1", b"- 0", b"x 1", b"0\t1", b"0 1\r", b" 0 1", b"2 1", b"c", b"0 1 1", b"0 11"]


def apart(reset, value):
    """Whether a latch that starts so is not at the value that is asked for."""
    return (reset, value) in {("0", "1"), ("1", "0")}


def meets(state, cube):
    return all(value in ("-", it) for it, value in zip(state, cube))


def lines_of(text):
    """The lines of a text, of which the last one may lack its line feed."""
    *lines, rest = text.split(b"\n")
    return lines + [rest] * bool(rest)


def read(made, text):
    """The cubes of an invariant, or what is said of its first wrong line."""
    cubes = []
    for number, line in enumerate(lines_of(text), 1):
        if line[:1] in (b"", b"#", b"."):
            continue
        cube = line[:-2].decode("latin-1")
        if not ROW.fullmatch(line):
            return f"line {number}: bad line"
        if len(cube) != len(made.latches):
            return f"line {number}: not a character for each latch"
        if not any(map(apart, made.resets, cube)):
            return f"line {number}: met by a first state"
        cubes.append(cube)
    return cubes


def strengthened(made, cubes):
    """The circuit in which an invariant is to be shown: from any state that meets no cube, with a bad state more for each cube
    that the next state meets."""
    gates, constraints, bad = list(made.gates), list(made.constraints), list(made.bad)
    variables = itertools.count(made.largest + 1)

    def conjunction(cube, literals):
        end = 1
        for value, literal in zip(cube, literals):
            if value != "-":
                own = 2 * next(variables)
                gates.append((own, end, literal ^ (value == "0")))
                end = own
        return end

    for cube in cubes:
        constraints.append(conjunction(cube, [2 * it for it in made.latches]) ^ 1)
        bad.append(conjunction(cube, made.nexts))
    starts = ["x"] * len(made.latches)
    return dataclasses.replace(
        made, largest=next(variables) - 1, gates=gates, constraints=constraints, bad=bad, resets=starts, symbols=""
    )


def shown_in(made, bad, names, text):
    """The circuit in which the invariant is to be shown; or standard output, standard error and the status where there is
    none. The names are those of model and invariant."""
    why = answers.refusal(made, bad)
    if why:
        return answers.fault(names[0], why)
    it = answers.asked(made, bad)
    cubes = read(it, text)
    if isinstance(cubes, str):
        return answers.fault(names[1], cubes)
    found = strengthened(it, cubes)
    return answers.fault(names[1], "too large") if found.largest > answers.LARGEST else found


def wanted_clauses(made, bad, names, text):
    found = shown_in(made, bad, names, text)
    return found if isinstance(found, tuple) else (answers.clauses(found, 1), b"", 0)


def wanted(made, bad, names, text, proof):
    """Standard output, standard error and the status for this invariant and this refutation, by their names."""
    found = shown_in(made, bad, names, text)
    if isinstance(found, tuple):
        return found
    said, errors, status = refutations.wanted(found, 1, None, names[2], proof)
    return (said, errors, status) if status else (b"never\n", b"", 0)


def every(count):
    return ["".join(it) for it in itertools.product("01", repeat=count)]


def moves(made):
    """Of each state its next states and whether a bad state is 1, for all inputs with which the constraints are 1."""
    order, found = images.placed(made.gates), {}
    for state in every(len(made.latches)):
        found[state] = set()
        for given in every(len(made.inputs)):
            _, line, following = traces.step(made, order, state, given)
            *_, bad, constraints = line.split(" ")
            if "0" not in constraints:
                found[state].add((following, "1" in bad))
    return found


def reached(made, table):
    """The states that runs reach."""
    starts = ["01" if it == "x" else it for it in made.resets]
    found = {"".join(it) for it in itertools.product(*starts)}
    waiting = list(found)
    while waiting:
        following = {state for state, _ in table[waiting.pop()]} - found
        found |= following
        waiting += following
    return found


def is_bad(table, states):
    return any(bad for state in states for _, bad in table[state])


def is_reached(made):
    table = moves(made)
    return is_bad(table, reached(made, table))


def is_shown(table, cubes):
    """Whether from the states that meet no cube no bad state is 1, and no cube is met."""
    kept = {state for state in table if not any(meets(state, cube) for cube in cubes)}
    return not is_bad(table, kept) and all(following in kept for state in kept for following, _ in table[state])


def wider(chance, cube, states):
    """The cube, with as many values left out as can be so that none of these states meets it."""
    for place in chance.sample(range(len(cube)), len(cube)):
        found = f"{cube[:place]}-{cube[place + 1:]}"
        if not any(meets(state, found) for state in states):
            cube = found
    return cube


def cubes_around(chance, table, states):
    """Cubes that all states but these meet."""
    cubes = []
    for state in chance.sample(list(table), len(table)):
        if state not in states and not any(meets(state, cube) for cube in cubes):
            cubes.append(wider(chance, state, states))
    return cubes


def unmet(chance):
    """A circuit with a bad state that no run reaches."""
    while True:
        made = unrolled.without_liveness(chance, unrolled.circuit(chance))
        if len(made.inputs) + len(made.latches) > MOST or made.largest > 2000:
            continue
        table = moves(made)
        cubes = cubes_around(chance, table, reached(made, table))
        if cubes:
            # a circuit that keeps its state, in which a bad state is put for what the next one meets
            kept = dataclasses.replace(made, nexts=[2 * it for it in made.latches], bad=[])
            found = strengthened(kept, [chance.choice(cubes)])
            return dataclasses.replace(made, largest=found.largest, gates=found.gates, bad=found.bad, symbols="")


def circuit(chance):
    kinds = [witnesses.circuit, answers.small, refutations.sums, unmet, unmet, unmet]
    made = iter(lambda: chance.choice(kinds)(chance), None)
    return next(it for it in made if len(it.inputs) + len(it.latches) <= MOST)


def changed(chance, cubes, latches):
    """The cubes, with one of them left out, changed or put in."""
    which, place = chance.randrange(3), chance.randrange(len(cubes) + 1)
    if which == 0 or not latches:
        return cubes[:place] + cubes[place + 1 :]
    if which == 1 and place < len(cubes):
        at = chance.randrange(latches)
        cube = cubes[place][:at] + chance.choice("01-") + cubes[place][at + 1 :]
        return [*cubes[:place], cube, *cubes[place + 1 :]]
    return [*cubes[:place], "".join(chance.choices("01--", k=latches)), *cubes[place:]]


def spelled(chance, cubes):
    """The lines of an invariant, between lines that say nothing."""
    lines = [f"{cube} 1".encode() for cube in cubes]
    for _ in range(chance.randrange(4)):
        lines.insert(chance.randrange(len(lines) + 1), chance.choice(SILENT))
    return lines


def given(chance, made, cubes):
    """The text of an invariant, or of what is nearly one."""
    some = changed(chance, cubes, len(made.latches)) if chance.randrange(2) else cubes
    lines, how = spelled(chance, some), chance.randrange(8)
    if how == 0:
        lines.insert(chance.randrange(len(lines) + 1), chance.choice(LINES))
    text = b"".join(line + b"\n" for line in lines)
    return text[: chance.randrange(len(text) + 1)] if how == 1 else text.removesuffix(b"\n") if how == 2 else text


def solved(clauses, folder):
    """What cadical says of clauses: its refutation, or None where they can be satisfied."""
    with_clauses, proof = Path(folder) / "clauses", Path(folder) / "proof"
    with_clauses.write_bytes(clauses)
    status = subprocess.run([SOLVER, "-q", with_clauses, proof], capture_output=True, check=False).returncode
    if status not in (10, 20):
        raise ValueError(f"{SOLVER} ended with status {status}")
    return proof.read_bytes() if status == 20 else None


def refutation(chance, made, text, shown, folder):
    """A refutation of the circuit in which an invariant is to be shown, or what is nearly one; and what is wrong with what a
    search and cadical say of its clauses, if anything is."""
    is_right = is_shown(moves(made), read(made, text))
    _, largest, clauses, is_unsatisfiable, lemmas = refutations.searched(shown, 1, None)
    proof, wrong = refutations.given(chance, largest, clauses, lemmas), None
    if is_unsatisfiable not in (None, is_right):
        wrong = f"{text!r} is {is_right} by all states, and by a search {is_unsatisfiable}"
    if shutil.which(SOLVER):
        by_solver = solved(answers.clauses(shown, 1), folder)
        if (by_solver is not None) != is_right:
            wrong = f"{text!r} is {is_right} by all states, and not so by {SOLVER}"
        proof = by_solver if by_solver and chance.randrange(2) else proof
    return proof, wrong


def judge(program, folder, at):
    """What is wrong with what the program says of an invariant, if anything is."""
    chance, folder = random.Random(at), Path(folder) / f"invariant.{at}"
    folder.mkdir()
    made = circuit(chance)
    bad = chance.choice([None, None, chance.randrange(len(made.bad) + 1)])
    table, proof, wrong = moves(made), chance.choice([b"", b"0\n", b"a\0"]), None
    text = given(chance, made, cubes_around(chance, table, reached(made, table)))
    shown = shown_in(made, bad, ("-", "-"), text)
    if not isinstance(shown, tuple):
        proof, wrong = refutation(chance, answers.asked(made, bad), text, shown, folder)
    source, words = images.ascii_text(made), ["aigunroll", *([] if bad is None else ["--bad", str(bad)])]
    model, file, refuted = (str(folder / name) for name in ("model", "file", "refuted"))
    Path(model).write_bytes(traces.converted(program, source, *chance.choice([[], ["--keep-map"]])))
    Path(file).write_bytes(text)
    Path(refuted).write_bytes(proof)
    # the image has other numbers, so that it may have room for gates where its source has none
    image = images.renumbered(made)
    for it, names, to in (
        (made, ("-", file, refuted), source),
        (image, (model, "-", refuted), text),
        (image, (model, file, "-"), proof),
    ):
        asks = [*words, "--invariant", names[1], "--refutation", names[2], names[0]]
        came, come = traces.ran(program, to, *asks), wanted(it, bad, names, text, proof)
        if came != come:
            wrong = wrong or f"{asks} of {source!r}, {text!r} and {proof!r}: wanted {come!r}, came {came!r}"
        if came[2] == 0 and is_reached(answers.asked(made, bad)):
            wrong = f"{asks} of {source!r}, {text!r} and {proof!r}: a bad state is reached, came {came!r}"
        if names[2] != "-":
            asks = [*words, "--cnf", "--invariant", names[1], names[0]]
            came, come = traces.ran(program, to, *asks), wanted_clauses(it, bad, names, text)
            if came != come:
                wrong = wrong or f"{asks} of {source!r} and {text!r}: wanted {come!r}, came {came!r}"
    shutil.rmtree(folder)
    return wrong


def left_out():
    """How many comparisons are left out, and why."""
    if not shutil.which(SOLVER):
        yield CIRCUITS, f"{SOLVER} is not installed, to refute invariants"


def cases(program, folder):
    for at in range(CIRCUITS):
        yield judge, program, folder, at
