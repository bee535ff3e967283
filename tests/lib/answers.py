"""Compares the clauses that the program writes with those of a plain model, and what it makes of solvers' answers with a plain
run, on circuits and answers made by chance.

The circuits are those of witnesses.py, nearly all of them with bad states, and those of unrolled.py with a bad state that is
reached late. Over one to six frames the program must write the clauses of the unrolled circuit that unrolled.py makes, for all
bad states and for one alone. An answer has values by chance, which need not satisfy any clause, spelled in some way; many are
spoiled. What comes must be the witness of the run that is evaluated here, which the program must then confirm at its last
step; or what the answer says, or the number of its first wrong line.
"""
import dataclasses
import random
import re
from pathlib import Path

from lib import images, traces, unrolled, witnesses

CIRCUITS = 1000
LARGEST = 2147483647
SATISFIABLE = b"s SATISFIABLE"
STATUSES = {SATISFIABLE: None, b"s UNSATISFIABLE": "unsatisfiable", b"s UNKNOWN": "unknown"}
VALUES = re.compile(rb"v(?: +(?:0|-?[1-9][0-9]*))* *")
COMMENTS = [b"", b"c", b"comment v 1 0", b"c\0\xff\r"]
# lines that are put where most of them may not stand
LINES = [b"s UNKNOWN", b"s SATISFIABLE", b"s UNSATISFIABLE ", b"s", b"o 1", b"v", b"v 1 0", b"v 00", b"v -0", b"v +1"]
LINES += [b"v1", b"v 1\t2", b"v 2147483647", b"v 2147483648", b"v -99999999999999999999", b"\r", b" ", *COMMENTS]


def number(literal):
    """The DIMACS number of a literal."""
    return -(literal // 2 + 1) if literal % 2 else literal // 2 + 1


def gate_clauses(own, left, right):
    return [own ^ 1, left], [own ^ 1, right], [own, left ^ 1, right ^ 1]


def text_of_clauses(it, of_gate=gate_clauses):
    """The text of the clauses by which a bad state of a circuit without latches is 1."""
    found = [[1], *(clause for gate in it.gates for clause in of_gate(*gate)), it.bad]
    lines = [" ".join(map(str, [*map(number, clause), 0])) for clause in found]
    return "\n".join([f"p cnf {it.largest + 1} {len(lines)}", *lines, ""]).encode()


def clauses(made, frames):
    """Those of the circuit over so many frames."""
    return text_of_clauses(unrolled.unrolled(made, frames))


def asked(made, bad):
    """The circuit with the bad state that is asked for, or with all of them."""
    return made if bad is None else dataclasses.replace(made, bad=[made.bad[bad]])


def refusal(made, bad):
    """Why there are no clauses of the circuit, if there is a reason but its size."""
    if bad is not None and bad >= len(made.bad):
        return f"no bad state {bad}"
    if made.justice or made.fairness:
        return "justice or fairness cannot be unrolled"
    return None if made.bad else "no bad states"


def fault(name, words):
    return b"", f"aiger: {name}: {words}\n".encode(), 1


def wanted_clauses(made, frames, bad, name="-"):
    """Standard output, standard error and the status where the clauses of this model are asked for."""
    why = refusal(made, bad)
    return fault(name, why) if why else (clauses(asked(made, bad), frames), b"", 0)


def read(text):
    """The line of the status in an answer, and its values; or the number of the first line that is wrong or missing."""
    *lines, rest = text.split(b"\n")
    lines = [line.removesuffix(b"\r") for line in lines] + [rest] * bool(rest)
    said, values, is_ended = None, {}, False
    for at, line in enumerate(lines, 1):
        if not line or line[:1] == b"c":
            continue
        if said is None and line in STATUSES:
            said = line
            continue
        if said != SATISFIABLE or is_ended or not VALUES.fullmatch(line):
            return at
        numbers = [int(it) for it in line[1:].split()]
        if 0 in numbers[:-1] or any(abs(it) > LARGEST for it in numbers):
            return at
        values.update((abs(it), it > 0) for it in numbers)
        is_ended = numbers[-1:] == [0]
    return len(lines) + 1 if said is None or said == SATISFIABLE and not is_ended else (said, values)


def cut(made, frames, values):
    """The first state and the steps that the values of an answer give."""
    count = len(unrolled.free_latches(made)) + frames * len(made.inputs)
    bits = iter(["01"[values.get(at, False)] for at in range(2, count + 2)])
    state = "".join(next(bits) if reset == "x" else reset for reset in made.resets)
    return state, ["".join(next(bits) for _ in made.inputs) for _ in range(frames)]


def witness(made, state, steps):
    """The witness of the first bad state that a run reaches, if it reaches one."""
    order, first = images.placed(made.gates), state
    for at, given in enumerate(steps, 1):
        _, line, state = traces.step(made, order, state, given)
        *_, bad, constraints = line.split(" ")
        if "0" in constraints:
            return None
        if "1" in bad:
            return "\n".join(["1", f"b{bad.index('1')}", first, *steps[:at], ".", ""]).encode()
    return None


def wanted(made, frames, bad, name, text):
    """Standard output, standard error and the status for this answer, of a model that has clauses."""
    found = read(text)
    if isinstance(found, int):
        return fault(name, f"line {found}: bad answer line")
    said, values = found
    if STATUSES[said]:
        return fault(name, STATUSES[said])
    it = asked(made, bad)
    run = witness(it, *cut(it, frames, values))
    if run is None:
        return fault(name, "no bad state is reached")
    return run if bad is None else run.replace(b"\nb0\n", b"\nb%d\n" % bad, 1), b"", 0


def late(chance):
    """A circuit with a bad state that is 1 where some latches have values by chance, of which one does not start so."""
    made = dataclasses.replace(unrolled.circuit(chance), outputs=[], justice=[], fairness=[], symbols="", comment=None)
    used = {*made.inputs, *made.latches, *(gate[0] // 2 for gate in made.gates)}
    spare = (it for it in range(1, 2 * len(used) + 9) if it not in used)
    gates, end, starts = list(made.gates), 1, dict(zip(made.latches, made.resets))
    for latch in chance.sample(made.latches, min(len(made.latches), chance.randrange(1, 6))):
        own, sign = 2 * next(spare), chance.randrange(2) if end > 1 else int(starts[latch] == "1")
        gates.append((own, end, 2 * latch + sign))
        end = own
    largest = max([0, *used, *(gate[0] // 2 for gate in gates)])
    return dataclasses.replace(made, largest=largest, gates=gates, bad=[end])


def counting(chance):
    """A counter, which counts on where its input is 1, or always; its bad state is one of its values."""
    bits, inputs = chance.randrange(2, 5), [1] * chance.randrange(2)
    value, latches, gates = chance.randrange(1, min(2**bits, 9)), [len(inputs) + 1 + at for at in range(bits)], []

    def conjunction(left, right):
        gates.append((2 * (len(inputs) + bits + len(gates) + 1), left, right))
        return gates[-1][0]

    carry, nexts, end = 2 if inputs else 1, [], 1
    for at, latch in enumerate(latches):
        both, neither = conjunction(2 * latch, carry), conjunction(2 * latch + 1, carry ^ 1)
        nexts.append(conjunction(both ^ 1, neither ^ 1))
        carry, end = both, conjunction(end, 2 * latch + (value >> at & 1 ^ 1))
    largest, lists = gates[-1][0] // 2, {"outputs": [], "constraints": [], "justice": [], "fairness": []}
    made = {"inputs": inputs, "latches": latches, "nexts": nexts, "resets": ["0"] * bits, "bad": [end], "gates": gates}
    return images.Circuit(largest=largest, symbols="", comment=None, **made, **lists)


def small(chance):
    """A circuit with a bad state that is reached late, or never."""
    return late(chance) if chance.randrange(2) else counting(chance)


def spelled(chance, values):
    """The lines of an answer with these values, in their order, between comments."""
    words, lines = [b"%d" % it for it in values] + [b"0"], []
    while words:
        count = chance.choice([1, 3, len(words)])
        lines.append(b"v " + chance.choice([b" ", b" ", b"  "]).join(words[:count]) + chance.choice([b"", b"", b" "]))
        words = words[count:]
    lines.insert(0, SATISFIABLE)
    for _ in range(chance.randrange(3)):
        lines.insert(chance.randrange(len(lines) + 1), chance.choice(COMMENTS))
    return lines


def spoiled(chance, lines):
    """The lines, with one of them not as it was."""
    place, how = chance.randrange(len(lines)), chance.randrange(4)
    before, line, behind = lines[:place], lines[place], lines[place + 1 :]
    if how == 0:
        return before + behind
    if how == 1:
        return [*before, line, chance.choice(LINES), *behind]
    if how == 2:
        return [*before, line + chance.choice([b"1", b" 1", b" 0", b" ", b"-", b"\r", b"x"]), *behind]
    return [*behind, line, *before]


def given(chance, made, frames):
    """The text of an answer, or of what is nearly one."""
    count = len(unrolled.free_latches(made)) + frames * len(made.inputs)
    some = [it for it in range(1, count + 4) if chance.randrange(5)]
    values = [it if chance.randrange(2) else -it for it in some] + chance.choice([[], [], [-2, 2], [LARGEST]])
    lines, how = spelled(chance, values), chance.randrange(8)
    if how == 7:
        lines = [b"c said", chance.choice([*STATUSES, b"s UNKNOWN"])]
    if how < 2:
        lines = spoiled(chance, lines)
    text = b"".join(line + chance.choice([b"\n", b"\n", b"\n", b"\r\n"]) for line in lines)
    return text[: chance.randrange(len(text) + 1)] if how == 2 else text.removesuffix(b"\n") if how == 3 else text


def words_of(frames, bad):
    return ["aigunroll", "--frames", str(frames), *([] if bad is None else ["--bad", str(bad)])]


def judge(program, folder, at):
    """What is wrong with the clauses of this circuit, or with the witness of an answer, if anything is."""
    chance = random.Random(at)
    made = witnesses.circuit(chance) if at % 2 else small(chance)
    frames, bad = chance.randrange(1, unrolled.FRAMES + 1), chance.choice([None, chance.randrange(len(made.bad) + 1)])
    source, words = images.ascii_text(made), words_of(frames, bad)
    text = given(chance, made, frames)
    model, file = Path(folder) / f"answered.{at}", Path(folder) / f"answer.{at}"
    model.write_bytes(traces.converted(program, source, *chance.choice([[], ["--keep-map"]])))
    file.write_bytes(text)
    why = refusal(made, bad)
    wants = [fault(name, why) if why else wanted(made, frames, bad, it, text) for name, it in (("-", file), (model, "-"))]
    for asks, to, come in (
        ([*words, "--cnf"], source, wanted_clauses(made, frames, bad)),
        ([*words, "--cnf", str(model)], b"", wanted_clauses(made, frames, bad, model)),
        ([*words, "-", "--answer", str(file)], source, wants[0]),
        ([*words, "--answer", "-", str(model)], text, wants[1]),
    ):
        came = traces.ran(program, to, *asks)
        if came != come:
            return f"{asks} of {source!r} and {text!r}: wanted {come!r}, came {came!r}"
    run, _, status = wants[0]
    confirmed = b"confirmed %d\n" % (run.count(b"\n") - 5), b"", 0
    came = confirmed if status else traces.ran(program, run, "aigsim", "--witness", str(model))
    model.unlink()
    file.unlink()
    return None if came == confirmed else f"{run!r} of {source!r}: wanted {confirmed!r}, came {came!r}"


def cases(program, folder):
    for at in range(CIRCUITS):
        yield judge, program, folder, at
