"""Compares the circuits that the program makes of justice properties with those of a plain model, and with a search
of all runs.

The circuits are those of images.py, small, with justice properties and fairness constraints. Of each property the
program must write the circuit that is made here, variable by variable, from ASCII and from binary; or refuse it.
Where the circuit has few states, its bad state must be reached exactly where some loop of the model, which a first
state leads to with all constraints kept, meets all goals; and the run that reaches it must be such a loop, turned
back. Unrolled for the property, the model must give the clauses of that circuit; and of the answer that is this run,
its witness, which the program must confirm at the first step at which a loop begins. That lasso with a value changed,
a step left out or its loop once more, runs with x that come back, and any other run must be answered as the plain
judge of witnesses.py does.
"""
import dataclasses
import itertools
import random
from pathlib import Path

from lib import images, traces, witnesses

CIRCUITS = 400
# how many runs of a property are judged beside its lasso, and how many steps one has that waits for its state
RUNS, STEPS = 6, 12
LARGEST = 2147483647


def circuit(chance):
    """A circuit made by chance with a justice property at least."""
    made = images.circuit(chance, most_latches=4, most_inputs=2, most_gates=7)
    known = [0, 1, *(2 * it + side for it in made.latches + made.inputs for side in (0, 1))]
    known += [gate[0] + side for gate in made.gates for side in (0, 1)]
    more = [chance.choices(known, k=chance.randrange(4)) for _ in range(chance.randrange(1, 3))]
    made = dataclasses.replace(
        made,
        resets=[chance.choice("01x") for _ in made.latches],
        constraints=chance.choices(known, k=chance.choice([0, 0, 1])),
        fairness=chance.choices(known, k=chance.choice([0, 0, 1, 2])),
        justice=made.justice + more,
    )
    return dataclasses.replace(made, symbols=images.symbols(chance, made))


def goals_of(made, number):
    return made.justice[number] + made.fairness


def gate(variable, left, right):
    return 2 * variable, max(left, right), min(left, right)


def chain(first, literals):
    """Gates that are 1 as long as all literals so far are, and the last of them."""
    gates, last = [], 1
    for variable, literal in enumerate(literals, first):
        gates.append(gate(variable, last, literal))
        last = 2 * variable
    return gates, last


def with_loop(made, number):
    """The circuit for the justice property of this number, before its size is looked at."""
    goals, latches = goals_of(made, number), made.latches
    save, entered, copies = made.largest + 1, made.largest + 2, made.largest + 3
    mets = copies + len(latches)
    saving = mets + len(goals)
    gates = [gate(saving, 2 * save, 2 * entered + 1)]
    nexts, alike, variable = [], [], saving + 1
    for copy, latch in enumerate(latches, copies):
        gates += [gate(variable, 2 * saving, 2 * latch), gate(variable + 1, 2 * saving + 1, 2 * copy)]
        gates.append(gate(variable + 2, 2 * variable + 1, 2 * variable + 3))
        nexts.append(2 * variable + 5)
        variable += 3
    for copy, latch in enumerate(latches, copies):
        gates += [gate(variable, 2 * latch, 2 * copy), gate(variable + 1, 2 * latch + 1, 2 * copy + 1)]
        gates.append(gate(variable + 2, 2 * variable + 1, 2 * variable + 3))
        alike.append(2 * variable + 5)
        variable += 3
    more, here = chain(variable, alike)
    gates += more
    outside = variable + len(latches)
    gates.append(gate(outside, 2 * entered + 1, 2 * save + 1))
    variable = outside + 1
    for met, goal in enumerate(goals, mets):
        gates += [gate(variable, 2 * outside + 1, goal), gate(variable + 1, 2 * variable + 1, 2 * met + 1)]
        nexts.append(2 * variable + 3)
        variable += 2
    more, closed = chain(variable, [2 * entered, here, *(2 * met for met in range(mets, saving))])
    return dataclasses.replace(
        made,
        largest=variable + 1 + len(goals),
        inputs=[*made.inputs, save],
        latches=[*latches, entered, *range(copies, saving)],
        nexts=[*made.nexts, 2 * outside + 1, *nexts],
        resets=[*made.resets, "0", *"0" * len(nexts)],
        bad=[closed],
        justice=[],
        fairness=[],
        gates=made.gates + gates + more,
        symbols="",
        comment=None,
    )


class Runs:
    """The runs of a circuit over 0 and 1."""

    def __init__(self, made):
        self.made, self.order = made, images.placed(made.gates)
        self.given = ["".join(it) for it in itertools.product("01", repeat=len(made.inputs))]

    def firsts(self):
        return ["".join(it) for it in itertools.product(*("01" if it == "x" else it for it in self.made.resets))]

    def step(self, state, given, seen):
        """What these literals are, and the next state; nothing where a constraint is 0."""
        made = self.made
        at = {0: "0", **dict(zip(made.inputs, given)), **dict(zip(made.latches, state))}
        for own, *operands in self.order:
            at[own // 2] = traces.conjunction(*traces.values(at, operands))
        if "0" in traces.values(at, made.constraints):
            return None
        return traces.values(at, seen), traces.values(at, made.nexts)

    def steps(self, seen):
        """Each state that is reached, with its steps: inputs, what is seen, and the next state."""
        found, waiting = {}, self.firsts()
        while waiting:
            state = waiting.pop()
            if state not in found:
                taken = ((given, self.step(state, given, seen)) for given in self.given)
                found[state] = [(given, *it) for given, it in taken if it]
                waiting += [it[2] for it in found[state]]
        return found


def reached_from(steps, state):
    """The states behind a state, by one step at least."""
    behind, waiting = set(), [it[2] for it in steps[state]]
    while waiting:
        state = waiting.pop()
        if state not in behind:
            behind.add(state)
            waiting += [it[2] for it in steps[state]]
    return behind


def has_fair_run(made, number):
    """Whether a loop meets all goals: whether states that lead to one another do."""
    goals = goals_of(made, number)
    steps = Runs(made).steps(goals)
    behind = {state: reached_from(steps, state) for state in steps}
    for state in steps:
        knot = {it for it in behind[state] if state in behind[it]} if state in behind[state] else set()
        seen = [it[1] for of in knot for it in steps[of] if it[2] in knot]
        if knot and all(any(it[place] == "1" for it in seen) for place in range(len(goals))):
            return True
    return False


def run_to_bad(made):
    """The first state and the inputs of a run up to its bad state, if there is one."""
    runs = Runs(made)
    came, waiting = {it: None for it in runs.firsts()}, runs.firsts()
    for state in waiting:
        for given in runs.given:
            taken = runs.step(state, given, made.bad)
            if taken and taken[0] == "1":
                inputs = [given]
                while came[state]:
                    state, given = came[state]
                    inputs.append(given)
                return state, inputs[::-1]
            if taken and taken[1] not in came:
                came[taken[1]] = state, given
                waiting.append(taken[1])
    return None


def starts(made, number, state, inputs):
    """In which of these steps a loop begins: its state is that behind the last one, and each goal is met in between."""
    goals, runs, states, seen = goals_of(made, number), Runs(made), [state], []
    if any(reset not in ("x", value) for reset, value in zip(made.resets, state)):
        return []
    for given in inputs:
        taken = runs.step(states[-1], given, goals)
        if not taken:
            return []
        seen.append(taken[0])
        states.append(taken[1])
    back = (at for at in range(len(inputs)) if states[at] == states[-1])
    return [at for at in back if all(any(it[place] == "1" for it in seen[at:]) for place in range(len(goals)))]


def wrong_runs(made, number, live):
    """What is wrong with the runs of the circuit for a property, if anything is."""
    run = run_to_bad(live)
    if (run is not None) != has_fair_run(made, number):
        return f"j{number} of {images.ascii_text(made)!r}: its circuit reaches {run}"
    if run:
        state, inputs = run[0][: len(made.latches)], [it[: len(made.inputs)] for it in run[1][:-1]]
        if not starts(made, number, state, inputs):
            return f"j{number} of {images.ascii_text(made)!r}: no lasso is {state, inputs}"
    return None


def witness(number, state, steps):
    """The lines of a witness for a justice property."""
    return ["1", f"j{number}", state, *steps, "."]


def changed(chance, lines, start):
    """The lines of a lasso whose loop begins at this step, with a value changed, a step left out, or the loop twice."""
    first, steps = lines[:3], lines[3:-1]
    at, how = chance.randrange(len(steps)), chance.randrange(4)
    if how == 0:
        del steps[at]
    elif how == 1:
        steps += steps[start:]
    elif how == 2 and steps[at]:
        place = chance.randrange(len(steps[at]))
        steps[at] = steps[at][:place] + chance.choice("01x") + steps[at][place + 1 :]
    elif first[2]:
        place = chance.randrange(len(first[2]))
        first[2] = first[2][:place] + chance.choice("01x") + first[2][place + 1 :]
    return [*first, *steps, "."]


def run_back(chance, made, number):
    """The lines of a run over 0, 1 and x, up to the step that leads to a state in which it was, or to some step."""
    order, characters = images.placed(made.gates), chance.choice(["01", "01x", "0001xx", "x"])
    states, steps = ["".join(chance.choice(characters) if it == "x" else it for it in made.resets)], []
    while len(steps) < STEPS and states[-1] not in states[:-1]:
        steps.append("".join(chance.choices(characters, k=len(made.inputs))))
        states.append(traces.step(made, order, states[-1], steps[-1])[2])
    return witness(number, states[0], steps)


def wrong_witness(program, made, model, lines):
    """What is wrong with the answer to a witness of these lines, if anything is."""
    text = "".join(f"{line}\n" for line in lines)
    came = traces.ran(program, text.encode(), "aigsim", "--witness", str(model))
    wanted = witnesses.wanted(made, "-", text)
    return None if came == wanted else f"{images.ascii_text(made)!r} over {text!r}: wanted {wanted!r}, came {came!r}"


def wrong_lasso(program, made, model, number, lines):
    """What is wrong with a lasso that was found, and with the witness of an answer that is this run, if anything is."""
    state, steps = lines[2], lines[3:-1]
    begins = starts(made, number, state, steps)
    text = "".join(f"{line}\n" for line in lines).encode()
    if not begins or witnesses.start(made, lines) != begins[0]:
        return f"two judges of {text!r}, for {images.ascii_text(made)!r}"
    came = traces.ran(program, text, "aigsim", "--witness", str(model))
    if came != (f"confirmed {begins[0]}\n".encode(), b"", 0):
        return f"{text!r}, for {images.ascii_text(made)!r}: wanted {begins[0]}, came {came!r}"
    # the inputs of the unrolled circuit are first those of latches without a reset, and from number 2 on; behind the
    # lasso its loop begins again
    marks = ["01"[at == begins[0]] for at in range(len(steps) + 1)]
    bits = "".join(value for value, reset in zip(state, made.resets) if reset == "x")
    bits += "".join(map("".join, zip([*steps, steps[begins[0]]], marks)))
    values = " ".join(str(at if bit == "1" else -at) for at, bit in enumerate(bits, 2))
    words = ["--frames", str(len(steps) + 1), "--justice", str(number), "--answer", "-", str(model)]
    came = traces.ran(program, f"s SATISFIABLE\nv {values} 0\n".encode(), "aigunroll", *words)
    return None if came == (text, b"", 0) else f"{words} of {values!r}: wanted {text!r}, came {came!r}"


def judge_witnesses(program, folder, made, number, at):
    """What is wrong with the answers to witnesses of a property, if anything is."""
    chance, model, file = random.Random(at), images.renumbered(made), Path(folder) / f"model.{at}"
    file.write_bytes(images.image(made))
    run, runs = run_to_bad(with_loop(model, number)), [run_back(chance, model, number) for _ in range(RUNS)]
    if run:
        state, steps = run[0][: len(made.latches)], [it[: len(made.inputs)] for it in run[1][:-1]]
        lines = witness(number, state, steps)
        wrong = wrong_lasso(program, model, file, number, lines)
        if wrong:
            return wrong
        runs += [changed(chance, lines, witnesses.start(model, lines)) for _ in range(RUNS)]
    wrong = (wrong_witness(program, model, file, it) for it in runs)
    return next(filter(None, wrong), None)


def answers(made, number):
    """What the program is to answer for a property: in ASCII, and in binary."""
    live = with_loop(made, number)
    if live.largest > LARGEST:
        return [(b"", b"aiger: -: too large\n", 1)] * 2
    return [(images.ascii_text(live), b"", 0), (images.image(live), b"", 0)]


def judge(program, made, number):
    """What is wrong with the circuit for a property, if anything is."""
    image, words = images.renumbered(made), ["aigtoaig", "--justice-as-bad", str(number)]
    for source, given in (made, images.ascii_text(made)), (image, images.image(made)):
        for arguments, wanted in zip(([*words, "--ascii"], words), answers(source, number)):
            came = traces.ran(program, given, *arguments)
            if came != wanted:
                return f"{arguments} of {given!r}: wanted {wanted!r}, came {came!r}"
    return wrong_clauses(program, made, number) or wrong_runs(image, number, with_loop(image, number))


def wrong_clauses(program, made, number):
    """What is wrong with the clauses for a property, which are to be those of its circuit."""
    model, live = images.ascii_text(made), with_loop(made, number)
    if live.largest > LARGEST:
        return None
    for frames, option in (1, []), (2, []), (5, []), (3, ["--simplify"]):
        words = ["aigunroll", "--frames", str(frames), "--cnf", *option]
        came = traces.ran(program, model, *words, "--justice", str(number))
        wanted = traces.ran(program, images.ascii_text(live), *words)
        if came != wanted:
            return f"{words} of j{number} of {model!r}: wanted {wanted!r}, came {came!r}"
    return None


def refused(program, made):
    """What is wrong with the answer for a property that is not there."""
    count = len(made.justice)
    came = traces.ran(program, images.ascii_text(made), "aigtoaig", "--justice-as-bad", str(count))
    wanted = b"", f"aiger: -: no justice property {count}\n".encode(), 1
    return None if came == wanted else f"{images.ascii_text(made)!r}: wanted {wanted!r}, came {came!r}"


def cases(program, folder):
    chance = random.Random(80)
    for at in range(CIRCUITS):
        made = circuit(chance)
        for number in range(len(made.justice)):
            yield judge, program, made, number
            yield judge_witnesses, program, folder, made, number, f"{at}.{number}"
        yield refused, program, made
