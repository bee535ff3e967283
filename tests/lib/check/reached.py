"""Small models made by chance, and in which step each of their bad states is reached first, by all states."""
import dataclasses
import itertools
import random

from lib import answers, images, invariants, traces

MOST_LATCHES, MOST_INPUTS = 4, 2


def plain(made):
    """The circuit without what is of no matter here."""
    return dataclasses.replace(made, justice=[], fairness=[], symbols="", comment=None)


def any_circuit(chance):
    """A circuit with bad states and perhaps a constraint, which are conjunctions of its literals."""
    made = plain(images.circuit(chance, most_latches=MOST_LATCHES, most_inputs=MOST_INPUTS))
    own = [*made.inputs, *made.latches, *(gate[0] // 2 for gate in made.gates)]
    used, gates = {0, *own}, list(made.gates)
    spare = (it for it in range(1, 2 * len(used) + 40) if it not in used)

    def conjunction(count):
        end = 1
        for it in chance.choices(own or [0], k=count):
            gates.append((2 * next(spare), end, 2 * it + chance.randrange(2)))
            end = gates[-1][0]
        return end

    bad = [conjunction(chance.randrange(1, 4)) for _ in range(chance.randrange(1, 4))]
    constraints = [conjunction(chance.randrange(1, 3)) ^ 1 for _ in range(chance.choice([0, 0, 1, 2]))]
    largest = max([0, *own, *(gate[0] // 2 for gate in gates)])
    return dataclasses.replace(made, largest=largest, gates=gates, bad=bad, constraints=constraints)


def circuit(chance):
    """A small circuit with bad states, none of which need be reached."""
    kinds = [any_circuit, any_circuit, answers.small, answers.small, invariants.unmet]
    while True:
        made = plain(chance.choice(kinds)(chance))
        if made.bad and len(made.latches) <= MOST_LATCHES and len(made.inputs) <= MOST_INPUTS:
            return made


def all_models(count):
    """So many models, which are the same ones each time."""
    return [circuit(random.Random(at)) for at in range(count)]


def moves_of(made):
    """What gives of a state the states that may follow, and the values of the bad states on the way."""
    order, moves = images.placed(made.gates), {}
    every = ["".join(it) for it in itertools.product("01", repeat=len(made.inputs))]

    def moved(state):
        if state not in moves:
            moves[state] = set()
            for given in every:
                _, line, following = traces.step(made, order, state, given)
                *_, bad, constraints = line.split(" ")
                if "0" not in constraints:
                    moves[state].add((following, bad))
        return moves[state]

    return moved


def first_states(made):
    return {"".join(it) for it in itertools.product(*("01" if it == "x" else it for it in made.resets))}


def kept(made):
    """For how many steps a run can keep all constraints, or None where one can for ever."""
    moved, here = moves_of(made), first_states(made)
    for step in range(2 ** len(made.latches) + 1):
        here = {following for state in here for following, _ in moved(state)}
        if not here:
            return step
    return None


def steps(made):
    """Of each bad state the first step in which a run reaches it, or None."""
    moved, found = moves_of(made), [None] * len(made.bad)
    here, seen = first_states(made), set()
    for step in itertools.count():
        for bad in {bad for state in here for _, bad in moved(state)}:
            found = [step if value == "1" and it is None else it for it, value in zip(found, bad)]
        seen |= here
        here = {following for state in here for following, _ in moved(state)} - seen
        if not here:
            return found


def folded(made, bad):
    """The circuit with one bad state, which is 1 only while the constraints hold and held, for a tool without them."""
    taken = {*made.inputs, *made.latches, *(gate[0] // 2 for gate in made.gates)}
    spare = (it for it in itertools.count(1) if it not in taken)
    gates, failed = list(made.gates), next(spare)
    holds = 2 * failed + 1
    for literal in made.constraints:
        gates.append((2 * next(spare), holds, literal))
        holds = gates[-1][0]
    gates.append((2 * next(spare), holds, made.bad[bad]))
    used = [failed, *taken, *(gate[0] // 2 for gate in gates)]
    return dataclasses.replace(
        made, largest=max(used), latches=[*made.latches, failed], nexts=[*made.nexts, holds ^ 1],
        resets=[*made.resets, "0"], outputs=[], bad=[gates[-1][0]], constraints=[], gates=gates,
    )


def read(text):
    """The circuit of an ASCII text."""
    lines = iter(text.decode("latin-1").split("\n"))
    _, largest, *counts = next(lines).split()
    inputs, latches, outputs, gates, bad, constraints, justice, fairness = [*map(int, counts), 0, 0, 0, 0][:8]

    def take(count):
        return [[int(it) for it in next(lines).split()] for _ in range(count)]

    its_inputs, its_latches, literals = take(inputs), take(latches), take(outputs + bad + constraints)
    literals = [it[0] for it in literals]
    goals = [[it[0] for it in take(size)] for (size,) in take(justice)]
    fair = [it[0] for it in take(fairness)]
    resets = ["0" if len(it) == 2 else "x" if it[2] == it[0] else str(it[2]) for it in its_latches]
    return images.Circuit(
        int(largest), [it[0] // 2 for it in its_inputs], [it[0] // 2 for it in its_latches],
        [it[1] for it in its_latches], resets, literals[:outputs], literals[outputs : outputs + bad],
        literals[outputs + bad :], goals, fair, [tuple(it) for it in take(gates)], "", None,
    )
