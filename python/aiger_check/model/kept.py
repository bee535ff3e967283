"""Models that ask whether constraints can be kept."""

from typing import Any, List

from aiger_check.model.circuit import Gates
from aiger_check.tools.aiger import aigtools


def entries(circuit: Any, gates: Gates) -> Any:
    """The gates of a circuit, with more of them."""
    return aigtools().Entries(aigtools().Gate, circuit.gates.words + gates.words)


def in_step(circuit: Any, step: int) -> Any:
    """A circuit with its constraints, whose one bad state is reached in this step, and in no step before."""
    bits = range(circuit.max_var + 1, circuit.max_var + 1 + step.bit_length())
    gates = Gates(circuit.max_var + 1 + len(bits))
    latches, carry, reached = [tuple(it) for it in circuit.latches], 1, 1
    for at, variable in enumerate(bits):
        bit = 2 * variable
        latches.append((bit, gates.either(gates.both(bit, carry ^ 1), gates.both(bit ^ 1, carry)), 0))
        carry = gates.both(carry, bit)
        reached = gates.both(reached, bit ^ 1 ^ (step >> at & 1))
    return aigtools().Circuit(
        max_var=gates.variable - 1,
        inputs=circuit.inputs,
        latches=latches,
        bad=[reached],
        constraints=circuit.constraints,
        gates=entries(circuit, gates),
    )


def with_held_inputs(circuit: Any, state: str) -> Any:
    """A circuit that starts in a state, with latches in the place of its inputs: any value at first, and no other."""
    latches = [(literal, literal, literal) for literal in circuit.inputs]
    latches += [(latch.literal, latch.next, int(value)) for latch, value in zip(circuit.latches, state)]
    return aigtools().Circuit(
        max_var=circuit.max_var, latches=latches, constraints=circuit.constraints, gates=circuit.gates
    )


def held(circuit: Any, state: str, inputs: str) -> Any:
    """A circuit that starts in a state and has these inputs for ever; its one bad state is that a constraint fails."""
    gates, kept = Gates(circuit.max_var + 1), 1
    for literal in circuit.constraints:
        kept = gates.both(kept, literal)
    latches = [(literal, literal, int(value)) for literal, value in zip(circuit.inputs, inputs)]
    latches += [(latch.literal, latch.next, int(value)) for latch, value in zip(circuit.latches, state)]
    return aigtools().Circuit(
        max_var=gates.variable - 1, latches=latches, bad=[kept ^ 1], gates=entries(circuit, gates)
    )


def states_of(circuit: Any, text: str) -> List[str]:
    """The state in each step of a witness, of which the circuit may have the first latches alone."""
    _, _, state, *lines = text.split("\n")
    found, here = [], bytes(map(int, state[: len(circuit.latches)]))
    for line in lines[: lines.index(".")]:
        found.append("".join(map(str, here)))
        here = circuit.step(bytes(map(int, line)), here).next
    return found
