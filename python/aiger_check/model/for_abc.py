"""A part of a model as a circuit for ABC."""

from array import array
from typing import Any, Iterable, List, NamedTuple, Optional, Sequence, Tuple

from aiger_check.model.circuit import Gates
from aiger_check.model.part import Part
from aiger_check.tools.aiger import aigtools


class Column(NamedTuple):
    """What a latch for ABC is: a latch of the model, perhaps negated, or one that was added and is to have a value."""

    latch: Optional[int]
    negated: int = 0
    wanted: int = 0


BEGUN = Column(None, wanted=1)
FAILED = Column(None, wanted=0)


class ForAbc:
    """A part of a model as a circuit for ABC: with one output, without constraints, and with latches that all start at
    0.

    A latch that starts at 1 is stored negated. If one is uninitialised, a latch is added that is 1 behind the first
    step, and this step gives all others what they start at, by an input more where that is open. Constraints are
    folded into the output, by a latch that is 1 once one of them has failed.
    """

    def __init__(self, part: Part) -> None:
        self.part, self.model, self.inputs = part, part.model, part.inputs
        resets = [part.model.latches[at].reset for at in part.latches]
        self.open = [at for at, reset in zip(part.latches, resets) if reset > 1]
        # ABC takes no circuit without latches
        self.begins = bool(self.open) or not part.latches
        self.columns = [BEGUN] * self.begins + [FAILED] * bool(part.model.circuit.constraints)
        self.columns += [Column(at, int(reset == 1 and not self.begins)) for at, reset in zip(part.latches, resets)]
        self.circuit = self.make(part.needed, part.bad)

    def make(self, needed: bytearray, bad: int) -> Any:
        circuit = self.model.circuit
        now = array("I", bytes(4 * len(needed)))
        for variable, at in enumerate(self.inputs, 1):
            now[circuit.inputs[at] >> 1] = 2 * variable
        inputs = len(self.inputs) + len(self.open)
        for variable, column in enumerate(self.columns, inputs + 1):
            if column.latch is not None:
                now[self.model.latches[column.latch].literal >> 1] = 2 * variable ^ column.negated
        gates = Gates(inputs + len(self.columns) + 1)
        for literal, left, right in circuit.gates:
            if needed[literal >> 1]:
                now[literal >> 1] = gates.both(now[left >> 1] ^ left & 1, now[right >> 1] ^ right & 1)
        output, latches = self.states(now, gates, circuit.bad[bad], 2 * inputs + 2)
        return aigtools().Circuit(
            max_var=gates.variable - 1,
            inputs=range(2, 2 * inputs + 2, 2),
            latches=latches,
            outputs=[output],
            gates=aigtools().Entries(aigtools().Gate, gates.words),
        )

    def states(self, now: Any, gates: Gates, bad: int, first: int) -> Tuple[int, List[Tuple[int, int, int]]]:
        """The output and the latches, by the literal that each variable has now."""
        begun = first if self.begins else 1
        failed = first + 2 * self.columns.index(FAILED) if FAILED in self.columns else 0
        held = 1
        for literal in self.model.circuit.constraints:
            held = gates.both(held, now[literal >> 1] ^ literal & 1)
        output = gates.both(now[bad >> 1] ^ bad & 1, gates.both(begun, gates.both(held, failed ^ 1)))
        latches = []
        for at, column in enumerate(self.columns):
            if column is BEGUN:
                later = 1
            elif column is FAILED:
                later = gates.either(failed, gates.both(begun, held ^ 1))
            else:
                latch: int = column.latch or 0
                literal = self.model.latches[latch].next
                later = now[literal >> 1] ^ literal & 1 ^ column.negated
                if self.begins:
                    start = gates.both(begun ^ 1, self.start(latch))
                    later = gates.either(gates.both(begun, later), start)
            latches.append((first + 2 * at, later, 0))
        return output, latches

    def start(self, latch: int) -> int:
        """The literal of what a latch starts at."""
        reset: int = self.model.latches[latch].reset
        return reset if reset < 2 else 2 * (len(self.inputs) + self.open.index(latch) + 1)

    def invariant(self, rows: Iterable[str]) -> List[str]:
        """Rows for the model: those are left out that ask for the first step, or for a constraint that has failed,
        since then nothing is asked of the model."""
        made = []
        for row in rows:
            line = ["-"] * len(self.model.latches)
            for value, column in zip(row, self.columns):
                if column.latch is not None:
                    line[column.latch] = value if value == "-" else str(int(value) ^ column.negated)
                elif value not in ("-", str(column.wanted)):
                    break
            else:
                made.append("".join(line))
        return made

    def witness(self, lines: Sequence[str]) -> Optional[str]:
        """A witness for the model, by a counterexample of ABC: a line for the first state, and one for each step."""
        steps, width = lines[1:], len(self.circuit.inputs)
        if not steps or any(len(step) != width or set(step) - set("01") for step in steps):
            return None
        state = dict(zip(self.open, steps[0][len(self.inputs) :]))
        return self.part.witness(state, steps[1:] if self.begins else steps)
