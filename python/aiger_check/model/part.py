"""What a property of a model depends on, as a model of its own."""

from array import array
from typing import Any, Dict, Iterable, List, Sequence

from aiger_check.model.circuit import Model
from aiger_check.tools.aiger import aigtools


class Part:
    """A bad state of a model with what it depends on, over any number of steps, and with the constraints."""

    def __init__(self, model: Model, bad: int) -> None:
        self.bad, self.called = bad, f"b{bad}"
        self.take(model, [model.circuit.bad[bad]])

    def take(self, model: Model, asked: List[int]) -> None:
        """Looks for what these literals and the constraints depend on."""
        self.model, self.asked, circuit = model, asked, model.circuit
        self.needed = model.cone([*asked, *circuit.constraints])
        self.inputs = [at for at, literal in enumerate(circuit.inputs) if self.needed[literal >> 1]]
        self.latches = [at for at, latch in enumerate(model.latches) if self.needed[latch.literal >> 1]]

    def properties(self, asked: List[int]) -> Dict[str, List[int]]:
        """What the literals that were asked for are."""
        return {"bad": asked}

    def circuit(self) -> Any:
        """It as a model of its own."""
        circuit, now, variable, gates = self.model.circuit, array("I", bytes(4 * len(self.needed))), 1, array("I")
        literals = [circuit.inputs[at] for at in self.inputs]
        literals += [self.model.latches[at].literal for at in self.latches]
        for variable, literal in enumerate(literals, 1):
            now[literal >> 1] = 2 * variable
        variable = len(literals)
        for literal, left, right in circuit.gates:
            if self.needed[literal >> 1]:
                variable += 1
                now[literal >> 1] = 2 * variable
                gates.extend((2 * variable, now[left >> 1] ^ left & 1, now[right >> 1] ^ right & 1))
        latches = []
        for literal, later, reset in (self.model.latches[at] for at in self.latches):
            here = now[literal >> 1]
            latches.append((here, now[later >> 1] ^ later & 1, reset if reset < 2 else here))
        asked, constraints = ([now[it >> 1] ^ it & 1 for it in of] for of in (self.asked, circuit.constraints))
        return aigtools().Circuit(
            max_var=variable,
            inputs=range(2, 2 * len(self.inputs) + 2, 2),
            latches=latches,
            constraints=constraints,
            gates=aigtools().Entries(aigtools().Gate, gates),
            **self.properties(asked),
        )

    def witness(self, state: Dict[int, str], steps: Iterable[str]) -> str:
        """A witness for the model, by first values of latches, and by the inputs of the part in each step."""
        resets = (str(latch.reset) if latch.reset < 2 else "0" for latch in self.model.latches)
        lines = ["1", self.called, "".join(state.get(at, reset) for at, reset in enumerate(resets))]
        for step in steps:
            line = ["0"] * len(self.model.circuit.inputs)
            for at, value in zip(self.inputs, step):
                line[at] = value
            lines.append("".join(line))
        return "\n".join([*lines, ".", ""])

    def widened(self, text: str) -> str:
        """A witness for the model, by one for the part."""
        _, _, state, *steps = text.split("\n")
        return self.witness(dict(zip(self.latches, state)), steps[: steps.index(".")])


class Goals(Part):
    """A justice property of a model with what its goals depend on: these are its literals and the fairness constraints,
    each of which a fair run meets again and again."""

    def __init__(self, model: Model, justice: int) -> None:
        self.called, circuit = f"j{justice}", model.circuit
        start, size = sum(circuit.justice_sizes[:justice]), circuit.justice_sizes[justice]
        self.take(model, [*circuit.justice_literals[start : start + size], *circuit.fairness])

    def properties(self, asked: List[int]) -> Dict[str, List[int]]:
        return {"justice_sizes": [len(asked)], "justice_literals": asked}

    @property
    def more(self) -> int:
        """How many latches aiger adds to the model: one that is 1 in the loop, a copy of each, one for each goal."""
        return 1 + len(self.model.latches) + len(self.asked)

    def invariant(self, rows: Iterable[str]) -> List[str]:
        """Rows for what aiger makes of the model, by those for what it makes of the part."""
        count = len(self.model.latches)
        goals = range(2 * count + 1, count + self.more)
        columns = [*self.latches, count, *(count + 1 + at for at in self.latches), *goals]
        made = []
        for row in rows:
            line = ["-"] * (count + self.more)
            for column, value in zip(columns, row):
                line[column] = value
            made.append("".join(line))
        return made


class Assumed(Goals):
    """What the constraints of a model depend on, and fairness, where it counts: without another goal."""

    def __init__(self, model: Model, fairness: Sequence[int]) -> None:
        self.called = "j0"
        self.take(model, [*fairness] or [1])


class Closing(Part):
    """What aiger makes of a justice property, for ABC: its bad state is reached in the step behind a lasso."""

    def __init__(self, goals: Model, live: Model) -> None:
        super().__init__(live, 0)
        self.goals = goals.circuit

    def witness(self, state: Dict[int, str], steps: Iterable[str]) -> str:
        """The lasso, without the inputs and latches that aiger adds."""
        _, _, first, *lines = super().witness(state, steps).split("\n")
        steps = [line[: len(self.goals.inputs)] for line in lines[:-3]]
        return "\n".join(["1", "j0", first[: len(self.goals.latches)], *steps, ".", ""])
