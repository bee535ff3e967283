"""What the simulation and the model say of the same step."""

import operator
from dataclasses import dataclass, field
from typing import Dict, Iterator, List, Optional, Sequence, Set, Tuple

from aiger_check.front.second.draw import X, Drawn
from aiger_check.front.second.probes import Place, Probed
from aiger_check.front.second.vcd import Values, Variable, Waves

DIFFERS, OPEN, DECIDED, LOST, BETWEEN = "differs", "open", "decided", "lost", "between"


@dataclass(frozen=True)
class Finding:
    """Something that the two do not say alike: of a name or of an assertion's cell, in a step of a run."""

    kind: str
    name: str
    cell: str
    step: int
    run: int
    design: str
    model: str


def kind_of(design: str, model: int, opened: int, has_x: bool = True) -> Optional[str]:
    """Of a bit what is wrong, if anything is: what the simulation says, and the model; and what the model says where
    nothing is known of what a simulator cannot set."""
    if design == "x":
        return DECIDED if opened != X else None
    if model == X:
        return OPEN if has_x else None
    return DIFFERS if opened != X and int(design) != model else None


def is_unknown(design: str, opened: int) -> bool:
    """Whether both know nothing of a bit."""
    return design == "x" and opened == X


@dataclass
class Signals:
    """Compares all names that both have."""

    probed: Probed
    prefix: str
    variables: Dict[str, Variable]
    #: whether the simulator knows x
    has_x: bool
    findings: Dict[Tuple[str, str], Finding] = field(default_factory=dict)
    #: the bits of which neither knows anything in some step
    unknown: Set[Place] = field(default_factory=set)
    compared: Set[str] = field(default_factory=set)

    def columns(self) -> Iterator[Tuple[str, Variable, List[int]]]:
        """Of each name that both have the outputs of its bits, from the right; -1 where there is none."""
        for name, width in self.probed.widths.items():
            variable = self.variables.get(self.prefix + name)
            if variable and variable.kind != "parameter" and variable.width == width:
                yield name, variable, [self.probed.outputs.get((name, at), -1) for at in range(width)]

    def compare(self, run: int, drawn: Drawn, waves: Waves, look: Sequence[int]) -> None:
        """Compares a run; look has the time at which each step is looked at."""
        columns = []
        for name, variable, outputs in self.columns():
            kept = [(at, output) for at, output in enumerate(outputs) if output >= 0]
            if kept:
                self.compared.add(name)
                columns.append((name, variable.code, kept, operator.itemgetter(*(output for _, output in kept))))
        values, before = Values(waves), {}  # type: Values, Dict[str, object]
        for step, time in enumerate(look):
            values.until(time)
            model, opened = drawn.outputs[step], drawn.open_outputs[step]
            for name, code, kept, get in columns:
                now = (values.now.get(code), get(model), get(opened))
                if before.get(name) != now:
                    before[name] = now
                    self.bits(run, step, name, code, kept, values, model, opened)

    def bits(
        self,
        run: int,
        step: int,
        name: str,
        code: str,
        kept: Sequence[Tuple[int, int]],
        values: Values,
        model: bytes,
        opened: bytes,
    ) -> None:
        """Compares the bits of a name."""
        kinds = set()
        for at, output in kept:
            design = values.bit(code, at)
            if is_unknown(design, opened[output]):
                self.unknown.add((name, at))
            kinds.add(kind_of(design, model[output], opened[output], self.has_x))
        for kind in kinds - {None}:
            if kind and (kind, name) not in self.findings:
                shown = "".join(values.bit(code, at) for at, _ in reversed(kept))
                other = "".join("01x"[model[output]] for _, output in reversed(kept))
                self.findings[kind, name] = Finding(kind, name, "", step, run, number(shown), number(other))


def number(bits: str) -> str:
    """Bits as a number, or as they are where some are x."""
    return str(int(bits, 2)) if "x" not in bits else bits if len(bits) == 1 else f"{len(bits)}'b{bits}"


def value_of(outputs: bytes, pins: Tuple[int, int]) -> int:
    """What an assertion of the model is worth: by its value, and whether it counts."""
    value, counts = outputs[pins[0]], outputs[pins[1]]
    if counts == 0 or value == 1:
        return 1
    return value if counts == 1 else X


@dataclass
class Worths:
    """What the assertions of the model are worth in each step of a run."""

    drawn: Drawn
    #: by how many steps the model is behind
    pins: Dict[str, Tuple[int, int]]

    def of(self, cell: str, behind: int) -> List[Tuple[int, int]]:
        """The values, and those where nothing is known of what cannot be set."""
        pins = self.pins[cell]
        both = zip(self.drawn.outputs[behind:], self.drawn.open_outputs[behind:])
        return [(value_of(model, pins), value_of(opened, pins)) for model, opened in both]
