"""Runs of the model that break an assertion, as the testbench needs them."""

from dataclasses import dataclass
from pathlib import Path
from typing import Dict, List, Optional, Sequence

from aiger_check.front.second.draw import X
from aiger_check.front.second.probes import Place, place_of, symbols_of
from aiger_check.model.circuit import Model, named_by_symbols


@dataclass(frozen=True)
class Witness:
    """The first values of registers, and the inputs of each step, by the bits of the design that they are."""

    starts: Dict[Place, int]
    inputs: List[Dict[Place, int]]
    #: whether all that the model leaves open is a bit of the design
    is_whole: bool

    def row(self, step: int, places: Sequence[Optional[Place]]) -> bytes:
        """The inputs of a step in another order; what is no bit of the design is not known."""
        return bytes(X if it is None else self.inputs[step].get(it, 0) for it in places)


def witness_of(path: Path, model: Model, widths: Dict[str, int]) -> Witness:
    """The witness of a file."""
    _, _, latches, *rows = path.read_text(encoding="ascii").split("\n")
    named = symbols_of(widths)
    starts: Dict[Place, int] = {}
    latch_names = named_by_symbols(model.circuit, "l")
    for at, names in latch_names.items():
        for symbol in names.split():
            starts[place_of(symbol, named)] = int(latches[at] == "1")
    inputs = named_by_symbols(model.circuit, "i")
    steps = rows[: rows.index(".")]
    unset = (at for at, latch in enumerate(model.circuit.latches) if latch.reset > 1)
    is_whole = all(at in latch_names for at in unset) and len(inputs) == len(model.circuit.inputs)
    return Witness(starts, [bits_of(row, inputs, named) for row in steps], is_whole)


def bits_of(row: str, names: Dict[int, str], named: Dict[str, Place]) -> Dict[Place, int]:
    return {named[name]: int(row[at] == "1") for at, name in names.items() if name in named}
