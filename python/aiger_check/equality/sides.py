"""Two designs that are compared."""

from dataclasses import dataclass
from pathlib import Path
from typing import Any, Dict, List, Optional, Tuple

from aiger_check.answers import Assertion, Assumption, Pair
from aiger_check.model.circuit import named_by_symbols
from aiger_check.tools.aiger import aigtools


@dataclass(frozen=True)
class Side:
    """One of two designs: what it is called, and its model."""

    called: str
    path: Path
    circuit: Any

    def symbols(self, kind: str) -> Dict[int, str]:
        """What its symbols name of a kind, by position."""
        return named_by_symbols(self.circuit, kind)

    def names(self, kind: str, count: int) -> List[str]:
        symbols = self.symbols(kind)
        return [symbols.get(at, f"{kind}{at}") for at in range(count)]

    def compared(self) -> List[str]:
        """The names of what is compared: outputs, then bad states."""
        return self.names("o", len(self.circuit.outputs)) + self.names("b", len(self.circuit.bad))

    def symbols_compared(self) -> Dict[int, str]:
        """What symbols name of these, by place."""
        outputs = len(self.circuit.outputs)
        return {**self.symbols("o"), **{outputs + at: name for at, name in self.symbols("b").items()}}

    def assumed(self) -> List[str]:
        return self.names("c", len(self.circuit.constraints))

    def unset(self) -> List[int]:
        """The latches without initial value."""
        return [at for at, latch in enumerate(self.circuit.latches) if latch.reset > 1]


@dataclass(frozen=True)
class Sides:
    """Two designs, and whether their inputs and outputs are paired by name."""

    first: Side
    second: Side
    by_name: bool

    def claims(self) -> List[Assertion]:
        """What is said by the bad states of the miter, one after another."""
        names, assumed = self.first.compared(), self.second.assumed()
        pairs = [Pair(name, self.first.called, at) for at, name in enumerate(names)]
        count = len(pairs)
        return pairs + [Assumption(name, self.second.called, count + at) for at, name in enumerate(assumed)]

    def other_name(self) -> Optional[Tuple[str, str]]:
        """The first two that are paired by their places while their symbols differ."""
        first, second = self.first.symbols_compared(), self.second.symbols_compared()
        both = ((first[at], second[at]) for at in sorted(first.keys() & second.keys()))
        return None if self.by_name else next((pair for pair in both if pair[0] != pair[1]), None)


def in_order_of(first: Side, second: Side) -> Side:
    """The second with inputs and what is compared in the order in which the first one names them. Where names do not
    fit it stays as it is, since aiger says why."""
    circuit, outputs = second.circuit, len(first.circuit.outputs)
    named, literals = second.symbols_compared(), [*circuit.outputs, *circuit.bad]
    inputs = places_by_name(first.symbols("i"), second.symbols("i"), len(circuit.inputs))
    order = places_by_name(first.symbols_compared(), named, len(literals))
    if inputs is None or order is None:
        return second
    symbols = [(it.kind, it.position, it.name) for it in circuit.symbols if it.kind not in "iob"]
    names = [("i", at, second.symbols("i")[old]) for at, old in enumerate(inputs)]
    names += [(*(("o", at) if at < outputs else ("b", at - outputs)), named[old]) for at, old in enumerate(order)]
    made = aigtools().Circuit(
        max_var=circuit.max_var,
        inputs=[circuit.inputs[at] for at in inputs],
        latches=circuit.latches,
        outputs=[literals[at] for at in order[:outputs]],
        bad=[literals[at] for at in order[outputs:]],
        constraints=circuit.constraints,
        gates=circuit.gates,
        symbols=symbols + [(kind, at, name.encode(errors="surrogateescape")) for kind, at, name in names],
    )
    second.path.write_bytes(made.write())
    return Side(second.called, second.path, aigtools().read(second.path.read_bytes()))


def places_by_name(first: Dict[int, str], second: Dict[int, str], count: int) -> Optional[List[int]]:
    """Where the second has each name of the first, if both have the same names, a different one at each place."""
    places = {name: at for at, name in second.items()}
    fits = len(first) == len(places) == count and set(first.values()) == set(places)
    return [places[first[at]] for at in range(count)] if fits else None
