"""Verilog designs that are compared."""

from typing import Any, Dict, List, Optional, Sequence, Set, Tuple

from aiger_check.faults import Trouble, visible
from aiger_check.front.clocks import port_bits
from aiger_check.front.translation import Front
from aiger_check.front.yosys import Yosys
from aiger_check.model.circuit import named_by_symbols
from aiger_check.tools.aiger import aigtools


class Ports(Front):
    """A Verilog design that is compared with another one: its outputs, and the assertions that both have."""

    def __init__(self, yosys: Yosys, top: str, called: str, clocks: Sequence[str] = ()) -> None:
        super().__init__(yosys, top, True, clocks)
        self.called = called

    def left_out(self, kinds: Set[str]) -> Sequence[str]:
        return ("$cover", "$live", "$fair")

    def read_model(self) -> None:
        """Reads the model that was written, and names what it has."""
        bad, assumed = self.positions("$assert", "$assume")
        self.circuit = aigtools().read((self.sources.folder / "model.aig").read_bytes())
        self.inputs = self.told("input", "i", self.circuit.inputs)
        self.outputs = self.told("output", "o", self.circuit.outputs)
        self.asserted = self.placed("$assert", bad)
        self.assumed = self.placed("$assume", assumed)

    def told(self, direction: str, kind: str, literals: Sequence[int]) -> List[str]:
        """The name of each input or output. What is undriven or x is an input without a name."""
        symbols: Dict[str, str] = {}
        for its, symbol, name in port_bits(self.ports):
            if its in (direction, "inout"):
                if symbol in symbols:
                    raise Trouble(f"{visible(self.called)}: which {direction} is {visible(symbol)} cannot be told")
                symbols[symbol] = name
        found = named_by_symbols(self.circuit, kind)
        names = [symbols.get(found[at], "") if at in found else "" for at in range(len(literals))]
        if sorted(filter(None, names)) != sorted(symbols.values()) or len(found) != len(symbols):
            raise Trouble(f"{visible(self.called)}: which {direction} is which cannot be told")
        return names

    def placed(self, kind: str, positions: Dict[str, int]) -> List[Tuple[str, int]]:
        """Its properties of a kind, by name and position."""
        asked = self.sorted([it for it in self.properties if it.kind == kind])
        if sorted(positions) != sorted(it.cell for it in asked):
            raise Trouble(f"{visible(self.called)}: which {kind[1:]} is which cannot be told")
        return [(it.name, positions[it.cell]) for it in asked]

    def named(self, direction: str) -> List[str]:
        """The names of its inputs or outputs, as they are declared."""
        return [name for its, _, name in port_bits(self.ports) if its in (direction, "inout")]

    def undriven(self) -> List[int]:
        return [literal for name, literal in zip(self.inputs, self.circuit.inputs) if not name]

    def unset(self) -> List[Tuple[int, Set[str]]]:
        """The latches without initial value, each with its names."""
        names = named_by_symbols(self.circuit, "l")
        latches = enumerate(self.circuit.latches)
        return [(at, set(names.get(at, "").split())) for at, latch in latches if latch.reset > 1]

    def arranged(self, inputs: List[str], undriven: int, start: List[int], outputs: List[str], bad: List[str]) -> Any:
        """Its model with these inputs, then so many of what is undriven; these latches before others; these outputs;
        and these assertions as bad states."""
        circuit, own, asserted = self.circuit, dict(zip(self.inputs, self.circuit.inputs)), dict(self.asserted)
        free = self.undriven()
        spare = [2 * (circuit.max_var + 1 + at) for at in range(undriven - len(free))]
        compared, latches, first = dict(zip(self.outputs, circuit.outputs)), list(circuit.latches), set(start)
        order = start + [at for at in range(len(latches)) if at not in first]
        symbols = [("i", at, name) for at, name in enumerate([*inputs, *(f"undriven {at}" for at in range(undriven))])]
        symbols += [("o", at, name) for at, name in enumerate(outputs)]
        symbols += [("b", at, f"assertion {name}") for at, name in enumerate(bad)]
        symbols += [("c", at, name) for at, (name, _) in enumerate(self.assumed)]
        places = {at: new for new, at in enumerate(order)}
        held = [("l", places[it.position], it.name) for it in circuit.symbols if it.kind == "l"]
        return aigtools().Circuit(
            max_var=circuit.max_var + len(spare),
            inputs=[*(own[name] for name in inputs), *free, *spare],
            latches=[latches[at] for at in order],
            outputs=[compared[name] for name in outputs],
            bad=[circuit.bad[asserted[name]] for name in bad],
            constraints=[circuit.constraints[position] for _, position in self.assumed],
            gates=circuit.gates,
            symbols=held + [(kind, at, name.encode(errors="surrogateescape")) for kind, at, name in symbols],
        )


class TwoPorts:
    """Two Verilog designs, whose ports, assertions and registers are paired by name."""

    def __init__(self, first: Ports, second: Ports) -> None:
        self.first, self.second = first, second
        self.notes: List[str] = []

    def reason(self) -> Optional[str]:
        """Why the steps of both are not those of one clock."""
        one, other = self.first, self.second
        if not one.reason and not other.reason and one.clocks and other.clocks and one.clocks != other.clocks:
            return f"the clocks are {', '.join(one.clocks)} and {', '.join(other.clocks)}"
        return one.reason or other.reason

    def models(self) -> List[Any]:
        """The models of both, with what is paired at one place."""
        first, second = self.first, self.second
        for direction in ("input", "output"):
            self.need_same(direction)
        bad = self.assertions()
        undriven = [len(it.undriven()) for it in (first, second)]
        if any(undriven):
            counts = f"{undriven[0]} of {visible(first.called)} and {undriven[1]} of {visible(second.called)}"
            self.notes.append(f"what is undriven, x or z ({counts}) is paired in the order of Yosys")
        starts = self.starts()
        inputs, outputs = first.named("input"), first.named("output")
        return [it.arranged(inputs, max(undriven), start, outputs, bad) for it, start in zip((first, second), starts)]

    def need_same(self, direction: str) -> None:
        """Both have the same inputs, or outputs."""
        for one, other in ((self.first, self.second), (self.second, self.first)):
            there = set(other.named(direction))
            missing = [name for name in one.named(direction) if name not in there]
            if missing:
                more = ", .." if len(missing) > 3 else ""
                names = f"{', '.join(missing[:3])}{more}"
                raise Trouble(visible(f"{other.called} has no {direction} {names}, as {one.called} has"))

    def assertions(self) -> List[str]:
        """Those that both have, by name; others are noted."""
        asserted = [[name for name, _ in it.asserted] for it in (self.first, self.second)]
        names = [name for name in asserted[0] if all(its.count(name) == 1 for its in asserted)]
        for it, its in zip((self.first, self.second), asserted):
            for name in dict.fromkeys(its):
                if name not in names:
                    why = "is not compared: it is not one of each design"
                    self.notes.append(f"assertion {visible(name)} of {visible(it.called)} {why}")
        return names

    def starts(self) -> List[List[int]]:
        """The latches without initial value that have a name in common, which are to start alike: these come first."""
        left, pairs = self.second.unset(), []
        for at, names in self.first.unset():
            other = next((it for it in left if it[1] & names), None)
            if other:
                left.remove(other)
                pairs.append((at, other[0]))
        alone = len(self.first.unset()) - len(pairs)
        if alone and left:
            self.notes.append(
                f"{min(alone, len(left))} bits of registers without initial value start alike in their order, since no "
                "names are the same"
            )
        return [[one for one, _ in pairs], [other for _, other in pairs]]
