"""The states of a design, and which of them depend on the order of things at one edge: those with clocks that registers
make, or that are loaded asynchronously. There a model has one order, and a simulation may have another one."""

from typing import Any, Dict, FrozenSet, Iterator, List, Mapping, NamedTuple, Sequence, Set, Tuple

from aiger_check.front.clocks import REGISTER_GATE, REGISTERS, LATCH, Clocks
from aiger_check.front.cones import Bit

LOADED = ("$aldff", "$aldffe", "$dffsr", "$dffsre")
#: the value of an operand that decides a gate
DECIDED = {"$and": "0", "$logic_and": "0", "$or": "1", "$logic_or": "1"}
#: an input, and the level that it has behind its edge
Edge = Tuple[Bit, str]


class State(NamedTuple):
    """A register, a latch or a memory of a flat module: its clocks and edges, what it takes, and what it shows."""

    name: str
    kind: str
    clocks: FrozenSet[Edge]
    takes: List[Bit]
    shows: List[Bit]

    @property
    def is_latch(self) -> bool:
        return bool(LATCH.fullmatch(self.kind))


def state_of(name: str, cell: Mapping[str, Any], read: Mapping[str, List[Bit]]) -> State:
    """A cell as a state, by what is read of each memory; what is none has no clock and shows nothing."""
    kind, bits, its = cell["type"], cell["connections"], cell["parameters"]
    if kind in ("$mem_v2", "$memwr_v2"):
        of = "WR_" if kind == "$mem_v2" else ""
        clocks = frozenset(zip(bits[f"{of}CLK"], its[f"{of}CLK_POLARITY"][::-1]))
        takes = [bit for port in ("ADDR", "DATA", "EN") for bit in bits[of + port]]
        return State(name, kind, clocks, takes, read[its["MEMID"]])
    gate, latch = REGISTER_GATE.fullmatch(kind), LATCH.fullmatch(kind)
    if not (kind in REGISTERS or gate or latch and "Q" in bits):
        return State(name, kind, frozenset(), [], [])
    port = next((it for it in ("CLK", "C", "EN", "E") if it in bits), "")
    level = its.get("CLK_POLARITY", its.get("EN_POLARITY", "1"))[-1:] if not gate else "01"[gate[1] == "P"]
    takes = [bit for it, ends in bits.items() if it not in (port, "Q") for bit in ends]
    return State(name, kind, frozenset((bit, level) for bit in bits.get(port, [])), takes, bits["Q"])


class Order:
    """The states of a flat module, and what they depend on within a step."""

    def __init__(self, module: Dict[str, Any]) -> None:
        self.module, self.clocks = module, Clocks(module)
        self.states: Dict[str, State] = {}
        self.drivers: Dict[Bit, str] = {}
        self.known: Dict[str, Set[Edge]] = {}
        #: what is read of each memory
        self.read: Dict[str, List[Bit]] = {}
        for cell in module["cells"].values():
            if cell["type"].startswith("$mem"):
                ends = cell["connections"].get("RD_DATA" if cell["type"] == "$mem_v2" else "DATA", [])
                is_read = cell["type"].startswith(("$memrd", "$mem_v2"))
                self.read.setdefault(cell["parameters"]["MEMID"], []).extend(ends if is_read else [])
        for name, cell in module["cells"].items():
            state = state_of(name, cell, self.read)
            if state.shows:
                self.states[name] = state
            for port, ends in cell["connections"].items():
                if cell.get("port_directions", {}).get(port) == "output":
                    self.drivers.update((bit, name) for bit in ends)

    def inputs(self, name: str) -> List[Bit]:
        """What a cell depends on within a step."""
        cell, state = self.module["cells"][name], self.states.get(name)
        if state:
            return list(cell["connections"]["RD_ADDR"]) if state.kind == "$mem_v2" else []
        directions = cell.get("port_directions", {})
        return [bit for port, ends in cell["connections"].items() if directions.get(port) != "output" for bit in ends]

    def sources(self, bits: Sequence[Bit]) -> Tuple[Set[str], Set[Bit]]:
        """The states on which bits depend within a step, and the bits that nothing of the design drives."""
        waiting, seen = list(bits), set(bits)
        states: Set[str] = set()
        free: Set[Bit] = set()
        while waiting:
            bit = waiting.pop()
            name = self.drivers.get(bit)
            if name is None:
                free.update([bit] * (not isinstance(bit, str)))
                continue
            states.update([name] * (name in self.states))
            more = set(self.inputs(name)) - seen
            seen |= more
            waiting += more
        return states, free

    def edges(self, name: str) -> Set[Edge]:
        """The edges of inputs at which a state may change."""
        if name not in self.known:
            # a state may clock itself
            self.known[name] = set()
            state, found = self.states[name], set()  # type: State, Set[Edge]
            for bit, level in state.clocks:
                states, free = self.sources([bit])
                direct = {(it, level) for it in free & {bit}} | {(it, "01"[at]) for it in free - {bit} for at in (0, 1)}
                found |= direct.union(*(self.edges(it) for it in states))
            if state.is_latch:
                closing = {(bit, "10"[int(level)]) for bit, level in found if (bit, "10"[int(level)]) not in found}
                found |= set().union(*(self.edges(it) for it in self.sources(state.takes)[0])) - closing
            self.known[name] = found
        return self.known[name]

    def value(self, bit: Bit, given: Edge, depth: int = 0) -> str:
        """What a bit is where an input has this level, if that decides."""
        if isinstance(bit, str) or bit == given[0]:
            return bit if isinstance(bit, str) else given[1]
        name = self.drivers.get(bit, "")
        cell = self.module["cells"].get(name, {"type": ""})
        kind = cell["type"]
        if depth > 30 or kind not in (*DECIDED, "$not", "$logic_not", "$mux", "$pos"):
            return "x"
        ends = cell["connections"]
        if kind.startswith("$logic") and max(len(ends[port]) for port in ("A", "B") if port in ends) > 1:
            return "x"
        at = ends["Y"].index(bit)
        first, *others = (
            self.value(ends[port][at], given, depth + 1) if at < len(ends[port]) else "x"
            for port in ("A", "B", "S")
            if port in ends
        )
        if kind in DECIDED:
            by = DECIDED[kind]
            return by if by in (first, *others) else first if first == others[0] else "x"
        if kind == "$mux":
            chosen = {"0": first, "1": others[0]}.get(self.value(ends["S"][0], given, depth + 1), "x")
            return first if first == others[0] else chosen
        return first if kind == "$pos" else {"0": "1", "1": "0"}.get(first, "x")

    def changing(self, bit: Bit) -> Set[str]:
        """The states whose changes a clock shows."""
        found = set()
        for name in self.sources([bit])[0]:
            if not all(self.value(bit, edge) in "01" for edge in self.edges(name)):
                found.add(name)
        return found

    def derived(self) -> Iterator[Tuple[str, State]]:
        """The states that take what changes with their clock, each with why."""
        ports = self.module["ports"].values()
        inputs = {bit for port in ports if port["direction"] != "output" for bit in port["bits"]}
        causes = {bit: self.changing(bit) for it in self.states.values() for bit, _ in it.clocks if bit not in inputs}
        for state in self.states.values():
            for bit, level in state.clocks if not state.is_latch else ():
                edges = set().union(*(self.edges(it) for it in causes.get(bit, ())))
                clock = self.clocks.name(bit)
                if {one for one, _ in edges} & self.sources([bit])[1]:
                    yield f"the clock {clock} is gated by a register that changes at the same edge", state
                    continue
                for name in sorted(self.sources(state.takes)[0] if edges else ()):
                    other = self.states[name]
                    if (bit, level) not in other.clocks and self.edges(name) & edges:
                        shown = self.clocks.name(other.shows[0])
                        yield f"{shown} changes with the clock {clock}, at which another register takes it", state
                        break

    def loaded(self) -> Iterator[Tuple[str, State]]:
        """The registers that Yosys has follow what they are loaded with, or be set again at the end of a reset."""
        for state in self.states.values():
            if state.kind in LOADED:
                shown = self.clocks.name(state.shows[0])
                why = "is set or loaded asynchronously by more than a reset, which a simulation sees at edges"
                yield f"{shown} {why}", state
