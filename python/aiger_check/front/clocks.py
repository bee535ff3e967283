"""By what a design is clocked."""

import re
from typing import Any, Dict, Iterator, List, Optional, Sequence, Set, Tuple

from aiger_check.faults import Trouble, visible
from aiger_check.front.yosys import bare

REGISTERS = {"$dff", "$dffe", "$adff", "$adffe", "$aldff", "$aldffe", "$dffsr", "$dffsre", "$sdff", "$sdffe", "$sdffce"}
ASYNCHRONOUS = re.compile(r"\$(?:adffe?|aldffe?|dffsre?)|\$_(?:DFFE?_[NP][NP][01][NP]?_|ALDFFE?_.*|DFFSRE?_.*)")
REGISTER_GATE = re.compile(r"\$_(?:DFF|DFFE|SDFF|SDFFE|SDFFCE|ALDFF|ALDFFE|DFFSR|DFFSRE)_([NP]).*")
LATCH = re.compile(r"\$(?:a?dlatch|dlatchsr|sr)|\$_(?:DLATCH|DLATCHSR|SR)_.*")


class Clocks:
    """By what the registers of a flat design are clocked, and whether its steps can be those of one clock."""

    def __init__(self, module: Dict[str, Any]) -> None:
        self.module = module
        self.edges: Set[Tuple[Any, bool]] = set()
        self.data: Set[Any] = set()
        self.latches = self.free = self.asynchronous = False
        for cell in module["cells"].values():
            self.look_at(cell)

    def look_at(self, cell: Dict[str, Any]) -> None:
        kind, bits_of, clock_ports = cell["type"], cell["connections"], set()
        gate = REGISTER_GATE.fullmatch(kind)
        if kind in REGISTERS:
            clock_ports = {"CLK"}
            self.edges.update((bit, cell["parameters"]["CLK_POLARITY"][-1:] == "1") for bit in bits_of["CLK"])
        elif gate:
            clock_ports = {"C"}
            self.edges.update((bit, gate[1] == "P") for bit in bits_of["C"])
        elif kind.startswith("$mem"):
            clock_ports = {"WR_CLK", "RD_CLK"}
            self.look_at_memory(cell)
        self.free = self.free or kind in ("$ff", "$_FF_")
        self.latches = self.latches or bool(LATCH.fullmatch(kind))
        self.asynchronous = self.asynchronous or bool(ASYNCHRONOUS.fullmatch(kind))
        for port, bits in bits_of.items():
            if port not in clock_ports and cell.get("port_directions", {}).get(port) != "output":
                self.data.update(bits)

    def look_at_memory(self, cell: Dict[str, Any]) -> None:
        for port in ("WR", "RD"):
            names = (f"{port}_CLK_ENABLE", f"{port}_CLK_POLARITY")
            enabled, rising = (cell["parameters"].get(name, "")[::-1] for name in names)
            for bit, is_enabled, rises in zip(cell["connections"].get(f"{port}_CLK", []), enabled, rising):
                if is_enabled == "1":
                    self.edges.add((bit, rises == "1"))

    def name(self, bit: Any) -> str:
        """The shortest name of a bit."""
        names = []
        for name, net in self.module["netnames"].items():
            if bit in net["bits"] and not net.get("hide_name"):
                names.append(bare(name) if len(net["bits"]) == 1 else f"{bare(name)}[{net['bits'].index(bit)}]")
        return min(names, key=lambda name: (name.count("."), len(name), name), default="a constant or an inner net")

    def port(self) -> Optional[str]:
        """The input that is the clock, by itself."""
        ports = self.module["ports"].items()
        clocks = [[bit] for bit, _ in self.edges]
        return next((name for name, port in ports if port["direction"] == "input" and port["bits"] in clocks), None)

    def inputs(self) -> List[str]:
        """The bits of inputs that are clocks."""
        clocks, ports = {bit for bit, _ in self.edges}, self.module["ports"]
        bits = [bit for port in ports.values() for bit in port["bits"]]
        return [name for (_, _, name), bit in zip(port_bits(ports), bits) if bit in clocks]

    def refuse_others(self, named: Sequence[str]) -> None:
        """Refuses a clock that is none of the inputs that are meant to be."""
        ports, offered = self.module["ports"], ", ".join(named)
        inputs = {name for direction, _, name in port_bits(ports) if direction == "input"}
        missing = next((it for it in named if it not in inputs and it not in ports), None)
        if missing is not None:
            raise Trouble(visible(f"--clock {missing}: the design has no such input"))
        allowed = {bit for name in named for bit in self.bits_of(name)}
        other = sorted({self.name(bit) for bit, _ in self.edges if bit not in allowed})
        if other:
            raise Trouble(visible(f"{', '.join(other)} is a clock too, beside what --clock names ({offered})"))

    def bits_of(self, name: str) -> List[Any]:
        """The bits of an input, or of one bit of it."""
        ports = self.module["ports"]
        bits = [bit for port in ports.values() for bit in port["bits"]]
        return [bit for (_, _, one), bit in zip(port_bits(ports), bits) if name == one or one.startswith(f"{name}[")]

    def reason(self) -> Optional[str]:
        """Why the steps are not those of one clock."""
        bits = {bit for bit, _ in self.edges}
        names = ", ".join(sorted({self.name(bit) for bit in bits}))
        inputs = {bit for port in self.module["ports"].values() if port["direction"] == "input" for bit in port["bits"]}
        if self.latches:
            return "there are latches"
        if self.free:
            return f"the global clock is used beside {names}" if bits else "the global clock is used"
        if len(bits) > 1:
            return f"there are several clocks ({names})"
        if len(self.edges) > 1:
            return f"both edges of {names} are used"
        if not all(rising for _, rising in self.edges):
            return f"the falling edge of {names} is used"
        if bits & self.data:
            return f"the clock {names} is used as data"
        if bits - inputs:
            return f"the clock {names} is no input"
        return None


def port_bits(ports: Dict[str, Any]) -> Iterator[Tuple[str, str, str]]:
    """Of each bit of a port its direction, the symbol that Yosys writes for it, and the name that it has in Verilog."""
    for name, port in ports.items():
        width = len(port["bits"])
        for at in range(width):
            index = port.get("offset", 0) + (width - 1 - at if port.get("upto") else at)
            one = width == 1
            yield port["direction"], name if one else f"{name}[{at}]", name if one else f"{name}[{index}]"
