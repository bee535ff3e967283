"""A netlist of ghdl's, written in Verilog that Yosys takes. ghdl's own Verilog is not used: that of 2.0 forgets signs,
the last branch of a case, and first values of registers with an asynchronous reset."""

import re
from typing import Callable, Dict, List, NamedTuple, Optional, Set, Tuple

from aiger_check.faults import visible
from aiger_check.front.vhdl.logic import EDGES, Logic, Place, shown
from aiger_check.front.vhdl.memories import memory_lines
from aiger_check.front.vhdl.netlist import (
    Constants,
    Gate,
    Module,
    Net,
    NotKnown,
    Port,
    constant,
    drivers_of,
    readers_of,
    used,
)
from aiger_check.front.vhdl.words import KEYWORDS

#: a line of the Verilog, and the VHDL that it comes of where that may be asked for
Line = Tuple[str, Optional[Place]]
#: how nets are called to which the user gave no name
OWN = "aiger_check_n"
ANY = "aiger_check_any"
SIGNALS = ("$signal", "$isignal", "$output", "$ioutput", "$port", "$nop")
PROPERTIES = {"$assert": "assert", "$assume": "assume", "$cover": "cover"}
REGISTERS = ("$dff", "$idff", "$adff", "$iadff")
#: what stands in a place of its own, or says nothing
SILENT = (*EDGES, "$assert_cover")


class Written(NamedTuple):
    """A design in Verilog: its text, and of each line with a property or a signal the VHDL that it comes of."""

    text: str
    origins: Dict[int, Place]
    #: whether a directive of PSL is there, which counts at the edges of a clock of its own
    has_psl: bool


def verilog_of(modules: Dict[str, Module], top: str, called: str, word_at: Callable[[Place], str]) -> Written:
    """The modules below the top, which gets a name. Of a place one tells the word of VHDL that stands there."""
    lines: List[str] = []
    origins: Dict[int, Place] = {}
    has_psl = False
    for module in used(modules, top):
        writer = Writer(module, modules, called if module.name == top else module.name, word_at)
        for text, place in writer.all():
            lines.append(text)
            if place:
                origins[len(lines)] = place
        has_psl = has_psl or writer.has_psl
    return Written("".join(f"{it}\n" for it in lines), origins, has_psl)


def spelled(name: str) -> str:
    """A name as a word of Verilog. No name of VHDL ends with an underscore."""
    return f"{name}_" if name in KEYWORDS else escaped(name)


def escaped(name: str) -> str:
    return name if re.fullmatch(r"[A-Za-z_]\w*", name, re.A) and name not in KEYWORDS else f"\\{name} "


def ranged(width: int) -> str:
    return f"[{width - 1}:0] " if width > 1 else ""


class Writer(Logic):
    """Writes one module. Nothing of it is left out: a gate that is not known is refused."""

    def __init__(
        self, module: Module, modules: Dict[str, Module], called: str, word_at: Callable[[Place], str]
    ) -> None:
        super().__init__(drivers_of(module), word_at)
        self.module, self.modules, self.called = module, modules, called
        self.readers, self.constants = readers_of(module), Constants(self.drivers)
        self.taken: Set[str] = {it.name for it in (*module.inputs, *module.outputs)}
        self.heads: List[Line] = []
        self.lines: List[Line] = []
        self.has_psl = False

    def all(self) -> List[Line]:
        ports = [("input", it) for it in self.module.inputs] + [("output", it) for it in self.module.outputs]
        listed = ", ".join(spelled(it.name) for _, it in ports)
        declared = [f"  {kind} {ranged(it.width)}{spelled(it.name)};" for kind, it in ports]
        if self.module.ports is None:
            head = f"(* blackbox *) module {escaped(self.called)} ({listed});"
        else:
            head = f"module {escaped(self.called)} ({listed});"
            self.name_all(self.module.ports)
            for gate in self.module.gates:
                self.gate(gate)
            for port in self.module.outputs:
                self.put(f"  assign {spelled(port.name)} = {self.net(self.driven(port))};")
        above: List[Line] = [(text, None) for text in (head, *declared)]
        return [*above, *self.heads, *self.lines, ("endmodule", None), ("", None)]

    def driven(self, port: Port) -> Net:
        """What drives an output of the module."""
        ports = self.module.ports
        if ports is None or port.name not in ports.inputs:
            raise NotKnown(f"port {visible(port.name)} has a form that ghdl does not tell")
        return ports.inputs[port.name]

    def put(self, text: str, place: Optional[Place] = None) -> None:
        self.lines.append((text, place))

    def unique(self, name: str) -> str:
        """A name like this that nothing else has."""
        made, count = name, 1
        while made in self.taken:
            count += 1
            made = f"{name}_{count}"
        self.taken.add(made)
        return made

    def name_all(self, ports: Gate) -> None:
        """Gives each net a name: those of the user first."""
        self.names.update((net.number, spelled(name)) for name, net in ports.outputs.items())
        for gate in self.module.gates:
            if gate.kind in SIGNALS and gate.is_named:
                name = self.unique("_".join(gate.path))
                self.declare(gate.output(), name)
        for gate in self.module.gates:
            bits = constant(gate) if gate.outputs else None
            if bits is not None:
                self.name_constant(gate.output(), bits)
                continue
            for net in gate.outputs.values():
                if net.number not in self.names and gate.kind not in (*EDGES, *MEMORY):
                    self.declare(net, f"{OWN}{net.number}")
            if gate.kind in MEMORY and "$data" in gate.outputs:
                self.declare(gate.outputs["$data"], f"{OWN}{gate.outputs['$data'].number}")

    def declare(self, net: Net, name: str) -> None:
        kind = "reg" if self.is_register(self.drivers[net.number]) else "wire"
        driver = self.drivers[net.number]
        place = driver.place if driver.place[1] and driver.is_named else None
        self.heads.append((f"  {kind} {ranged(net.width)}{spelled(name)};", place))
        self.names[net.number] = spelled(name)

    @staticmethod
    def is_register(gate: Gate) -> bool:
        return gate.kind in REGISTERS or gate.kind == "$mem_rd_sync"

    def name_constant(self, net: Net, bits: str) -> None:
        """A constant. What it leaves open may be anything in each step."""
        if "x" not in bits:
            self.names[net.number] = f"{net.width}'b{bits}"
            return
        free = f"{ANY}{net.number}"
        self.heads.append((f"  (* anyseq *) wire {ranged(bits.count('x'))}{free};", None))
        if set(bits) == {"x"}:
            self.names[net.number] = free
            return
        parts, at = [], bits.count("x")
        for bit in bits:
            at -= bit == "x"
            parts.append(f"1'b{bit}" if bit != "x" else f"{free}[{at}]" if bits.count("x") > 1 else free)
        self.names[net.number] = f"{{{', '.join(parts)}}}"

    def gate(self, gate: Gate) -> None:
        if gate.outputs and constant(gate) is not None or gate.kind in SILENT:
            return
        if gate.kind in PROPERTIES:
            self.property(gate)
        elif gate.kind in REGISTERS:
            self.register(gate)
        elif gate.kind in ("$memory", "$memory_init"):
            for text in memory_lines(self, gate):
                self.put(text)
        elif gate.kind in self.modules:
            self.instance(gate)
        elif gate.kind not in MEMORY:
            self.logic(gate)

    def logic(self, gate: Gate) -> None:
        """A gate whose output depends on nothing but its inputs."""
        if gate.kind in SIGNALS and self.is_open(gate.inputs["$i"]):
            # nobody drives it
            return
        text = self.expression(gate)
        if text is None:
            instead = INSTEAD.get(gate.kind, "ghdl made this of the design, and aiger-check does not know it")
            raise NotKnown(f"{shown(gate)}{gate.kind[1:]}: {instead}")
        self.put(f"  assign {self.net(gate.output())} = {text};")

    def is_open(self, net: Net) -> bool:
        driver = self.drivers.get(net.number)
        bits = constant(driver) if driver and driver.outputs else None
        return bits is not None and set(bits) == {"x"}

    def edge(self, net: Net) -> Tuple[str, str]:
        """Of a clock its edge, and its name."""
        gate = self.drivers.get(net.number)
        if gate is None or gate.kind not in EDGES:
            raise NotKnown(f"{shown(gate) if gate else ''}a clock is not taken that is no edge of one signal")
        return gate.kind[1:], self.net(gate.inputs["$i"])

    def register(self, gate: Gate) -> None:
        if self.is_of_assertion(gate):
            return
        edge, clock = self.edge(gate.inputs["$clk"])
        made, given = self.net(gate.outputs["$q"]), self.net(gate.inputs["$d"])
        self.put_first(gate)
        if "$rst" in gate.inputs:
            reset, value = self.net(gate.inputs["$rst"]), self.net(gate.inputs["$rst_val"])
            self.put(f"  always @({edge} {clock} or posedge {reset})")
            self.put(f"    if ({reset}) {made} <= {value}; else {made} <= {given};")
        else:
            self.put(f"  always @({edge} {clock}) {made} <= {given};")

    def put_first(self, gate: Gate) -> None:
        """The first value of a register, bit by bit where it has one."""
        if "$init" not in gate.inputs:
            return
        bits, made = self.constants.bits(gate.inputs["$init"]), self.net(gate.outputs["$q"])
        if bits is None:
            raise NotKnown(f"{shown(gate)}a register has a first value that is no constant")
        if "x" not in bits:
            self.put(f"  initial {made} = {len(bits)}'b{bits};")
            return
        for at, bit in enumerate(reversed(bits)):
            if bit != "x":
                self.put(f"  initial {made}{f'[{at}]' if len(bits) > 1 else ''} = 1'b{bit};")

    def is_of_assertion(self, gate: Gate) -> bool:
        """Whether a register keeps an assertion of a process for a step, which such an assertion in Verilog does
        too."""
        net = gate.outputs["$q"]
        is_read = [it for it in self.module.gates if it.kind in PROPERTIES and it.inputs["$cond"] == net]
        is_plain = gate.kind == "$idff" and self.constants.bits(gate.inputs["$init"]) == "1"
        return is_plain and len(is_read) == 1 and self.readers[net.number] == 1

    def property(self, gate: Gate) -> None:
        word, cond = PROPERTIES[gate.kind], gate.inputs["$cond"]
        label = self.label(gate)
        driver = self.drivers.get(cond.number)
        if driver and driver.kind in REGISTERS and self.is_of_assertion(driver):
            edge, clock = self.edge(driver.inputs["$clk"])
            self.put(f"  always @({edge} {clock}) {label}{word} ({self.net(driver.inputs['$d'])});", gate.place)
            return
        if gate.kind != "$assert" or self.is_psl(gate):
            self.has_psl = True
        self.put(f"  always @* {label}{word} ({self.net(cond)});", gate.place)

    def is_psl(self, gate: Gate) -> bool:
        """Whether a register with the states of a property stands at its place."""
        return any(it.kind in REGISTERS and it.place == gate.place for it in self.module.gates)

    def label(self, gate: Gate) -> str:
        """Its label: Yosys takes none that is escaped."""
        name = re.sub(r"\W", "_", "_".join(gate.path), flags=re.A)
        return f"{spelled(self.unique(name))}: " if gate.is_named else ""

    def instance(self, gate: Gate) -> None:
        module = self.modules[gate.kind]
        pins = []
        for port in (*module.inputs, *module.outputs):
            net = gate.inputs.get(port.name) or gate.outputs.get(port.name)
            self.need(gate, net is not None and net.width == port.width)
            if net:
                pins.append(f".{spelled(port.name)}({self.net(net)})")
        self.need(gate, len(pins) == len(gate.inputs) + len(gate.outputs))
        name = self.unique("_".join(gate.path) or f"{OWN}instance")
        self.put(f"  {escaped(gate.kind)} {spelled(name)} ({', '.join(pins)});")


MEMORY = ("$memory", "$memory_init", "$mem_rd", "$mem_rd_sync", "$mem_wr_sync")
TRI = "a port that is driven both ways, or by several: aiger-check follows no high impedance"
LATCHES = "registers by two edges are not taken"
INSTEAD = {
    "$inout": TRI,
    "$iinout": TRI,
    "$tri": TRI,
    "$resolver": TRI,
    "$mdff": LATCHES,
    "$midff": LATCHES,
}
