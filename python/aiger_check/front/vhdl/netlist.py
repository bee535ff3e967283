"""What ghdl --synth --out=dump says: modules, their gates, and the nets between these."""

import re
from dataclasses import dataclass, field
from typing import Dict, Iterator, List, NamedTuple, Optional, Tuple

from aiger_check.faults import Trouble, visible


class Net(NamedTuple):
    """A net of a module: its number there, and how many bits it has."""

    number: int
    width: int


class Port(NamedTuple):
    name: str
    width: int


@dataclass
class Gate:
    """A gate, or an instance of a module: the parts of its name, its kind, and where it comes from."""

    name: str
    kind: str
    place: Tuple[str, int, int]
    parameters: List[str] = field(default_factory=list)
    inputs: Dict[str, Net] = field(default_factory=dict)
    outputs: Dict[str, Net] = field(default_factory=dict)

    def number(self, name: str) -> int:
        """The value of a parameter."""
        found = next((it for it in self.parameters if it.startswith(f"{name}=")), None)
        if found is None:
            raise NotKnown(f"{self.kind} without {name}")
        return int(found.partition("=")[2])

    def output(self) -> Net:
        return next(iter(self.outputs.values()))

    @property
    def is_named(self) -> bool:
        """Whether the user gave it a name."""
        return self.name.rpartition(".")[2].startswith("\\")

    @property
    def path(self) -> List[str]:
        """The names that the user gave on the way to it."""
        return [it[1:] for it in self.name.split(".") if it.startswith("\\")]


@dataclass
class Module:
    """A module that the user wrote, or a gate of ghdl's own."""

    name: str
    inputs: List[Port] = field(default_factory=list)
    outputs: List[Port] = field(default_factory=list)
    gates: List[Gate] = field(default_factory=list)
    #: the module as its own inside sees it: its outputs are inputs there
    ports: Optional[Gate] = None


class NotKnown(Trouble):
    """Something that ghdl may write, and that is not known here."""


HEAD = re.compile(r"  module \{m\d+\} (\S+)")
PORT = re.compile(r"    (input|output) ([\\$.\w]+)(?:\[(\d+):0\]|\[(\?)\])?;")
PLACE = re.compile(r"    # (.*):(\d+):(\d+)")
GATE = re.compile(r"    instance (\S+)\{i\d+\}: (\S+)")
INPUT = re.compile(r"      input (\S+)\{p\d+\} <- (\S+)\{n(\d+)w(\d+)\}")
OUTPUT = re.compile(r"(\S+)\{n(\d+)w(\d+)\}")
#: what says nothing that is not said elsewhere
SKIPPED = re.compile(
    r"module \{m\d+\} \$top|  (?:instance \$top|  connect ).*|    attribute (?:keep|syn_keep) of .*|    parameter .*|"
)


def modules_of(text: str) -> Dict[str, Module]:
    """The modules of a dump, by name."""
    reader = Reader()
    for line in text.split("\n"):
        reader.take(line)
    return {it.name: it for it in reader.modules if not it.name.startswith("$")}


class Reader:
    """Reads a dump line by line, and refuses each line that it does not know."""

    def __init__(self) -> None:
        self.modules: List[Module] = []
        self.gate: Optional[Gate] = None
        self.place = ("", 0, 0)

    def take(self, line: str) -> None:
        head, gate, place = HEAD.fullmatch(line), GATE.fullmatch(line), PLACE.fullmatch(line)
        if head:
            self.modules.append(Module(bare(head[1])))
            self.gate = None
        elif place:
            self.place = place[1], int(place[2]), int(place[3])
        elif gate:
            self.begin(bare(gate[2]) if gate[2][:1] == "\\" else gate[2], gate[1])
        elif line.startswith("      ") and self.gate:
            self.inside(self.gate, line)
        elif not self.port(line) and not SKIPPED.fullmatch(line):
            raise NotKnown(f"ghdl wrote a line that is not known: {visible(line.strip())}")

    def begin(self, kind: str, name: str) -> None:
        """A gate. That which is called as its module, and is of that kind, is the module seen from within."""
        module = self.modules[-1]
        self.gate = Gate(name, kind, self.place)
        self.place = ("", 0, 0)
        if kind == module.name and module.ports is None:
            module.ports = self.gate
        else:
            module.gates.append(self.gate)

    def inside(self, gate: Gate, line: str) -> None:
        entry = INPUT.fullmatch(line)
        words = line.split()
        if entry:
            gate.inputs[pin(gate, entry[1])] = Net(int(entry[3]), int(entry[4]))
        elif words[0] == "parameters":
            gate.parameters += words[1:]
        elif words[0] == "outputs" and all(map(OUTPUT.fullmatch, words[1:])):
            for name, number, width in OUTPUT.findall(line):
                gate.outputs[pin(gate, name)] = Net(int(number), int(width))
        else:
            raise NotKnown(f"ghdl wrote a line that is not known: {visible(line.strip())}")

    def port(self, line: str) -> bool:
        found = PORT.fullmatch(line)
        if not found or not self.modules:
            return False
        module = self.modules[-1]
        width = int(found[3]) + 1 if found[3] else 1
        (module.inputs if found[1] == "input" else module.outputs).append(Port(plain(found[2]), width))
        return True


def bare(name: str) -> str:
    return name[1:] if name.startswith("\\") else name


def plain(name: str) -> str:
    """A name of several parts, as that of a record has them, as one."""
    return "_".join(map(bare, name.split(".")))


def pin(gate: Gate, name: str) -> str:
    """A port of a gate, whose name stands before it."""
    if not name.startswith(f"{gate.name}."):
        raise NotKnown(f"ghdl wrote a pin that is not known: {visible(name)}")
    return plain(name[len(gate.name) + 1 :])


def constant(gate: Gate) -> Optional[str]:
    """The bits of a constant, with x where it has none, or nothing where it is no constant."""
    width = gate.output().width if gate.outputs else 0
    if gate.kind in ("$const_X", "$const_Z"):
        return "x" * width
    if gate.kind in ("$const_UB32", "$const_SB32", "$const_UL32"):
        value = gate.number("$val")
        if gate.kind == "$const_SB32" and value >> 31:
            value -= 1 << 32
        need_room(gate, value, width)
        unknown = gate.number("$xz") if gate.kind == "$const_UL32" else 0
        return bits_of(value, unknown, width)
    if gate.kind == "$const_bit":
        return bits_of(words(gate.parameters), 0, width)
    if gate.kind == "$const_log":
        return bits_of(words(gate.parameters[::2]), words(gate.parameters[1::2]), width)
    return None


def need_room(gate: Gate, value: int, width: int) -> None:
    """Refuses a number that needs more bits than it has: ghdl cuts it off, also where it is compared as a whole."""
    is_signed = gate.kind == "$const_SB32"
    low, high = (-1 << width - 1, 1 << width - 1) if is_signed else (0, 1 << width)
    if not low <= value < high and width < 32:
        place = f"{visible(gate.place[0])}:{gate.place[1]}: " if gate.place[1] else ""
        wider = "and ghdl cuts it off: write a wider operand"
        raise NotKnown(f"{place}the number {value} does not fit {width} bits, {wider}")


def words(numbers: List[str]) -> int:
    if not all(it.isdigit() for it in numbers):
        raise NotKnown(f"ghdl wrote a constant that is not known: {visible(' '.join(numbers))}")
    return sum(int(it) << (32 * at) for at, it in enumerate(numbers))


def bits_of(value: int, unknown: int, width: int) -> str:
    return "".join("x" if unknown >> at & 1 else str(value >> at & 1) for at in reversed(range(width)))


def concatenated(gate: Gate) -> List[Net]:
    return list(gate.inputs.values())


@dataclass
class Constants:
    """Which nets of a module are constants, through what only puts bits together."""

    drivers: Dict[int, Gate]

    def bits(self, net: Net) -> Optional[str]:
        gate = self.drivers.get(net.number)
        if gate is None:
            return None
        if gate.kind in ("$signal", "$nop", "$output"):
            return self.bits(gate.inputs["$i"])
        if gate.kind == "$extract":
            whole, offset = self.bits(gate.inputs["$i"]), gate.number("$offset")
            return None if whole is None else whole[len(whole) - offset - net.width : len(whole) - offset]
        if gate.kind.startswith("$concat"):
            parts = [self.bits(it) for it in concatenated(gate)]
            return "".join(map(str, parts)) if None not in parts else None
        return constant(gate)


def drivers_of(module: Module) -> Dict[int, Gate]:
    """By which gate each net is driven."""
    return {net.number: gate for gate in module.gates for net in gate.outputs.values()}


def readers_of(module: Module) -> Dict[int, int]:
    """By how many inputs each net is read."""
    found: Dict[int, int] = {}
    gates = [*module.gates, *([module.ports] if module.ports else [])]
    for net in (net for gate in gates for net in gate.inputs.values()):
        found[net.number] = found.get(net.number, 0) + 1
    return found


def used(modules: Dict[str, Module], top: str) -> Iterator[Module]:
    """The modules below the top, each once."""
    waiting, seen = [top], set()
    while waiting:
        name = waiting.pop()
        if name in seen:
            continue
        seen.add(name)
        yield modules[name]
        waiting += [gate.kind for gate in modules[name].gates if gate.kind in modules]
