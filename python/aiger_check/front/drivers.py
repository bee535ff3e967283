"""Nets with several drivers, of which Yosys tells where none is a constant."""

import re
from typing import Any, Dict, Iterator, List, NamedTuple, Optional, Set, Tuple

from aiger_check.front.yosys import bare, in_netlist

SIGNAL = re.compile(r"(?P<name>[\\$]\S+)(?: \[(?P<last>\d+)(?::(?P<first>\d+))?\])?|(?P<constant>-?\d\S*|\")|[{}]")
LINE = re.compile(
    r"module (?P<module>\S+)|  wire (?P<wire>.*)|  cell \S+ (?P<cell>\S+)|  (?P<process>process) .*|  connect (?P<net>.*)"
    r"|    connect (?P<port>\S+) (?P<ends>.*)|    sync (?P<sync>\S+).*|      update (?P<update>.*)"
    r"|      memwr (?P<memory>\S+) .*"
)


class Net:
    """The bits of a net, by how many each is driven, and which have a first value, which is no driver of a register."""

    def __init__(self, words: str) -> None:
        *options, self.name = words.split(" ")
        width = int(options[options.index("width") + 1]) if "width" in options else 1
        self.drivers = [int("input" in options)] * width
        #: drivers that are no process
        self.steady = list(self.drivers)
        self.begun: Set[int] = set()

    def bits(self, first: Optional[str], last: Optional[str]) -> range:
        return range(len(self.drivers)) if last is None else range(int(first or last), int(last) + 1)

    def is_several(self) -> bool:
        return max(self.drivers, default=0) > 1 or any(self.steady[bit] for bit in self.begun)

    def is_of_processes(self) -> bool:
        """Whether processes alone drive it, as the variable of several loops, which counts where it is read."""
        return not any(self.steady)


def is_read(name: str, line: str) -> bool:
    """Whether a line of RTLIL reads a net, but for a process that keeps its value."""
    words = line.split()
    if name not in words or words[0] == "wire":
        return name in words and "output" in words
    keeps = words[0] == "assign" and words[1].startswith(f"$0{name}")
    return not keeps and (words[0] != "update" or name in words[2:])


class Part(NamedTuple):
    """A module: its nets, its lines, and the cells that may drive what they are connected to: their modules, ports and
    ends."""

    nets: Dict[str, Net]
    lines: List[str]
    joined: List[Tuple[str, str, str]]


class Drivers:
    """The drivers of all nets of a design in RTLIL, before its processes are cells."""

    def __init__(self, modules: Dict[str, Any], text: str) -> None:
        self.modules, self.cell, self.sync = modules, "", ""
        self.parts: Dict[str, Part] = {}
        self.begin("")
        #: the process that drives each net, by its number, and those that write each memory
        self.of_process: Dict[Tuple[str, str], int] = {}
        self.writers: Dict[Tuple[str, str], Set[int]] = {}
        self.number = 0
        #: what the process drives that is read
        self.process: Set[Tuple[str, int]] = set()
        self.found: List[Tuple[str, str]] = []
        #: nets of several processes that nobody reads, as the variables of loops
        self.unread: Set[Tuple[str, str]] = set()
        for line in text.split("\n"):
            match = LINE.fullmatch(line)
            if match:
                self.take(match.lastgroup or "", match)
            self.lines.append(line)
        self.end_process()
        settled: Set[str] = set()
        for module, part in self.parts.items():
            self.settle(module, settled)
            self.judge(module, part)

    def begin(self, module: str) -> None:
        """Begins a module."""
        self.module, self.part = module, Part({}, [], [])
        self.nets, self.lines, self.joined = self.part
        self.parts[module] = self.part

    def take(self, kind: str, line: Any) -> None:
        """Takes a line of RTLIL."""
        if kind == "module":
            self.end_process()
            self.begin(in_netlist(line["module"]))
        elif kind == "wire":
            net = Net(line["wire"])
            self.nets[net.name] = net
        elif kind == "cell":
            self.cell = in_netlist(line["cell"])
        elif kind == "process":
            self.end_process()
            self.number += 1
        elif kind == "memory":
            self.writers.setdefault((self.module, line["memory"]), set()).add(self.number)
        elif kind == "sync":
            self.sync = line["sync"]
        elif kind == "update":
            self.update(line["update"])
        elif kind == "net":
            self.connect(line["net"])
        else:
            self.connect_port(line["port"], line["ends"])

    def connect_port(self, port: str, ends: str) -> None:
        """Counts what a cell drives; of a port both ways that is known once its module is."""
        cell = self.modules[self.module]["cells"].get(self.cell, {})
        direction = cell.get("port_directions", {}).get(in_netlist(port))
        if direction == "output":
            self.connect(ends)
        elif direction == "inout":
            self.joined.append((cell["type"], port, ends))

    def settle(self, module: str, settled: Set[str]) -> None:
        """Counts what the ports both ways of a module's instances drive."""
        if module in settled:
            return
        settled.add(module)
        nets = self.parts[module].nets
        for inner, port, ends in self.parts[module].joined:
            if inner in self.parts:
                self.settle(inner, settled)
                driven = self.parts[inner].nets[port].drivers
                for (name, bit), count in zip(from_right(nets, ends), driven):
                    if name and count:
                        nets[name].drivers[bit] += 1
                        nets[name].steady[bit] += 1

    def judge(self, module: str, part: Part) -> None:
        """Takes what is driven twice in a module."""
        for name, net in part.nets.items():
            if name[0] == "\\" and net.is_several():
                is_unread = net.is_of_processes() and not any(is_read(name, it) for it in part.lines)
                its = (module, in_netlist(name))
                self.unread.update([its] * is_unread)
                self.found += [its] * (not is_unread)

    def end_process(self) -> None:
        for name, bit in self.process:
            self.nets[name].drivers[bit] += 1
        self.process = set()

    def update(self, words: str) -> None:
        """Takes what a process drives, or begins with."""
        for name, bit in self.bits(words):
            if self.sync == "init":
                self.nets[name].begun.add(bit)
            else:
                self.process.add((name, bit))
                self.of_process[self.module, in_netlist(name)] = self.number

    def connect(self, words: str) -> None:
        """Counts what a connection of the module, or of an output of a cell, drives."""
        for name, bit in self.bits(words):
            self.nets[name].drivers[bit] += 1
            self.nets[name].steady[bit] += 1

    def bits(self, words: str) -> Iterator[Tuple[str, int]]:
        """The bits of the signal that comes first."""
        for signal in SIGNAL.finditer(words):
            if signal["constant"]:
                self.found.append((self.module, f"the constant at an output of {self.cell}"))
            elif signal["name"]:
                name = signal["name"]
                yield from ((name, bit) for bit in self.nets[name].bits(signal["first"], signal["last"]))
            if signal[0] == "}" or words[0] != "{":
                return

    def first(self) -> Optional[Tuple[str, str]]:
        """A net with several drivers: where it is declared, by Yosys, and its name."""
        for module, name in self.found:
            return self.declared(module, "netnames", name), bare(name)
        return None

    def declared(self, module: str, kind: str, name: str) -> str:
        """Where something is declared, by Yosys."""
        its = self.modules[module].get(kind, {}).get(name, {})
        return str(its.get("attributes", {}).get("src", "")).split("|")[0]

    def memories(self) -> Iterator[Tuple[str, str]]:
        """The memories that several processes write, likewise."""
        for (module, name), writers in self.writers.items():
            if len(writers) > 1:
                yield self.declared(module, "memories", in_netlist(name)), bare(name)


def from_right(nets: Dict[str, Net], words: str) -> Iterator[Tuple[str, int]]:
    """The bits of a signal from the right; those of a constant have no name."""
    for signal in reversed(list(SIGNAL.finditer(words))):
        name = signal["name"]
        if name:
            yield from ((name, bit) for bit in nets[name].bits(signal["first"], signal["last"]))
        elif signal["constant"]:
            yield from [("", 0)] * int(signal["constant"].partition("'")[0] or 0)
