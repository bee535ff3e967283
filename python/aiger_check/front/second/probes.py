"""A second model of the same translation, whose outputs are all that the user named, and each property."""

import json
import re
from dataclasses import dataclass, field
from pathlib import Path
from typing import Any, Dict, List, Optional, Sequence, Tuple

from aiger_check.front.second.faults import Unable
from aiger_check.front.translation import Front, NOT_COMPARED
from aiger_check.front.yosys import bare, top_of
from aiger_check.model.circuit import named_by_symbols
from aiger_check.tools.aiger import aigtools
from aiger_check.tools.processes import Children

#: a bit of a net, counted from the right: its name in the flat design, and its place
Place = Tuple[str, int]
#: what Yosys may take for a second model
LONGEST = 30.0
#: what the ports are called that are added
PORT = "second_port_"
#: the numbers of added ports are above those of the design's own
FIRST_PORT = 1000000
#: makes outputs of all that the user named
EXPOSE = "expose w:* w:$* %d"


@dataclass
class Probed:
    """The second model, and what each of its parts is in the design."""

    circuit: Any
    #: the flat design, as Yosys read it, before anything was made simpler
    module: Dict[str, Any]
    #: of each named net how many bits it has
    widths: Dict[str, int]
    #: of each input the bit of the design that it is, if it is one
    inputs: List[Optional[Place]]
    #: the nets that may be anything in each step
    driven: List[str]
    #: what an output shows, by its place in the list
    outputs: Dict[Place, int]
    #: of each property's cell the outputs that are its value, and whether it counts
    asserted: Dict[str, Tuple[int, int]] = field(default_factory=dict)
    assumed: Dict[str, Tuple[int, int]] = field(default_factory=dict)
    #: of each latch without first value the bits that it is
    unset: Dict[int, List[Place]] = field(default_factory=dict)


class Probes:
    """Writes the second model from the flat design that the front end kept."""

    def __init__(self, program: str, children: Children, folder: Path) -> None:
        self.program, self.children, self.folder = program, children, folder
        self.ports = 0
        #: of each property's cell its kind, and the names of the two outputs that show it
        self.shown: Dict[str, Tuple[str, str, str]] = {}
        #: the inputs that stand for what may be anything in each step
        self.driven: List[str] = []

    def model(self, is_global: bool) -> Probed:
        """The model, whose steps are those of a global clock, or of the one clock that there is."""
        text = (self.folder / "flat.il").read_text(errors="surrogateescape")
        text = re.sub(r"  cell \$(assert|assume) (\S+)\n(.*?)\n  end\n", self.probe, text, flags=re.S)
        text = re.sub(r"  cell \$anyseq (\S+)\n(.*?)\n  end\n", self.opened, text, flags=re.S)
        (self.folder / "probed.il").write_text(text, errors="surrogateescape")
        self.run(Front.GLOBAL_CLOCK if is_global else Front.ONE_CLOCK)
        with open(self.folder / "named.json", encoding="utf-8", errors="replace") as file:
            modules = json.load(file)["modules"]
        circuit = aigtools().read((self.folder / "probed.aig").read_bytes())
        return self.read(circuit, modules[top_of(modules)])

    def probe(self, match: "re.Match[str]") -> str:
        """The cell of a property, and beside it outputs of its value and of whether it counts."""
        kind, cell, body = match[1], match[2], match[3]
        ports = self.port(), self.port()
        made = [match[0]]
        for port, pin in zip(ports, ("A", "EN")):
            made.append(f"  wire output {FIRST_PORT + self.ports} \\{port}\n")
            made.append(f"  connect \\{port} {connected(body, pin)}\n")
            self.ports += 1
        self.shown[bare(cell)] = (kind, *ports)
        return "".join(made)

    def opened(self, match: "re.Match[str]") -> str:
        """An input in the place of a cell whose output may be anything in each step."""
        port, width = self.port(), re.search(r"parameter \\WIDTH (\d+)", match[2])
        sink = connected(match[2], "Y")
        self.driven.append(port)
        number = FIRST_PORT + self.ports
        self.ports += 1
        return f"  wire width {width[1] if width else 1} input {number} \\{port}\n  connect {sink} \\{port}\n"

    def port(self) -> str:
        self.ports += 1
        return f"{PORT}{self.ports}"

    def run(self, clocks: Sequence[str]) -> None:
        """Runs the commands of the translation, but keeps each name."""
        (self.folder / "probed.ys").write_text("\n".join(self.script(clocks)) + "\n")
        told = self.children.run([self.program, "-q", "-s", "probed.ys"], self.folder, LONGEST)
        if told.status != 0:
            last = (told.errors.strip().splitlines() or [f"status {told.status}"])[-1]
            raise Unable("Yosys took too long for a second model" if told.late else f"Yosys: {last}")

    def script(self, clocks: Sequence[str]) -> List[str]:
        flat = [it for it in Front.FLAT if it not in ("delete -output", "check")]
        return [
            "read_rtlil probed.il",
            "write_json named.json",
            EXPOSE,
            *flat,
            *clocks,
            "setundef -undriven -anyseq",
            "opt -noff -keepdc -fast",
            *Front.GATES,
            "write_aiger -symbols probed.aig",
        ]

    def read(self, circuit: Any, module: Dict[str, Any]) -> Probed:
        nets = {bare(name): net["bits"] for name, net in module["netnames"].items() if not net.get("hide_name")}
        left_out = {bare(name) for name, net in module["netnames"].items() if NOT_COMPARED in net["attributes"]}
        own = {name: bits for name, bits in nets.items() if not name.startswith(PORT) and name not in left_out}
        named = symbols_of({name: len(bits) for name, bits in own.items()})
        driven = {port: next((it for it in sorted(own) if own[it] == nets[port]), "") for port in self.driven}
        ports = symbols_of({port: len(nets[port]) for port, name in driven.items() if name})
        opened = {symbol: (driven[port], at) for symbol, (port, at) in ports.items()}
        its, outs = named_by_symbols(circuit, "i"), named_by_symbols(circuit, "o")
        inputs = [{**named, **opened}.get(its.get(at, "")) for at in range(len(circuit.inputs))]
        outputs = {named[name]: at for at, name in outs.items() if name in named}
        widths = {name: len(bits) for name, bits in own.items()}
        probed = Probed(circuit, module, widths, inputs, [it for it in driven.values() if it], outputs)
        by_name = {name: at for at, name in outs.items()}
        for cell, (kind, value, counts) in self.shown.items():
            if value in by_name and counts in by_name:
                kept = probed.asserted if kind == "assert" else probed.assumed
                kept[cell] = by_name[value], by_name[counts]
        latches, names = circuit.latches.words, named_by_symbols(circuit, "l")
        for at in range(len(circuit.latches)):
            if latches[3 * at + 2] > 1:
                probed.unset[at] = [place_of(it, named) for it in names.get(at, "").split()]
        return probed


def connected(body: str, pin: str) -> str:
    """What a pin of a cell is connected to."""
    match = re.search(rf"^    connect \\{pin} (.*)$", body, re.M)
    if not match:
        raise Unable("a property has another form in Yosys")
    return match[1]


def symbols_of(widths: Dict[str, int]) -> Dict[str, Place]:
    """The bit for each symbol that Yosys writes."""
    found: Dict[str, Place] = {}
    for name, width in widths.items():
        for at in range(width):
            found[name if width == 1 else f"{name}[{at}]"] = name, at
    return found


def place_of(symbol: str, named: Dict[str, Place]) -> Place:
    """The bit of a latch: of a net, or of a word of a memory, which Yosys alone names as a net."""
    if symbol in named:
        return named[symbol]
    match = re.fullmatch(r"(.*)\[(\d+)\]", symbol)
    return (match[1], int(match[2])) if match and match[1].endswith("]") else (symbol, 0)
