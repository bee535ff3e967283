"""From Verilog to an AIGER model."""

import re
import secrets
from typing import Any, Callable, Collection, Dict, Iterable, List, Optional, Sequence, Set, Tuple

from aiger_check.answers import Assertion, Cover, LeftSide, Liveness
from aiger_check.faults import Trouble, visible
from aiger_check.front import defines, passed_over, processes, undefined
from aiger_check.front.asked import Asked, MET
from aiger_check.front.clocks import Clocks
from aiger_check.front.cones import Cones
from aiger_check.front.drivers import Drivers
from aiger_check.front.edges import Registers, lasting
from aiger_check.front.initial import varying
from aiger_check.front.order import Order, State
from aiger_check.front.properties import LEFT_OUT, Lost, Property, properties, renamed
from aiger_check.front.races import Races, instances
from aiger_check.front.reset import Reset, WithReset
from aiger_check.front.told import told_positions, with_inputs
from aiger_check.front.undriven import refuse_undeclared, undriven, without_body
from aiger_check.front.unset import Unset
from aiger_check.front.vhdl.verilog import OWN
from aiger_check.front.words import Source
from aiger_check.front.yosys import Yosys, bare, quoted, top_of
from aiger_check.model.circuit import Model

ASKED, ASSUMED = ("$assert", "$live"), ("$assume", "$fair")

#: marks a net that several processes drive and nobody reads, which has no one value
NOT_COMPARED = "aiger_check_not_compared"


class Front:
    """Writes a Verilog design as an AIGER model by Yosys, and tells which bad state is which assertion."""

    #: Without -keepdc Yosys might choose first values of uninitialised registers.
    FLAT = (
        "opt_expr -keepdc",
        "opt_clean",
        "check",
        "delete -output",
        # z is x
        "setundef -undef",
        "opt -noff -keepdc",
        "memory_collect",
        "opt -noff -keepdc -fast",
    )
    ONE_CLOCK = ("memory_map -keepdc", "async2sync")
    GLOBAL_CLOCK = ("memory_map -keepdc", "clk2fflogic", "memory_map -formal")
    GATES = (
        "techmap",
        "opt -noff -keepdc -fast",
        "dffunmap",
        "simplemap",
        "setundef -undriven -anyseq",
        "opt_clean",
        "aigmap",
        "opt_clean",
    )

    def __init__(
        self, yosys: Yosys, top: str, keeps_outputs: bool = False, clocks: Sequence[str] = (), asked: Asked = Asked()
    ) -> None:
        self.yosys, self.top, self.sources, self.keeps_outputs = yosys, top, yosys.sources, keeps_outputs
        self.asked = asked
        #: the inputs that are to be the only clocks, if any are named
        self.named_clocks = list(clocks)
        self.notes: List[str] = []
        #: what changes no answer
        self.asides: List[str] = []
        #: why the steps are not those of one clock, or that clock
        self.reason: Optional[str] = None
        self.clock: Optional[str] = None
        self.replays = False
        #: reasons by which the model may not be the design, each with the cells on which it bears
        self.doubts: List[Tuple[str, List[str]]] = []
        #: with which each run begins, if that was asked for
        self.reset: Optional[Reset] = None

    def translate(self) -> List[Assertion]:
        """Writes model.aig into the folder of the sources, and gives its assertions."""
        self.flatten()
        self.write(self.reason)
        return self.assertions()

    def flatten(self) -> None:
        """Reads the files, makes one module of all, and looks at its clocks."""
        self.read()
        self.refuse_conflicts(self.yosys.do("check"), {f"{module}.{quoted(name)}" for module, name in self.unread})
        refuse_undeclared(self.yosys.said, self.sources)
        free = undefined.command(self.sources.folder, self.sources.alias)
        # the second front end begins with what is flat and not made simpler
        flat = [f"write_rtlil {self.sources.alias}/flat.il"]
        if "$cover" in self.asked.kinds:
            flat = ["design -push-copy", "delete t:$cover", *flat, "design -pop"]
        marks = [f"setattr -set {NOT_COMPARED} 1 {quoted(module)}/w:{quoted(name)}" for module, name in sorted(self.unread)]
        self.yosys.do(*marks, "setattr -mod -unset keep_hierarchy", "flatten", free, *flat)
        if self.suspected or self.at_once:
            self.doubt(self.yosys.netlist("whole"))
        self.delete(self.later)
        commands = (it for it in self.FLAT if not (self.keeps_outputs and it == "delete -output"))
        self.refuse_conflicts(self.yosys.do(*commands))
        netlist = self.yosys.netlist("flat")
        self.module = top_of(netlist)
        module = netlist[self.module]
        self.notes += map(visible, undriven(self.yosys.said, self.top, module, self.sources))
        self.unset_registers = Unset(module)
        order = Order(module)
        self.doubt_states(Cones(module), [*order.derived(), *order.loaded()])
        self.sooner = list(Registers(module, self.sources.rewritten).sooner())
        self.lasting = lasting(module, self.sources.rewritten)
        clocks = Clocks(module)
        if self.named_clocks:
            clocks.refuse_others(self.named_clocks)
        self.reason, self.asynchronous = clocks.reason(), clocks.asynchronous
        if self.reason and self.sources.vhdl and self.sources.vhdl.has_psl:
            raise Trouble(visible(f"{self.reason}: PSL is not taken there: write assert into a process with its edge"))
        self.clock = None if self.reason else clocks.port()
        self.clocks = clocks.inputs()
        kinds = {cell["type"] for cell in module["cells"].values()}
        self.replays = self.clock is not None and "$initstate" not in kinds

    def doubt(self, modules: Dict[str, Any]) -> None:
        """Finds the assertions that depend on what a simulation may take in another way, before Yosys simplifies."""
        module = modules[top_of(modules)]
        cones = Cones(module)
        for doubt in self.suspected:
            bits = bits_named(module, doubt.nets)
            self.doubts.append((visible(doubt.reason), cones.depending(bits, ASKED, ASSUMED)))
        if self.at_once:
            design = list(instances(self.modules, top_of(self.modules)))
            races = Races(Order(module), design, self.drivers)
            self.doubt_states(cones, races.found(self.at_once, self.modules))

    def doubt_states(self, cones: Cones, found: Iterable[Tuple[str, State]]) -> None:
        """Finds the assertions that depend on some registers, each with why their values are not sure."""
        for reason, state in found:
            self.doubts.append((visible(reason), cones.depending(set(state.shows), ASKED, ASSUMED)))

    def write(self, reason: Optional[str]) -> None:
        """Writes model.aig, whose steps are those of a global clock where there is a reason for it."""
        yosys, alias = self.yosys, self.sources.alias
        if reason and self.lasting:
            named = f"disable iff of assumption {self.lasting.label}".rstrip()
            raise Trouble(visible(f"{reason}: {named} is not taken there: assume it under !rst in its place"))
        if self.reset:
            self.add_reset(self.reset)
        if reason:
            self.notes.append(f"{reason}: a step is one of a global clock, by Yosys's clk2fflogic")
        elif self.asynchronous:
            self.notes.append("asynchronous sets and resets change with the clock alone, by Yosys's async2sync")
        if self.sooner and not reason:
            yosys.do(f"cd {quoted(self.module)}", *self.sooner, "cd ..")
        yosys.do(*(self.GLOBAL_CLOCK if reason else self.ONE_CLOCK))
        yosys.do("setundef -undriven -anyseq", "opt -noff -keepdc -fast", f"write_rtlil {alias}/prepared.il")
        yosys.do(*self.GATES)
        self.refuse_loops(yosys.do("check"))
        # read again, since the model is to have the order of the text, of which another one is made
        yosys.do(f"write_rtlil {alias}/final.il")
        self.change_text("final", "final", self.asked.text)
        yosys.do("design -reset", f"read_rtlil {alias}/final.il")
        yosys.do(f"write_aiger -symbols -map {alias}/model.map {alias}/model.aig")

    def add_reset(self, reset: Reset) -> None:
        """Has each run begin with a reset."""
        alias, top = self.sources.alias, quoted(self.module)
        self.yosys.do(f"write_rtlil {alias}/unreset.il")
        self.change_text("unreset", "reset", lambda text, _: WithReset(text, top, reset).text())
        self.yosys.do("design -reset", f"read_rtlil {alias}/reset.il", f"hierarchy -top {top}")

    def read(self) -> None:
        """Reads the files, and looks at the properties before they are flattened."""
        source = self.read_source()
        parameters = defines.parameters(self.sources.parameters, quoted(self.top))
        self.yosys.do(*parameters, f"hierarchy -check -top {quoted(self.top)}")
        before = self.yosys.rtlil("read")
        self.yosys.do(
            *renamed(before),
            # what is made simpler here would be no more seen to depend on what it does
            "proc -noopt",
            # Yosys would merge what is equal
            "setattr -set keep 1 t:$assert t:$assume t:$cover t:$live t:$fair",
        )
        modules = self.yosys.netlist("read")
        drivers = Drivers(modules, before)
        self.refuse_drivers(drivers)
        self.refuse_first_values(modules, before, source)
        self.unread = drivers.unread
        for place, name in drivers.memories():
            last = "where two write one word, the last in the text counts"
            self.notes.append(visible(f"{self.place_of(place)}{name} is written by several processes: {last}"))
        self.properties = list(properties(modules, top_of(modules), source))
        self.notes += map(visible, Lost(modules, source).notes())
        files = processes.of_files(source, modules)
        self.suspected = list(processes.doubts(source, modules, files))
        self.at_once, self.drivers, self.modules = processes.at_once(source, files), drivers, modules
        self.notes += map(visible, without_body(modules, self.sources))
        left_out = self.asked.left_out([it.kind for it in self.properties])
        for it in self.properties:
            if it.kind in left_out and self.asked.is_noted(it.kind):
                named = visible(f"{self.top}.{it.name} ({self.place(it)})")
                notes = self.asides if it.kind == "$cover" else self.notes
                notes.append(f"{named} is left out: it is {LEFT_OUT[it.kind]}")
        if self.sources.vhdl:
            # names of the user's are preferred then
            self.yosys.do(f"rename -hide w:{OWN}*")
        # the second front end is to see what a mode leaves out
        self.later = [it for it in left_out if it in ("$assert", "$live")]
        self.delete([it for it in left_out if it not in self.later])

    def delete(self, kinds: Sequence[str]) -> None:
        """Drops the properties of some kinds."""
        if kinds:
            self.yosys.do(f"delete {' '.join(f't:{kind}' for kind in kinds)}")

    def read_source(self) -> Source:
        """Reads the files. What Yosys parses and then forgets is refused."""
        sources, options = self.sources, "-sv -formal -nodpi -ppdump"
        self.yosys.do(*defines.commands(sources.defines, sources.folder, sources.alias))
        dumps = [f"read{at}.txt" for at in range(len(sources.files))]
        for file, dump in zip(sources.files, dumps):
            self.yosys.do(f"tee -o {sources.alias}/{dump} read_verilog {options} -I{sources.alias} {file}")
        source = Source(sources, dumps)
        self.notes += (
            f"{visible(place)}: of a case the first item that matches is taken" for place in sources.parallel
        )
        self.notes += map(visible, passed_over.notes(source))
        bound = source.first("bind")
        if bound:
            instead = "put the instance into the module itself"
            raise Trouble(visible(f"{source.place(bound)}: bind is not followed by Yosys: {instead}"))
        return source

    def refuse_drivers(self, drivers: Drivers) -> None:
        """Refuses what a constant and something else drive, of which Yosys says nothing."""
        found = drivers.first()
        if found:
            place, name = found
            raise Trouble(visible(f"{self.place_of(place)}{name} has several drivers: let one assignment drive it"))

    def refuse_first_values(self, modules: Dict[str, Any], before: str, source: Source) -> None:
        """Refuses a first value that is no constant."""
        for module, name in varying(modules, before, source):
            net = modules[module]["netnames"].get(name, {})
            place = self.place_of(net.get("attributes", {}).get("src", "").split("|")[0])
            raise Trouble(visible(f"{place}{name} begins with what is no constant: assign it, or give it a number"))

    def place_of(self, place: str) -> str:
        """A place that Yosys tells, as words before a message."""
        match = re.fullmatch(r"(.*?):(\d+)(?:\..*)?", place)
        return f"{self.sources.shown(match[1], int(match[2]))}: " if match else ""

    def refuse_conflicts(self, said: Sequence[str], unread: Collection[str] = ()) -> None:
        for line in said:
            match = re.search(r"multiple conflicting drivers for (.*):", line)
            if match and match[1].split(" [")[0] not in unread:
                raise Trouble(f"{visible(match[1].replace('.' + chr(92), '.'))} has several drivers")

    def refuse_loops(self, said: Sequence[str]) -> None:
        self.refuse_conflicts(said)
        if any("found logic loop" in line for line in said):
            wires = sorted({match[1] for match in (re.match(r"\s+wire \\(.*)", line) for line in said) if match})
            raise Trouble(visible(f"there is a loop of gates without a register: {', '.join(wires) or self.top}"))

    def place(self, property: Property) -> str:
        return self.sources.shown(property.file, property.line)

    def assertions(self) -> List[Assertion]:
        """The assertions in the order of the source, each with its bad state or its justice property."""
        bad, live = self.positions("$assert", "$live")
        asked = [it for it in self.properties if it.kind in ("$assert", *self.asked.kinds)]
        met = {it.cell for it in asked if it.cell + MET in bad}
        wanted = [it.cell for it in asked if it.kind in self.asked.kinds]
        if sorted([*bad, *live]) != sorted([*wanted, *(it + MET for it in met)]):
            raise Trouble("which property of the model is which assertion cannot be told")
        made: List[Assertion] = []
        for it in self.sorted(asked):
            named = f"{self.top}.{it.name}", self.place(it)
            if it.kind == "$live":
                made.append(Liveness(*named, 0, it.cell, live[it.cell]))
            elif it.kind in self.asked.kinds:
                made.append((Cover if it.kind == "$cover" else Assertion)(*named, bad[it.cell], it.cell))
            if it.cell in met:
                made.append(LeftSide(*named, bad[it.cell + MET], it.cell))
        return made

    def change_text(self, name: str, other: str, change: Callable[[str, str], str]) -> None:
        """Writes a text of the netlist by another one."""
        given, made = (self.sources.folder / f"{it}.il" for it in (name, other))
        text = given.read_text(encoding="utf-8", errors="surrogateescape")
        made.write_text(change(text, self.module), encoding="utf-8", errors="surrogateescape")

    def sorted(self, asked: List[Property]) -> List[Property]:
        """Properties in the order of the source. The sort is stable: instances stay as they stand in the design."""
        return sorted(asked, key=lambda it: (self.sources.order(it.file, it.line, it.column), it.number))

    def positions(self, *kinds: str) -> List[Dict[str, int]]:
        """Of each kind of cell the property or the constraint that it is, by the cell's name: in a second model, of a
        text with the same cells in the same order, the value of each is an input by a name of its own."""
        module = self.yosys.netlist("final")[self.module]
        self.ports = module["ports"]
        cells = [(name, it["type"]) for name, it in module["cells"].items() if it["type"] in kinds]
        if not cells:
            return [{} for _ in kinds]
        value, alias, folder = f"aiger_check_{secrets.token_hex(4)}", self.sources.alias, self.sources.folder
        its = [name for name, _ in cells]
        self.change_text("final", "told", lambda text, top: with_inputs(text, top, its, value))
        self.yosys.do(
            "design -push", f"read_rtlil {alias}/told.il", f"write_aiger -symbols {alias}/told.aig", "design -pop"
        )
        told, model = (Model(folder / name) for name in ("told.aig", "model.aig"))
        names = [(f"{value}[{at}]".encode(), bare(name), kind) for at, (name, kind) in enumerate(cells)]
        return [
            told_positions(kind, {it: cell for it, cell, its in names if its == kind}, told, model) for kind in kinds
        ]


def bits_named(module: Dict[str, Any], names: Set[str]) -> Set[Any]:
    """The bits of all nets of these names, and of what is read of memories of these names."""
    signals = [(name, net["bits"]) for name, net in module["netnames"].items()]
    for cell in module["cells"].values():
        if cell["type"].startswith("$memrd"):
            signals.append((bare(cell["parameters"]["MEMID"]), cell["connections"]["DATA"]))
    found = [bits for name, bits in signals if re.sub(r"\[.*", "", name.split(".")[-1]) in names]
    # a constant is no net
    return {bit for bits in found for bit in bits if not isinstance(bit, str)}
