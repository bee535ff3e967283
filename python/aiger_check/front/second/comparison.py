"""A design in a simulator, beside the second model."""

import re
import secrets
import time
from dataclasses import dataclass, field
from pathlib import Path
from typing import Dict, List, Optional, Sequence, Set

from aiger_check.front.properties import Property
from aiger_check.front.second.bench import LOOK, PERIOD, Bench, Start
from aiger_check.front.second.clocked import are_data, edges_of, is_of_first_step, named_nets, one_clock
from aiger_check.front.second.compare import Finding, Signals, Worths, kind_of
from aiger_check.front.second.compare import BETWEEN, DIFFERS, LOST
from aiger_check.front.second.draw import Chance, Drawn
from aiger_check.front.second.faults import Unable
from aiger_check.front.second.icarus import Icarus
from aiger_check.front.second.pairing import Pairs
from aiger_check.front.second.past import Past
from aiger_check.front.second.probes import Place, Probes
from aiger_check.front.second.quiet import Quiet
from aiger_check.front.second.told import Telling, all_said
from aiger_check.front.second.texts import Texts
from aiger_check.front.second.traces import SCOPE, UNKNOWN, Traces, Where
from aiger_check.front.second.witness import Witness
from aiger_check.front.second.vcd import Values, Waves
from aiger_check.front.sources import Sources
from aiger_check.front.yosys import bare

STEPS, RUNS, FEWEST = 200, 3, 10
#: models of more gates are looked at in fewer steps
GATES = 50000


@dataclass(frozen=True)
class Design:
    """What the first front end has read, and how it takes it."""

    sources: Sources
    top: str
    properties: Sequence[Property]
    #: whether its steps are those of a global clock
    is_global: bool
    is_asynchronous: bool


@dataclass
class Run:
    """A run in both."""

    drawn: Drawn
    waves: Path
    traces: Dict[Where, List[str]]


@dataclass
class Compared:
    """What came of it."""

    steps: int = 0
    findings: List[Finding] = field(default_factory=list)
    signals: Set[str] = field(default_factory=set)
    assertions: Set[str] = field(default_factory=set)
    #: names of the model, and cells of assertions, that were not compared
    other_names: List[str] = field(default_factory=list)
    other_cells: List[str] = field(default_factory=list)
    #: the bits of which neither knows anything
    unknown: Set[Place] = field(default_factory=set)


class Comparison:
    """Runs a design in a simulator and in the second model, and compares what both say."""

    def __init__(self, design: Design, simulator: Icarus, probes: Probes, folder: Path, until: float) -> None:
        self.design, self.simulator, self.probes, self.folder, self.until = design, simulator, probes, folder, until
        self.mark = f"second_{secrets.token_hex(8)}"
        self.runs: List[Run] = []

    def compared(self) -> Compared:
        self.read()
        self.translate()
        self.prepare()
        for number in range(RUNS):
            if number and time.monotonic() > self.until - 1:
                break
            self.run(number)
        if not self.runs:
            is_late = time.monotonic() >= self.until
            raise Unable("it takes too long" if is_late else "no run that keeps the assumptions was found")
        found = self.judged()
        if self.design.is_asynchronous and not self.is_global and time.monotonic() < self.until - 1:
            found.findings += self.between()
        return found

    def read(self) -> None:
        """Writes the design for the simulator: its assertions tell their values."""
        self.texts = Texts(self.design.sources, self.folder).write()
        plain = self.simulator.preprocess(self.texts)
        quiet = Past(Quiet(plain, self.folder, self.texts).quieted()).with_registers()
        self.telling = Telling(quiet, self.mark)
        (self.folder / "design.sv").write_text(self.telling.telling(), encoding="latin-1")

    def with_places(self, words: str) -> str:
        """What a simulator says, with the user's places in the place of its own."""
        match = re.match(r"(text(\d+)\.svh?|design\.sv):(\d+): *", words)
        if not match:
            return words
        number, line = int(match[2] or 0), int(match[3])
        if match[1] == "design.sv":
            number, line = self.telling.place_of_line(line)
        told = words[match.end() :].replace(SCOPE, self.design.top)
        return f"{self.texts.shown(number, line)}: {told}"

    def translate(self) -> None:
        """Has the second model written; and again where what no assertion depends on has other clocks."""
        self.probed = self.probes.model(self.design.is_global)
        self.edges = edges_of(self.probed)
        clock = one_clock(self.probed, self.edges)
        self.is_global = self.design.is_global or clock is None
        self.clock = "" if self.is_global else clock or ""
        if self.is_global and not self.design.is_global:
            self.probed = self.probes.model(True)

    def prepare(self) -> None:
        """Compiles it with a testbench, once more where registers have to be set."""
        gates = len(self.probed.circuit.gates)
        self.steps = max(FEWEST, min(STEPS, STEPS * GATES // max(1, gates)))
        # before its first edge a clock is low, and high where it but falls
        self.clocks = {place: int(True not in its) for place, its in self.edges.items()}
        moved = list(self.clocks) if self.is_global else []
        given = self.design.sources.parameters
        self.bench = Bench(self.design.top, self.probed, self.clock, moved, self.is_global, given)
        self.build()
        self.simulator.simulate("+waves=names.vcd")
        waves = Waves(self.folder / "names.vcd")
        self.variables, self.values = waves.variables, Values(waves)
        self.values.until(PERIOD)
        self.bench.starts = self.starts()
        for name in self.probed.driven:
            variable = self.variables.get(f"{SCOPE}.{name}")
            if variable:
                self.bench.driven[name] = variable.path[2:]
        if self.bench.starts or self.bench.driven:
            self.bench.__post_init__()
            self.build()

    def build(self) -> None:
        (self.folder / "bench.sv").write_text(self.bench.text(self.steps), encoding="utf-8", errors="replace")
        self.simulator.compile(self.texts)

    def starts(self) -> List[Start]:
        """What has no first value in the model, and can be set in the simulation."""
        found: Dict[str, Start] = {}
        words = self.probed.circuit.latches.words
        for at, names in self.probed.unset.items():
            for name, bit in names:
                start = found.get(name) or self.start(name, words[3 * at + 1] == words[3 * at])
                if start and bit < start.width and not self.is_set(name, bit):
                    found[name] = start
                    start.latches[bit] = at
        # what has a first value in the design alone is compared as it is
        self.settable = {at for at, names in self.probed.unset.items() if any(self.is_set(*it) for it in names)}
        self.settable.update(at for it in found.values() for at in it.latches.values())
        if self.is_global:
            self.add_shown(found)
        return list(found.values())

    def is_set(self, name: str, bit: int) -> bool:
        """Whether the design itself gives a bit its first value."""
        variable = self.variables.get(f"{SCOPE}.{name}")
        is_known = variable is not None and not self.is_global and self.simulator.has_x
        return is_known and variable is not None and self.values.bit(variable.code, bit) != "x"

    def add_shown(self, found: Dict[str, Start]) -> None:
        """With several clocks a register is no latch of the model: it starts as the model shows it."""
        shown, are_all = is_of_first_step(self.probed, any(len(its) > 1 for its in self.edges.values()))
        for (name, bit), output in shown.items():
            start = found.get(name) or self.start(name, False)
            if start and bit < start.width and bit not in start.latches:
                found[name] = start
                start.outputs[bit] = output
        if are_all:
            self.settable = set(self.probed.unset)

    def start(self, name: str, is_free: bool) -> Optional[Start]:
        memories = {bare(it): memory for it, memory in self.probed.module.get("memories", {}).items()}
        memory = memories.get(name.rpartition("[")[0])
        if memory:
            return Start(tuple(name.split(".")), int(memory["width"]), False, True)
        variable = self.variables.get(f"{SCOPE}.{name}")
        if not variable or variable.kind not in ("reg", "logic", "integer", "int", "bit", "wire"):
            return None
        # Verilator calls all a wire
        is_net = variable.kind == "wire" if self.simulator.has_x else is_free
        return Start(variable.path[2:], variable.width, is_net) if is_free or not is_net else None

    def run(self, number: int) -> None:
        """Draws a run, and has it simulated."""
        is_apart = not are_data(self.probed, list(self.clocks))
        self.chance = Chance(self.probed, self.settable, self.clocks, self.is_global, self.until, is_apart)
        drawn = self.chance.drawn(number + 1, self.steps)
        if drawn:
            traces = self.simulated(str(number), self.bench.rows(drawn.inputs), self.bench.start_row(drawn))
            self.runs.append(Run(drawn, self.folder / f"waves{number}.vcd", traces))

    def simulated(self, name: str, rows: str, starts: str, *plus: str) -> Dict[Where, List[str]]:
        """What each assertion is worth in each step of a run."""
        (self.folder / f"rows{name}").write_text(rows)
        (self.folder / f"starts{name}").write_text(starts)
        steps = rows.count("\n") // 2
        words = [f"+count={steps}", f"+rows=rows{name}", f"+starts=starts{name}", f"+waves=waves{name}.vcd"]
        said = all_said(self.simulator.simulate(*words, *plus), self.mark)
        return Traces(self.telling.statements, said, steps, self.is_global).all()

    def between(self) -> List[Finding]:
        """The assertions that fail where inputs change between the edges of the clock too, which counts for asynchronous
        sets and resets, and is not in the model. A step that breaks an assumption ends the run."""
        assumed = [where for where, cell in self.pairs.items() if cell in self.probed.assumed]
        if len(assumed) < len(self.probed.assumed):
            return []
        found: Dict[str, Finding] = {}
        for number, run in enumerate(self.runs):
            rows = self.bench.rows(run.drawn.inputs, self.chance.others(run.drawn, number))
            traces = self.simulated(f"between{number}", rows, self.bench.start_row(run.drawn), "+glitches")
            ends = [traces[where].index("0") for where in assumed if "0" in traces.get(where, [])]
            for where, cell in self.pairs.items():
                kept = traces.get(where, [])[: min(ends, default=None)]
                is_broken = any("0" in it.traces.get(where, []) for it in self.runs)
                if cell not in self.probed.assumed and "0" in kept and not is_broken and cell not in found:
                    found[cell] = Finding(BETWEEN, "", cell, kept.index("0"), number, "0", "1")
        return list(found.values())

    def shows(self, cell: str, witness: Witness) -> Optional[bool]:
        """Whether an assertion fails in a run of the model that breaks it, or None where this cannot be told."""
        where = next((it for it, its in self.pairs.items() if its == cell), None)
        steps = len(witness.inputs)
        if where is None or steps > self.steps or any(it.outputs for it in self.bench.starts):
            return None
        rows = self.bench.rows([witness.row(step, self.probed.inputs) for step in range(steps)])
        name = secrets.token_hex(4)
        trace = self.simulated(name, rows, self.bench.start_row_of(witness.starts)).get(where, [])
        at = steps - 1 - self.behind(where)
        fails = {"0": True, "1": False}.get(trace[at]) if 0 <= at < len(trace) else None
        # with several clocks it counts which is first
        return fails if fails or witness.is_whole and not self.is_global else None

    def judged(self) -> Compared:
        signals = Signals(self.probed, f"{SCOPE}.", self.variables, self.simulator.has_x)
        for number, run in enumerate(self.runs):
            look = [1 + PERIOD * step + LOOK for step in range(len(run.drawn.inputs))]
            signals.compare(number, run.drawn, Waves(run.waves), look)
        found = Compared(min(len(it.drawn.inputs) for it in self.runs))
        found.findings = list(signals.findings.values())
        found.signals, found.unknown = signals.compared, signals.unknown
        inputs = {place[0] for place in self.probed.inputs if place}
        clocks = named_nets(self.probed, self.clock) if self.clock else []
        others = set(self.probed.widths) - signals.compared - inputs - set(clocks)
        # what functions have within is Yosys's own
        found.other_names = sorted(it for it in others if "$" not in it)
        self.judge_assertions(found)
        return found

    def judge_assertions(self, found: Compared) -> None:
        told = {where for run in self.runs for where in run.traces}
        shown = {**self.probed.asserted, **self.probed.assumed}
        place_of = self.design.sources.place_of
        properties = [it._replace(file=place_of(it.file)) for it in self.design.properties if it.cell in shown]
        self.worths = [Worths(run.drawn, shown) for run in self.runs]
        pairs = Pairs(self.telling.statements, self.texts.places, properties, self.is_alike).pair(sorted(told))
        self.pairs = pairs.found
        for where in pairs.lost:
            statement = self.telling.statements[where[0]]
            name = statement.label or statement.word
            place = self.texts.shown(statement.file, statement.line)
            found.findings.append(Finding(LOST, f"{where[1]}.{name}".lstrip("."), place, 0, 0, "", ""))
        for where, cell in pairs.found.items():
            found.findings += self.of_pair(where, cell)
            if any(set(run.traces.get(where, UNKNOWN)) - {UNKNOWN} for run in self.runs):
                found.assertions.add(cell)
        found.other_cells = [it.cell for it in properties if it.cell not in found.assertions]

    def behind(self, where: Where) -> int:
        """By how many steps the model tells it later."""
        return int(self.telling.statements[where[0]].is_clocked and not self.is_global)

    def is_alike(self, where: Where, cell: str) -> bool:
        return not any(it.kind == DIFFERS for it in self.of_pair(where, cell))

    def of_pair(self, where: Where, cell: str) -> List[Finding]:
        """What is wrong with an assertion: the first of each kind."""
        found: Dict[str, Finding] = {}
        for number, (run, worths) in enumerate(zip(self.runs, self.worths)):
            trace = run.traces.get(where, [])
            for step, (design, (model, opened)) in enumerate(zip(trace, worths.of(cell, self.behind(where)))):
                kind = kind_of(design, model, opened, self.simulator.has_x) if design != UNKNOWN else None
                if kind and kind not in found:
                    found[kind] = Finding(kind, "", cell, step, number, design, "01x"[model])
        return list(found.values())
