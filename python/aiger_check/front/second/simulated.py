"""A design in VHDL in ghdl's own simulation, beside the model: what its synthesis gets wrong differs there."""

import re
from dataclasses import replace
from pathlib import Path
from typing import Dict, List, Sequence, Tuple

from aiger_check.front.files import text_of
from aiger_check.front.second.clocked import are_data
from aiger_check.front.second.compare import DECIDED, DIFFERS, Finding, Signals, Worths
from aiger_check.front.second.comparison import Compared, Comparison
from aiger_check.front.second.draw import X, Chance, Drawn
from aiger_check.front.second.faults import Unable
from aiger_check.front.second.vcd import Values, Variable, Waves
from aiger_check.front.vhdl.entity import SCALARS, VECTORS, Declared, Entity, entity_of, value_of
from aiger_check.front.vhdl.ghdl import Vhdl
from aiger_check.front.vhdl.text import Text
from aiger_check.tools.processes import Children

CALLED = "ghdl's simulation"
BENCH, DESIGN, WAVES = "aiger_check_bench", "aiger_check_design", "waves.vcd"
#: words of a design that may act on the machine, so that it is not run
ACTING = {"file", "foreign", "textio", "env", "vhpidirect", "file_open"}
FAILED = re.compile(r"vhdl(\d+)\.vhd:(\d+):(\d+):@(\d+)ns:\(assertion ")
#: in ns what a step takes, when it is looked at in it, and when the clock rises; and how many fs a ns has
PERIOD, LOOK, EDGE = 10, 4, 6
UNIT = 1000000
#: seconds for each of ghdl's steps
LIMIT = 20.0
SEED = 1


class Simulated:
    """Runs the VHDL by inputs that are drawn, and compares the signals that both have."""

    def __init__(self, comparison: Comparison, vhdl: Vhdl, children: Children, folder: Path) -> None:
        self.comparison, self.vhdl, self.children, self.folder = comparison, vhdl, children, folder
        self.probed = comparison.probed

    def compared(self) -> Compared:
        """What came of it."""
        texts = [Text(text_of(name), name) for name in self.vhdl.files]
        acting = sorted(ACTING & {word.text for text in texts for word in text.words})
        entity = entity_of(texts, self.vhdl.top)
        if acting or not entity:
            raise Unable(f"the design has {acting[0]}" if acting else "the entity has a form that is not known")
        if self.comparison.is_global or not self.comparison.clock or self.probed.driven:
            raise Unable("it has no one clock, or signals that nobody drives")
        drawn = self.drawn()
        self.run(entity, drawn)
        return self.judged(drawn)

    def drawn(self) -> Drawn:
        is_apart = not are_data(self.probed, list(self.comparison.clocks))
        until = self.comparison.until + LIMIT
        chance = Chance(self.probed, set(), self.comparison.clocks, False, until, is_apart)
        found = chance.drawn(SEED, self.comparison.steps)
        if not found:
            raise Unable("no run that keeps the assumptions was found")
        return found

    def run(self, entity: Entity, drawn: Drawn) -> None:
        """Has ghdl simulate the run."""
        self.folder.mkdir()
        (self.folder / f"{BENCH}.vhd").write_text(self.bench(entity, drawn), encoding="latin-1")
        names = []
        for at, name in enumerate(self.vhdl.files):
            names.append(f"vhdl{at}.vhd")
            (self.folder / names[-1]).write_text(text_of(name), encoding="latin-1")
        quiet = ["--assert-level=none", "--ieee-asserts=disable", f"--vcd={WAVES}"]
        for words in (["-i", "--std=08", *names, f"{BENCH}.vhd"], ["-m", "--std=08", BENCH]):
            told = self.children.run([self.vhdl.program, *words], self.folder, LIMIT)
            if told.status != 0:
                raise Unable(f"ghdl does not take it: {first_of(told.errors)}")
        # a check at which it ends leaves what was before
        told = self.children.run([self.vhdl.program, "-r", "--std=08", BENCH, *quiet], self.folder, LIMIT)
        #: the places at which assertions failed, and in which ns
        self.failed = {
            (self.vhdl.files[int(it[1])], int(it[2]), int(it[3]), int(it[4]))
            for it in FAILED.finditer(told.output + told.errors)
        }
        if not (self.folder / WAVES).exists():
            raise Unable("ghdl wrote no waveform")

    def bench(self, entity: Entity, drawn: Drawn) -> str:
        """The testbench."""
        given = {name.lower(): value for name, _, value in (it.partition("=") for it in self.vhdl.generics)}
        inputs = [it for it in entity.ports if it.mode == "in"]
        clock = self.comparison.clock.lower().rstrip("_")
        driven = [it for it in inputs if it.name != clock]
        places, width = self.places(driven)
        rows = [self.row(places, values) for values in drawn.inputs]
        constants = [f"constant {it.name} : {' '.join(it.type)} := {value_of(it, given)};" for it in entity.generics]
        generics = f" generic map ({', '.join(f'{it.name} => {it.name}' for it in entity.generics)})"
        ports = [f"{it.name} => s_{it.name}" if it.mode == "in" else f"{it.name} => open" for it in entity.ports]
        lines = [
            *entity.context,
            f"entity {BENCH} is end;",
            f"architecture bench of {BENCH} is",
            *constants,
            *(f"signal s_{it.name} : {' '.join(it.type)};" for it in inputs),
            f"type rows_t is array (natural range <>) of bit_vector({max(width, 1) - 1} downto 0);",
            f"constant rows : rows_t(0 to {len(rows) - 1}) := ({', '.join(numbered(rows))});",
            "begin",
            f"{DESIGN} : entity work.{self.vhdl.top}{generics if entity.generics else ''}",
            f"port map ({', '.join(ports)});",
            "process begin",
            f"s_{clock} <= '0'; wait for 1 ns;",
            "for at in rows'range loop",
            *(f"s_{it.name} <= {converted(it, *places[it.name])};" for it in driven),
            f"wait for 5 ns; s_{clock} <= '1'; wait for 2 ns; s_{clock} <= '0'; wait for 3 ns;",
            "end loop; wait; end process; end;",
        ]
        return "\n".join(lines) + "\n"

    def places(self, driven: Sequence[Declared]) -> Tuple[Dict[str, Tuple[int, int]], int]:
        """Where the bits of each input are in a row: the lowest, and how many."""
        widths = {name.lower().rstrip("_"): width for name, width in self.probed.widths.items() if "." not in name}
        found, low = {}, 0
        for it in driven:
            if it.type[0] not in (*SCALARS, *VECTORS) or it.name not in widths:
                raise Unable(f"the port {it.name} has another type than std_logic, bit and their vectors")
            found[it.name] = low, widths[it.name]
            low += widths[it.name]
        return found, low

    def row(self, places: Dict[str, Tuple[int, int]], values: bytes) -> str:
        bits = ["0"] * max(1, sum(width for _, width in places.values()))
        for at, place in enumerate(self.probed.inputs):
            low = places.get(place[0].lower().rstrip("_")) if place else None
            if place and low:
                bits[low[0] + place[1]] = str(values[at] & 1)
        return "".join(reversed(bits))

    def judged(self, drawn: Drawn) -> Compared:
        """Compares the steps in which nothing is undefined in the simulation."""
        path = self.folder / "plain.vcd"
        path.write_text(plain((self.folder / WAVES).read_text(encoding="latin-1")), encoding="latin-1")
        waves = Waves(path)
        signals = Signals(self.probed, "", self.named(waves.variables), True)
        columns = [variable for _, variable, _ in signals.columns()]
        values, last = Values(waves), max((it[0] for it in waves.changes), default=0)
        looked: List[int] = []
        for step in range(len(drawn.inputs)):
            time = (1 + PERIOD * step + LOOK) * UNIT
            values.until(time)
            if time <= last and all("x" not in values.now.get(it.code, "x") for it in columns):
                one = Drawn({}, [], drawn.outputs[step : step + 1], drawn.open_outputs[step : step + 1])
                before = set(signals.findings)
                signals.compare(0, one, waves, [time])
                for key in set(signals.findings) - before:
                    signals.findings[key] = replace(signals.findings[key], step=step)
                looked.append(step)
        found = Compared(len(looked))
        found.findings = [it for it in signals.findings.values() if it.kind != DECIDED]
        found.signals = signals.compared
        self.judge_assertions(found, drawn, looked)
        return found

    def judge_assertions(self, found: Compared, drawn: Drawn, looked: Sequence[int]) -> None:
        """Compares the assertions of processes with an edge: others may fail in the simulation for a moment."""
        lines = self.vhdl.path.read_text(encoding="latin-1").split("\n")
        pins = {**self.probed.asserted, **self.probed.assumed}
        cells: Dict[Tuple[str, int, int], List[str]] = {}
        for it in self.comparison.design.properties:
            origin = self.vhdl.origins.get(it.line)
            if origin and it.cell in pins and lines[it.line - 1].startswith("  always @("):
                cells.setdefault(origin, []).append(it.cell)
        worths = Worths(drawn, pins)
        for place, its in cells.items():
            found.assertions.update(its)
            values = list(zip(*(worths.of(cell, 1) for cell in its)))
            for step in (it for it in looked if it < len(values)):
                fails = (*place, EDGE + PERIOD * step) in self.failed
                model, opened = (min(it[at] for it in values[step]) for at in (0, 1))
                if fails != (model == 0) and X not in (value for it in values[step] for value in it) and opened != X:
                    found.findings.append(Finding(DIFFERS, "", its[0], step, 0, "01"[not fails], "01"[model]))
                    break

    def named(self, variables: Dict[str, Variable]) -> Dict[str, Variable]:
        """The variables of the design, by the names of the model."""
        found = {}
        for name in self.probed.widths:
            path = ".".join(it.lower().rstrip("_") for it in name.split("."))
            variable = variables.get(f"{BENCH}.{DESIGN}.{path}")
            if variable:
                found[name] = variable
        return found


def numbered(rows: Sequence[str]) -> List[str]:
    return [f'{at} => "{it}"' for at, it in enumerate(rows)]


def converted(port: Declared, low: int, width: int) -> str:
    """A part of a row as a value of a port."""
    if port.type[0] == "bit":
        return f"rows(at)({low})"
    if port.type[0] in SCALARS:
        return f"to_stdulogic(rows(at)({low}))"
    part = f"rows(at)({low + width - 1} downto {low})"
    return part if port.type[0] == "bit_vector" else f"{port.type[0]}(to_stdlogicvector({part}))"


def plain(text: str) -> str:
    """A waveform of ghdl's, where a value is 0, 1 or x, and a name has no range."""
    text = re.sub(r"(?m)^(\$var .*?)\[-?\d+:-?\d+\] \$end$", r"\1 $end", text)
    head, mark, body = text.partition("$enddefinitions $end\n")
    return head + mark + re.sub(r"(?m)^(?:b\S+(?= )|[UXZWLH-](?=\S))", valued, body)


def valued(value: "re.Match[str]") -> str:
    return value[0].translate(TWO)


#: how a waveform spells what is no 0 and no 1
TWO: Dict[int, str] = {ord(old): new for old, new in zip("UXZWLH-", "xxxx01x")}


def first_of(text: str) -> str:
    lines = [it for it in text.splitlines() if it.strip()]
    return lines[0][:200] if lines else "it says nothing"
