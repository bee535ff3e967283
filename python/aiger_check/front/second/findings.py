"""What follows for each assertion where a simulation and the model do not agree."""

from dataclasses import dataclass, field
from typing import Any, Dict, Iterable, List, Optional, Sequence, Set, Tuple

from aiger_check.answers import counted
from aiger_check.faults import visible
from aiger_check.front.cones import Bit, Cones
from aiger_check.front.second.compare import BETWEEN, DECIDED, DIFFERS, LOST, OPEN, Finding
from aiger_check.front.second.comparison import Compared, Comparison
from aiger_check.front.yosys import bare

#: so many names are named
NAMED = 4
PROPERTIES = ("$assert", "$live")
ASSUMED = ("$assume", "$fair")


@dataclass
class Report:
    """What is said: reasons to doubt, each with the cells of assertions or for all; lines of single assertions, by their
    cells; and notes."""

    doubts: List[Tuple[str, Optional[List[str]]]] = field(default_factory=list)
    lines: Dict[str, List[str]] = field(default_factory=dict)
    notes: List[str] = field(default_factory=list)
    #: the cells of which it is known what they depend on
    known: List[str] = field(default_factory=list)


class Depends:
    """What depends on what in the flat design."""

    def __init__(self, module: Dict[str, Any]) -> None:
        self.cones = Cones(module)
        self.nets = {bare(name): net["bits"] for name, net in module["netnames"].items()}
        self.cells = {bare(name): name for name, cell in module["cells"].items()}
        self.kinds = {bare(name): cell["type"] for name, cell in module["cells"].items()}
        self.known: Dict[str, Set[Bit]] = {}

    def of_cell(self, cell: str) -> Set[Bit]:
        """The bits on which an assertion depends."""
        if cell not in self.known:
            self.known[cell] = self.cones.bits([self.cells[cell]]) if cell in self.cells else set()
        return self.known[cell]

    def of_name(self, name: str) -> Set[Bit]:
        """The bits on which those of a name depend, with those."""
        key = f"name {name}"
        if key not in self.known:
            bits = set(self.nets.get(name, []))
            drivers = {it for bit in bits for it in self.cones.drivers.get(bit, [])}
            self.known[key] = self.cones.bits(drivers) | bits
        return self.known[key]

    def of(self, finding: Finding) -> Set[Bit]:
        return self.of_cell(finding.cell) if finding.cell else self.of_name(finding.name)

    def properties(self, *kinds: str) -> List[str]:
        return [name for name, kind in self.kinds.items() if kind in kinds]

    def needs(self, cell: str, finding: Finding) -> bool:
        """Whether an assertion depends on what was found."""
        if finding.cell:
            return cell == finding.cell
        return bool(self.of_cell(cell) & set(self.nets.get(finding.name, [])))


class Findings:
    """What was found of a design, and what is said of it."""

    def __init__(self, comparison: Comparison, compared: Compared, is_of_all: bool) -> None:
        #: whether all that is asked depends on all
        self.is_of_all = is_of_all
        self.compared, self.design, self.called = compared, comparison.design, comparison.simulator.called
        self.depends = Depends(comparison.probed.module)
        self.places = {it.cell: it for it in self.design.properties}
        self.temporal = comparison.telling.temporal
        nets = self.depends.nets
        self.unknown = {nets[name][at] for name, at in compared.unknown if name in nets}

    def report(self) -> Report:
        report = Report()
        wrong, decided = self.ordered(DIFFERS, OPEN, BETWEEN), self.ordered(DECIDED)
        self.disagreed = {it.name for it in (*wrong, *decided)}, {it.cell for it in (*wrong, *decided)}
        lost = [it for it in self.compared.findings if it.kind == LOST]
        report.doubts += [(self.words(finding), None) for finding in lost]
        if self.is_of_all:
            report.doubts += [(self.words(it), None) for it in wrong[:1]]
        else:
            self.add_doubts(wrong, report)
        self.add_decided(decided, report)
        if all(it.kind in (BETWEEN, DECIDED) for it in (*wrong, *decided)) and not lost:
            report.notes.append(self.agreement(report))
        return report

    def first_wrong(self) -> str:
        """What is wrong first, if anything is."""
        return next((self.words(it) for it in self.ordered(DIFFERS, OPEN)), "")

    def ordered(self, *kinds: str) -> List[Finding]:
        """Those of some kinds, those before which on others depend. Where something is known in neither of the two that
        they depend on, an x in the simulation may be one that a value of it has not."""
        found = []
        for it in self.compared.findings:
            if it.kind in kinds and (it.kind in (DIFFERS, BETWEEN) or not self.depends.of(it) & self.unknown):
                found.append(it)
        return sorted(found, key=lambda it: (it.step, bool(it.cell), len(self.depends.of(it)), it.name))

    def add_doubts(self, wrong: Sequence[Finding], report: Report) -> None:
        """For each assertion the first that is wrong of what it depends on; for all, if an assumption does."""
        of_all = self.first(wrong, self.depends.properties(*ASSUMED))
        if of_all:
            report.doubts.append((self.words(of_all), None))
        cells: Dict[Finding, List[str]] = {}
        for cell in self.depends.properties(*PROPERTIES):
            finding = self.first(wrong, [cell])
            if finding and not of_all:
                cells.setdefault(finding, []).append(cell)
        report.doubts += [(self.words(finding, "it"), its) for finding, its in cells.items()]
        report.known = self.depends.properties(*PROPERTIES)
        if wrong and not report.doubts:
            report.notes.append(f"{self.words(wrong[0])}; no assertion depends on it")

    def first(self, wrong: Iterable[Finding], cells: Sequence[str]) -> Optional[Finding]:
        return next((it for it in wrong if any(self.depends.needs(cell, it) for cell in cells)), None)

    def add_decided(self, decided: Sequence[Finding], report: Report) -> None:
        """A line for each assertion that builds on what the design leaves open and the model does not."""
        for cell in self.depends.properties(*PROPERTIES):
            finding = self.first(decided, [cell])
            if finding:
                named = self.named(cell)
                what = (
                    "it" if finding.cell else f"{visible(self.design.top)}.{visible(finding.name)}, on which it builds,"
                )
                value = {"1": "holds", "0": "fails"}.get(finding.model, "x") if finding.cell else finding.model
                words = f"at step {finding.step} {what} is x in {self.called}, and {value} in the model"
                report.lines.setdefault(cell, []).append(f"{named}: {words}")

    def named(self, cell: str) -> str:
        it = self.places.get(cell)
        if not it:
            return visible(f"{self.design.top}.{cell}")
        place = self.design.sources.shown(it.file, it.line)
        return visible(f"{self.design.top}.{it.name} ({place})")

    def words(self, finding: Finding, own: str = "") -> str:
        """What is wrong; an assertion that this is said of itself has another name."""
        named = own or (self.named(finding.cell) if finding.kind != LOST else "")
        if finding.kind == LOST:
            return visible(
                f"the model lacks {self.design.top}.{finding.name} ({finding.cell}), which {self.called} has"
            )
        if finding.kind == BETWEEN:
            between = "where inputs change between the edges of the clock, as asynchronous sets and resets see"
            return f"{named} fails in {self.called} at step {finding.step}, {between}"
        if finding.cell:
            said = {"0": "fails", "1": "holds", "x": "x"}
            values = f"{said[finding.design]} in {self.called}, {said[finding.model]} in the model"
            return f"{named} differs at step {finding.step}: {values}"
        name = visible(f"{self.design.top}.{finding.name}")
        if finding.kind == OPEN:
            return f"{name} is undriven in the model, and {finding.design} in {self.called} at step {finding.step}"
        return f"{name} differs at step {finding.step}: {finding.design} in {self.called}, {finding.model} in the model"

    def agreement(self, report: Report) -> str:
        """How much was compared, and what was not."""
        found = self.compared
        names, cells = self.disagreed
        counts = [counted(found.steps, "step"), counted(len(found.signals - names), "signal")]
        counts.append(counted(len(found.assertions - cells), "assertion"))
        said = f"{', '.join(counts)} agree with {self.called}"
        others = [visible(it) for it in found.other_names]
        others += [self.named(it) for it in found.other_cells]
        if self.temporal:
            others.append(f"{counted(self.temporal, 'assertion')} of more than one step")
        if not others:
            return said
        more = f" and {len(others) - NAMED} more" if len(others) > NAMED else ""
        return f"{said}; not compared: {', '.join(others[:NAMED])}{more}"
