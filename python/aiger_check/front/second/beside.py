"""A second front end beside the search."""

import threading
import time
from dataclasses import dataclass, field
from pathlib import Path
from typing import Dict, Optional

from aiger_check.answers import Assertion
from aiger_check.doubts import Doubts
from aiger_check.faults import Stopped, Trouble, visible
from aiger_check.front.second.comparison import Comparison, Design
from aiger_check.front.second.faults import Refused, Unable
from aiger_check.front.second.findings import Findings, Report
from aiger_check.front.second.icarus import Icarus, icarus
from aiger_check.front.second.probes import Probes
from aiger_check.front.second.simulated import CALLED, Simulated
from aiger_check.front.second.verilator import verilator
from aiger_check.front.second.witness import witness_of
from aiger_check.front.vhdl.ghdl import Vhdl
from aiger_check.model.circuit import Model
from aiger_check.tools.aiger import aigtools
from aiger_check.tools.processes import Children

#: what all of it may take
LIMIT = 10.0
#: and what a simulator may that builds a program
LONG = 90.0
NOT_ASKED = "no second front end was asked"


@dataclass
class Second:
    """Asks a simulator of a design while the search goes on. Whoever gives an answer waits until it has ended, as it may
    be a reason to doubt the model."""

    design: Design
    yosys: str
    children: Children
    #: a folder that is to be made
    folder: Path
    doubts: Doubts
    #: which simulator is wanted, if one is
    wanted: str = ""
    #: whether doubts are of all that is asked
    is_of_all: bool = False
    report: Report = field(default_factory=Report)
    comparison: Optional[Comparison] = None
    #: what is wrong first, of which it may not be known what depends on it
    wrong: str = ""
    #: both waveforms of a run in which the two differ, by their names
    waves: Dict[str, Path] = field(default_factory=dict)

    def start(self) -> "Second":
        self.thread = threading.Thread(target=self.ask, daemon=True)
        self.thread.start()
        return self

    @property
    def called(self) -> str:
        return self.comparison.simulator.called if self.comparison else ""

    def wait(self) -> None:
        """Waits until it has ended, and all doubts are there."""
        self.thread.join()
        if self.children.stopped:
            raise Stopped

    def ask(self) -> None:
        """Compares, whatever comes of it: what fails here says nothing of the design."""
        try:
            self.folder.mkdir()
            self.by_first()
        except (Stopped, MemoryError):
            self.report.notes.append(NOT_ASKED)
        except (Unable, Trouble) as why:
            self.report.notes.append(f"{NOT_ASKED}: {visible(str(why))}")
        except OSError as why:
            self.report.notes.append(f"{NOT_ASKED}: it left nothing to read: {why.strerror}")
        except Exception as why:
            self.report.notes.append(f"{NOT_ASKED}: {type(why).__name__}: {visible(str(why))}")
        for reason, cells in self.report.doubts:
            self.doubts.add(reason, None if self.is_of_all else cells)
        if self.wrong:
            self.doubts.add_for_others(self.wrong, self.report.known)

    def by_first(self) -> None:
        """Asks Icarus, or Verilator where that is not there or cannot read the design."""
        first = icarus(self.children, self.folder, LIMIT) if self.wanted != "verilator" else None
        other = verilator(self.children, self.folder, LONG) if self.wanted != "icarus" else None
        missing = {"icarus": "iverilog", "verilator": "verilator"}.get(self.wanted, "neither iverilog nor verilator")
        if not first and not other:
            raise Unable(f"{missing} is not installed" if self.wanted else f"{missing} is installed")
        try:
            if first:
                return self.by(first, LIMIT)
        except Refused as why:
            if not other:
                raise Unable(f"Icarus does not read the design: {why}") from why
        if other:
            self.by(other, LONG)

    def by(self, simulator: Icarus, limit: float) -> None:
        probes = Probes(self.yosys, self.children, self.design.sources.folder)
        comparison = Comparison(self.design, simulator, probes, self.folder, time.monotonic() + limit)
        try:
            compared = comparison.compared()
        except Refused as why:
            words = comparison.with_places(str(why))
            if why.is_limit and not simulator.has_x:
                raise Unable(f"{simulator.called} does not read the design: {words}") from why
            if why.is_limit:
                raise Refused(words, True) from why
            self.report.doubts.append((f"{simulator.called} refuses what Yosys takes: {words}", None))
            return
        findings = Findings(comparison, compared, self.is_of_all)
        self.report, self.comparison, self.wrong = findings.report(), comparison, findings.first_wrong()
        if self.report.doubts:
            self.put_waves(comparison, compared.findings[0].run)
        if self.design.sources.vhdl:
            self.by_ghdl(comparison, self.design.sources.vhdl)

    def by_ghdl(self, comparison: Comparison, vhdl: Vhdl) -> None:
        """Compares with ghdl's own simulation, as the others run what its synthesis made."""
        try:
            compared = Simulated(comparison, vhdl, self.children, self.folder / "ghdl").compared()
        except Unable as why:
            self.report.notes.append(f"{CALLED} was not asked: {visible(str(why))}")
            return
        findings = Findings(comparison, compared, self.is_of_all)
        findings.called = CALLED
        report = findings.report()
        self.report.doubts += report.doubts
        self.report.notes += report.notes
        self.wrong = self.wrong or findings.first_wrong()

    def shows(self, assertion: Assertion, model: Model, witness: Path) -> Optional[bool]:
        """Whether an assertion fails in the simulation too, by a witness of the model, or None where that is not known."""
        if not self.comparison:
            return None
        try:
            its = witness_of(witness, model, self.comparison.probed.widths)
            return self.comparison.shows(assertion.cell, its)
        except (Unable, OSError, ValueError):
            return None

    def put_waves(self, comparison: Comparison, number: int) -> None:
        """Keeps what both did in a run."""
        run, model = comparison.runs[number], self.folder / "second-model.vcd"
        circuit = comparison.probed.circuit
        words = circuit.latches.words
        for at, value in run.drawn.starts.items():
            words[3 * at + 2] = value
        steps = "".join("".join("01x"[it] for it in values) + "\n" for values in run.drawn.inputs)
        model.write_bytes(aigtools().simulate(circuit.write(), steps.encode(), vcd=True))
        self.waves = {f"second-{comparison.simulator.called.lower()}.vcd": run.waves, "second-model.vcd": model}
