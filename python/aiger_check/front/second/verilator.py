"""Verilator: it builds a program of a design, which takes longer than Icarus does, and knows no x."""

import os
import re
from dataclasses import dataclass
from pathlib import Path
from typing import Optional

from aiger_check.front.second.faults import Refused, Unable
from aiger_check.front.second.icarus import Icarus, first_of
from aiger_check.front.second.texts import Texts
from aiger_check.faults import visible
from aiger_check.tools.processes import Children, Finished, path_of

#: what would bring the design's own words into the program, or act on the machine
ACTS = re.compile(r"`systemc|\$c\d*\b|\$system|\$f\w+|DPI|\$readmem\w+\s*\(\s*[^\"\s]")
MADE = re.compile(r"VL_(SYSTEM|FOPEN|FSCANF|FREAD|SSCANF|FGETS|FCLOSE)\w*")


@dataclass
class Verilator(Icarus):
    """Builds and runs in a folder."""

    called = "Verilator"
    has_x = False

    def preprocess(self, texts: Texts) -> str:
        defines = [f"+define+{name}" for name in ("FORMAL=1", "YOSYS=1")]
        defines += [f"-D{name}={value}" for name, value in texts.sources.defines]
        (self.folder / "without.sv").write_text("`undef VERILATOR\n`undef verilator\n")
        words = [self.program, "-E", "-P", "--pp-comments", *defines, "without.sv", *texts.copies]
        self.need(self.run(words, self.folder / "plain.sv"), texts)
        return (self.folder / "plain.sv").read_text(encoding="latin-1")

    def compile(self, texts: Texts) -> None:
        """Builds the program, which may not act on the machine."""
        if ACTS.search((self.folder / "design.sv").read_text(encoding="latin-1")):
            raise Unable("what the design calls is not simulated")
        kinds = ["-Wno-fatal", "-Wno-lint", "-Wno-style", "--timing", "--trace", "-O0", "--top-module", "second_tb"]
        words = [self.program, *kinds, "-Mdir", "built", "-o", "design", "bench.sv", "design.sv"]
        self.need(self.run([*words, "--cc", "--main", "--exe"]), texts)
        made = "".join(it.read_text(errors="replace") for it in (self.folder / "built").glob("*.cpp"))
        if MADE.search(made):
            raise Unable("what the design calls is not simulated")
        flags = ["OPT_FAST=-O0", "OPT_SLOW=-O0", "OPT_GLOBAL=-O0"]
        self.need(self.run(["make", "-j2", "-C", "built", "-f", "Vsecond_tb.mk", *flags]), texts)

    def simulate(self, *plus: str) -> str:
        told = self.run([str(self.folder / "built" / "design"), *plus])
        if told.late or told.status != 0:
            raise Unable(f"the simulation failed: {visible(first_of(told.errors + told.output))}")
        return told.output

    def need(self, told: Finished, texts: Texts) -> None:
        if told.late:
            raise Unable(f"Verilator took more than {self.limit:g} s")
        if told.status != 0:
            errors = [it for it in told.errors.splitlines() if it.startswith("%Error")]
            raise Refused(visible((errors or [f"status {told.status}"])[0][:300]), True)


def verilator(children: Children, folder: Path, limit: float) -> Optional[Verilator]:
    named = os.environ.get("VERILATOR")
    program = path_of(*([named] if named else ["verilator"]))
    return Verilator(program, "", children, folder, limit) if program else None
