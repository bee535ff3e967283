"""Icarus: it reads the texts, and runs what it made of them."""

import os
import re
from dataclasses import dataclass
from pathlib import Path
from typing import List, Optional, Sequence

from aiger_check.faults import visible
from aiger_check.front.second.faults import Refused, Unable
from aiger_check.front.second.texts import Texts
from aiger_check.tools.processes import Children, Finished, path_of

#: what a compiled design may call: our own testbench does, and functions of values
CALLS = {"$display", "$readmemb", "$readmemh", "$dumpfile", "$dumpvars", "$dumplimit", "$value$plusargs"}
CALLS |= {
    "$test$plusargs",
    "$finish",
    "$clog2",
    "$countones",
    "$onehot",
    "$onehot0",
    "$isunknown",
    "$ivlh_attribute_event",
}
CALLS |= {"$signed", "$unsigned", "$rtoi", "$itor", "$ln", "$log10", "$exp", "$sqrt", "$pow", "$floor", "$ceil"}
CALLS |= {"$sin", "$cos", "$tan", "$asin", "$acos", "$atan", "$atan2", "$hypot", "$size", "$bits", "$left", "$right"}
CALLS |= {"$low", "$high", "$increment", "$dimensions", "$unpacked_dimensions"}
CALLED = re.compile(r'^\s*%vpi_\w+(?:/\w+)?\s[^"\n]*"([^"\n]*)"', re.M)
#: what is a matter of Icarus, and not of the design
LIMITS = re.compile(
    r"sorry:|syntax error|second_past_|second_tb(?!\.dut)|internal error|assertion failed|not supported|unsupported",
    re.I,
)

#: what it says against a line of the design
PLACED = re.compile(r"(text\d+\.svh?|design\.sv):\d+: (error|sorry): ")
#: temporary files stand in our folder, and neither memory nor a file is without limit
LIMITED = 'ulimit -v 4000000; ulimit -f 1000000; TMPDIR=. TMP=. TEMP=. exec "$@"'


@dataclass
class Icarus:
    """Compiles and runs in a folder."""

    program: str
    runner: str
    children: Children
    folder: Path
    limit: float

    called = "Icarus"
    #: whether it knows values that are neither 0 nor 1
    has_x = True

    def run(self, words: Sequence[str], output: Optional[Path] = None) -> Finished:
        return self.children.run(["sh", "-c", LIMITED, "sh", *words], self.folder, self.limit, output)

    def preprocess(self, texts: Texts) -> str:
        """One text of all, without macros."""
        defines = [
            f"-D{it}" for it in ("FORMAL=1", "YOSYS=1", *(f"{name}={value}" for name, value in texts.sources.defines))
        ]
        (self.folder / "without.sv").write_text("`undef __ICARUS__\n")
        words = [self.program, "-g2012", "-E", "-o", "plain.sv", *defines, "without.sv", *texts.copies]
        self.need(self.run(words), texts)
        return (self.folder / "plain.sv").read_text(encoding="latin-1")

    def compile(self, texts: Texts) -> None:
        """Compiles the testbench and the design, which may call nothing that acts on the machine."""
        words = [
            self.program,
            "-g2012",
            "-gno-assertions",
            "-s",
            "second_tb",
            "-o",
            "design.vvp",
            "bench.sv",
            "design.sv",
        ]
        self.need(self.run(words), texts)
        made = (self.folder / "design.vvp").read_text(errors="replace")
        others = set(CALLED.findall(made)) - CALLS
        if others or "vpi_module" not in made:
            raise Unable(visible(f"{', '.join(sorted(others)) or 'what was compiled'} is not simulated"))

    def simulate(self, *plus: str) -> str:
        told = self.run([self.runner, "-n", "design.vvp", *plus])
        if told.late:
            raise Unable(f"the simulation did not end in {self.limit:g} s")
        if told.status != 0 or "rror" in told.errors:
            raise Unable(f"the simulation failed: {visible(first_of(told.errors + told.output))}")
        return told.output

    def need(self, told: Finished, texts: Texts) -> None:
        if told.late:
            raise Unable(f"Icarus took more than {self.limit:g} s")
        if told.status == 0:
            return
        lines = [it for it in told.errors.splitlines() if it.strip()]
        errors = [it for it in lines if PLACED.match(it)]
        words = visible((errors or lines or [f"status {told.status}"])[0][:300])
        is_limit = not errors or told.status < 0 or any(LIMITS.search(it) for it in lines)
        raise Refused(words, is_limit)


def first_of(text: str) -> str:
    lines: List[str] = [it for it in text.splitlines() if it.strip()]
    return lines[0][:200] if lines else "it says nothing"


def icarus(children: Children, folder: Path, limit: float) -> Optional[Icarus]:
    """Icarus, where it is there with what runs its designs, which stands beside it."""
    named = os.environ.get("IVERILOG")
    program = path_of(*([named] if named else ["iverilog"]))
    if not program:
        return None
    beside = os.path.join(os.path.dirname(os.path.realpath(program)), "vvp")
    runner = path_of(os.environ.get("VVP") or "vvp") or (beside if os.access(beside, os.X_OK) else None)
    return Icarus(program, runner, children, folder, limit) if runner else None
