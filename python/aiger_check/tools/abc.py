"""ABC: invariants, and runs."""

import re
from dataclasses import dataclass
from pathlib import Path
from typing import List, NamedTuple, Optional

from aiger_check.model.for_abc import ForAbc
from aiger_check.tools.processes import Children, Finished, discard


class Shown(NamedTuple):
    """What ABC shows: rows of an invariant, or the text of a witness; or the reason why it shows nothing."""

    rows: Optional[List[str]] = None
    witness: Optional[str] = None
    reason: str = ""


@dataclass(frozen=True)
class Abc:
    """The program ABC."""

    program: str
    children: Children

    def run(self, command: str, circuit: ForAbc, folder: Path, seconds: float) -> Finished:
        """Reads the circuit, gives a command, and writes the counterexample if there is one."""
        (folder / "abc.aig").write_bytes(circuit.circuit.write())
        for name in ("abc.pla", "abc.cex"):
            discard(folder / name)
        commands = f"read_aiger abc.aig; {command} -T {max(1, round(seconds))}; write_cex -a abc.cex"
        return self.children.run([self.program, "-q", commands], folder, seconds + 1)

    def pdr(self, circuit: ForAbc, folder: Path, seconds: float) -> Shown:
        """An invariant, or a run of any length."""
        told = self.run("pdr -d -e -I abc.pla", circuit, folder, seconds)
        if re.search(r"^Property proved", told.output, re.MULTILINE):
            rows = read_rows(folder / "abc.pla", len(circuit.columns))
            return Shown(reason="ABC's invariant cannot be read") if rows is None else Shown(circuit.invariant(rows))
        if self.is_broken(told):
            witness = circuit.witness(read_counterexample(folder / "abc.cex"))
            return Shown(witness=witness, reason="ABC's counterexample cannot be read")
        if told.late or told.status == 0 and told.seconds >= seconds - 1:
            return Shown(reason=f"no invariant in {seconds:g} s")
        return Shown(reason="ABC finds no invariant" if told.status == 0 else "ABC failed")

    def shortest(self, circuit: ForAbc, folder: Path, seconds: float, frames: int) -> Optional[str]:
        """A witness that is the shortest, of so many steps at most."""
        told = self.run(f"bmc3 -F {frames + circuit.begins}", circuit, folder, seconds)
        return circuit.witness(read_counterexample(folder / "abc.cex")) if self.is_broken(told) else None

    def is_broken(self, told: Finished) -> bool:
        return bool(re.search(r"^Output 0 of miter .* was asserted in frame \d+", told.output, re.MULTILINE))


def read_rows(path: Path, width: int) -> Optional[List[str]]:
    """The rows of an invariant that ABC wrote."""
    try:
        lines = path.read_text(errors="replace").splitlines()
    except OSError:
        return None
    rows = [line for line in lines if line[:1] in ("0", "1", "-")]
    right = all(re.fullmatch(f"[01-]{{{width}}} 1", row) for row in rows)
    return [row[:width] for row in rows] if right else None


def read_counterexample(path: Path) -> List[str]:
    """The lines of a counterexample that ABC wrote."""
    try:
        return path.read_text(errors="replace").partition("#")[0].split("\n")
    except OSError:
        return []
