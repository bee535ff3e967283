"""SAT solvers."""

import contextlib
import enum
import os
import re
from dataclasses import dataclass
from pathlib import Path
from typing import Optional, Tuple

from aiger_check.tools.processes import Children, Finished, discard


class Said(enum.Enum):
    """What a solver says of clauses."""

    SATISFIABLE = 10
    UNSATISFIABLE = 20
    NOTHING = 0


SOLVERS = ("cadical", "kissat", "cryptominisat5", "minisat", "picosat")
NO_REFUTATION = ("minisat", "picosat")


def solver_kind(program: str) -> Optional[str]:
    """Which solver a program is, by the last part of its path."""
    name = os.path.basename(program)
    return next((kind for kind in SOLVERS if re.fullmatch(rf"{kind}([^a-z0-9].*)?", name)), None)


@dataclass(frozen=True)
class Solver:
    """A SAT solver."""

    kind: str
    program: str
    children: Children

    @property
    def refutes(self) -> bool:
        """Whether it writes a refutation that is read here."""
        return self.kind not in NO_REFUTATION

    def solve(self, clauses: Path, limit: float) -> Tuple[Said, Finished]:
        """Asks for an answer to clauses: it comes beside them, in .answer, and a refutation in .drat."""
        answer, proof = clauses.with_suffix(".answer"), clauses.with_suffix(".drat")
        for path in (answer, proof):
            discard(path)
        arguments = {
            "cadical": ["-q", clauses.name, proof.name],
            "kissat": ["-q", clauses.name, proof.name],
            "cryptominisat5": ["--verb", "0", "--bva", "0", "--xor", "0", clauses.name, "proof.frat"],
            "minisat": ["-verb=0", clauses.name, "result"],
            "picosat": [clauses.name],
        }[self.kind]
        told = self.children.run([self.program, *arguments], clauses.parent, limit, answer)
        if self.kind == "minisat":
            answer.write_bytes(minisat_answer(clauses.with_name("result")))
        if self.kind == "cryptominisat5" and told.status == 20:
            drat_of_frat(clauses.with_name("proof.frat"), proof)
        said = next((said for said in Said if said.value == told.status), Said.NOTHING)
        return (Said.NOTHING if told.late else said), told


def clause_count(path: Path) -> int:
    """How many clauses a file has, by its first line."""
    try:
        with open(path, "rb") as file:
            return int(file.readline().split()[3])
    except (OSError, IndexError, ValueError):
        return 0


def minisat_answer(result: Path) -> bytes:
    """MiniSat's result in the form of the SAT competitions."""
    try:
        lines = result.read_bytes().split(b"\n")
    except FileNotFoundError:
        return b""
    word = {b"SAT": b"SATISFIABLE", b"UNSAT": b"UNSATISFIABLE"}.get(lines[0], b"UNKNOWN")
    values = [b"v " + line for line in lines[1:2] if line]
    return b"\n".join([b"s " + word, *values, b""])


def drat_of_frat(frat: Path, drat: Path) -> None:
    """CryptoMiniSat's FRAT in text as DRAT: what it adds and what it deletes, without numbers and hints."""
    begins = {b"a": b"", b"d": b"d "}
    with contextlib.suppress(FileNotFoundError), open(frat, "rb") as lines, open(drat, "wb") as file:
        for line in lines:
            words = line.split()
            if len(words) > 2 and words[0] in begins:
                literals = words[2 : words.index(b"0", 2) + 1] if b"0" in words[2:] else words[2:]
                file.write(begins[words[0]] + b" ".join(literals) + b"\n")
