"""What is asked of all bad states of a miter at once."""

from pathlib import Path
from typing import Optional

from aiger_check.answers import Assertion, Verdict
from aiger_check.equality.alike import Alike
from aiger_check.equality.sides import Sides
from aiger_check.model.circuit import Model
from aiger_check.report import Progress
from aiger_check.search.limits import Target, Tools
from aiger_check.search.single import Search
from aiger_check.tools.aiger import aigtools
from aiger_check.tools.solvers import Said


class Together(Search):
    """Asks of all bad states of a miter at once whether none is reached: what two designs have in common is then gone
    through once, and not for each pair again."""

    #: how long a solver is asked whose refutations are not put together here
    LONG = 60.0

    def __init__(self, sides: Sides, model: Model, tools: Tools, folder: Path, progress: "Progress") -> None:
        super().__init__(Assertion("all", "together", 0), model, tools, folder, progress)
        self.whole, self.sides = Target(model.path), sides

    def of_all(self) -> Optional[Verdict]:
        """That none is; else the rows are kept for the single ones, if they are an invariant."""
        self.folder.mkdir()
        solver = self.tools.solver
        if not solver or not solver.refutes or self.tools.limits.is_bounded:
            return None
        self.progress.tell(self.assertion, "invariant")
        alike = Alike(self.model, self.sides, self.tools)
        alike.find()
        self.rows = alike.rows()
        if solver.kind == "cadical":
            self.halves = len(self.sides.first.circuit.gates), alike.equalities()
            verdict = self.by_gates(self.rows)
        else:
            self.left = min(self.left, self.LONG)
            verdict = self.by_invariant(self.rows)
        if verdict:
            verdict.of_all = True
        elif self.rows and not self.are_kept():
            self.rows = []
        return verdict

    def are_kept(self) -> bool:
        """Whether the rows are an invariant, by the solver's word."""
        self.left = self.tools.limits.time
        circuit, path = self.model.circuit, self.folder / "rows.aig"
        parts = {name: getattr(circuit, name) for name in ("max_var", "inputs", "latches", "constraints", "gates")}
        path.write_bytes(aigtools().Circuit(bad=[0], **parts).write())
        options = ("--invariant", self.folder / "never.pla")
        return self.ask(Target(path), "rows", "an invariant", *options) is Said.UNSATISFIABLE
