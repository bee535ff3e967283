"""Which programs there are."""

import os
from typing import Dict, Optional

from aiger_check.faults import Trouble, Usage, visible
from aiger_check.search.limits import Limits, Tools
from aiger_check.session import Session
from aiger_check.tools.abc import Abc
from aiger_check.tools.aiger import Aiger
from aiger_check.tools.processes import Children, path_of
from aiger_check.tools.solvers import NO_REFUTATION, SOLVERS, Solver, solver_kind


class Programs:
    """The programs of a run: what is missing is told."""

    def __init__(self, session: Session) -> None:
        self.given, self.children, self.notes = session.given, session.children, session.notes
        #: what was found of them
        self.found: Dict[str, str] = {}

    def tools(self) -> Tools:
        """What the searches ask."""
        given = self.given
        is_bounded = given.mode == "bmc"
        aiger, solver, abc = self.aiger(self.children), self.solver(), None if is_bounded else self.abc()
        if not solver and not abc:
            raise Trouble("neither a SAT solver nor ABC was found")
        return Tools(aiger, solver, abc, Limits(given.frames, given.time, given.limit, is_bounded))

    def named(self, variable: str, *names: str) -> Optional[str]:
        """The program that a variable names, or else the first of these that there is."""
        named = os.environ.get(variable)
        return path_of(*([named] if named else names))

    def needed(self, variable: str, name: str) -> str:
        """A program without which there is no answer."""
        program = self.named(variable, name)
        if not program:
            raise Trouble(f"not found: {visible(os.environ.get(variable) or name)}")
        self.found[name] = program
        return program

    def aiger(self, children: Children) -> Aiger:
        return Aiger(self.needed("AIGER", "aiger"), children, max(self.given.limit, 60.0))

    def yosys(self) -> str:
        return self.needed("YOSYS", "yosys")

    def ghdl(self) -> str:
        try:
            return self.needed("GHDL", "ghdl")
        except Trouble as why:
            raise Trouble(f"{why}; VHDL needs ghdl, as of a package ghdl: install it, or let GHDL name it") from why

    def solver(self) -> Optional[Solver]:
        wanted = self.given.solver or os.environ.get("SOLVER") or "cadical"
        kind = solver_kind(wanted)
        if not kind:
            raise Usage(f"not a solver that is known ({', '.join(SOLVERS)}): {visible(wanted)}")
        program = path_of(wanted)
        if not program:
            without = "without a SAT solver ABC's counterexamples alone are answers"
            self.notes.tell(f"not found: {visible(wanted)}; {without}")
            return None
        if kind in NO_REFUTATION:
            self.notes.tell(f"{kind} writes no refutation, as cadical does: no answer is never, or none within a bound")
        self.found[kind] = program
        return Solver(kind, program, self.children)

    def abc(self) -> Optional[Abc]:
        program = self.named("ABC", "berkeley-abc", "abc")
        if not program:
            wanted = os.environ.get("ABC") or "berkeley-abc"
            self.notes.tell(f"not found: {visible(wanted)}; without ABC there is no invariant, and runs are bounded")
            return None
        self.found["abc"] = program
        return Abc(program, self.children)
