"""The answer for one assertion."""

import secrets
import time
from dataclasses import replace
from pathlib import Path
from typing import Any, Dict, List, Optional, Sequence, Set, Tuple

from aiger_check.answers import Answer, Assertion, Assumption, Pair, Verdict
from aiger_check.equality.alike import Equality
from aiger_check.equality.sweep import Sweep
from aiger_check.faults import Trouble
from aiger_check.model.circuit import Model
from aiger_check.model.cubes import Cubes
from aiger_check.model.for_abc import ForAbc
from aiger_check.model.part import Part
from aiger_check.report import Progress
from aiger_check.search.limits import FEW, Target, Tools, steps_up_to
from aiger_check.tools.aiger import aiger_failure
from aiger_check.tools.processes import Finished, discard
from aiger_check.tools.solvers import Said, Solver, clause_count


class Search:
    """Finds the answer for one assertion, in a folder of its own.

    Runs are looked for in what the assertion depends on, which may be far less than the model; but what is answered is
    shown of the model.
    """

    def __init__(self, assertion: Assertion, model: Model, tools: Tools, folder: Path, progress: "Progress") -> None:
        self.assertion, self.tools, self.folder, self.progress = assertion, tools, folder, progress
        self.model, self.whole = model, Target(model.path, assertion.option)
        self.left = tools.limits.limit
        #: what aiger says of witnesses
        self.steps: Dict[Path, int] = {}
        self.refuted = 0
        #: what is shown of it beside others, where nothing more can be shown of it alone
        self.bound: Optional[Verdict] = None
        #: the simplified clauses, by name; and the files of which more than half would be left
        self.simplified: Set[str] = set()
        self.not_simple: Set[Path] = set()
        self.frame_clauses: Dict[Target, int] = {}
        self.rows: List[str] = []
        #: of a miter the gates of its first half, and which latches are equal
        self.halves: Optional[Tuple[int, Sequence["Equality"]]] = None
        #: whether the solver alone had no answer soon
        self.is_undecided = False
        self.reasons: List[str] = []
        self.notes: List[str] = []

    @property
    def solver(self) -> Solver:
        """The solver, which is asked for where there is one."""
        if not self.tools.solver:
            raise Trouble("there is no SAT solver")
        return self.tools.solver

    def prepare(self) -> Optional[str]:
        """Makes what is searched, or tells why it cannot be made."""
        self.part = Part(self.model, self.assertion.bad)
        self.smaller = Target(self.folder / "part.aig", ("--bad", 0))
        self.smaller.path.write_bytes(self.part.circuit().write())
        return None

    def verdict(self) -> Verdict:
        self.folder.mkdir()
        reason = self.prepare()
        if reason:
            return Verdict(Answer.UNKNOWN, reason=reason)
        steps = steps_up_to(self.tools.limits.frames)
        few = sum(count <= FEW for count in steps)
        return (
            self.without_latches()
            or self.bounded(steps[:few])
            or self.by_rows()
            or self.by_itself()
            or self.by_abc()
            or self.bounded(steps[few:])
            or self.none_within()
            or Verdict(Answer.UNKNOWN, reason=", ".join(self.reasons))
        )

    def fails(self, reason: str) -> None:
        """Notes why there is no answer."""
        if reason not in self.reasons:
            self.reasons.append(reason)

    def unroll(self, target: Target, *options: Any) -> Finished:
        return self.tools.aiger.run("aigunroll", *target.option, *options, folder=self.folder)

    def write_clauses(self, target: Target, path: Path, *options: Any) -> Finished:
        """Has clauses written: over frames simplified ones, as long as less than half is left. More frames mostly leave
        more; and an older aiger knows plain ones alone."""
        self.simplified.discard(path.stem)
        if options[0] == "--frames" and target.path not in self.not_simple:
            told = self.unroll(target, *options, "--simplify", "--cnf", target.path, path)
            if told.status == 0 and 0 < 2 * clause_count(path) < options[1] * self.clauses_of_a_frame(target):
                self.simplified.add(path.stem)
                return told
            self.not_simple.add(target.path)
        return self.unroll(target, *options, "--cnf", target.path, path)

    def clauses_of_a_frame(self, target: Target) -> int:
        """How many clauses there are for the gates of a frame."""
        if target not in self.frame_clauses:
            path = self.folder / "frame.cnf"
            told = self.unroll(target, "--frames", 1, "--cnf", target.path, path)
            self.frame_clauses[target] = clause_count(path) - 2 if told.status == 0 else 0
            discard(path)
        return self.frame_clauses[target]

    def ask(self, target: Target, name: str, what: str, *options: Any) -> Said:
        """What the solver says of the clauses that aiger writes by these options; if nothing, the reason is noted."""
        solver, limit, clauses = self.solver, self.tools.limits.limit, self.folder / f"{name}.cnf"
        if self.left <= 0:
            self.fails(f"no answer for {what} in {limit:g} s")
            return Said.NOTHING
        told = self.write_clauses(target, clauses, *options)
        if told.status != 0:
            self.fails(aiger_failure(told).replace(f"{self.folder}/", ""))
            return Said.NOTHING
        said, told = solver.solve(clauses, self.left)
        self.left -= told.seconds
        clauses.unlink(missing_ok=True)
        if said is Said.NOTHING:
            self.fails(f"no answer for {what} in {limit:g} s" if told.late else f"{solver.kind} failed for {what}")
        return said

    def is_shown(self, claim: str, name: str, *options: Any) -> bool:
        """Whether aiger says this of the model by the solver's refutation; if not, the reason is noted."""
        solver = self.solver
        if not solver.refutes:
            self.fails(f"{solver.kind} writes no refutation, as cadical does")
            return False
        options += ("--simplify",) * (name in self.simplified)
        told = self.unroll(self.whole, *options, "--refutation", self.folder / f"{name}.drat", self.whole.path)
        if told.status == 0 and told.output == f"{claim}\n":
            return True
        late = f"the refutation of {solver.kind} was not checked in {told.seconds:.0f} s"
        self.fails(late if told.late else f"the refutation of {solver.kind} is not right")
        return False

    # Runs of a bounded length

    def bounded(self, steps: Sequence[int]) -> Optional[Verdict]:
        """Looks for a run that breaks the assertion, of at most so many steps, then of more."""
        # what was shown of more is so of fewer
        for count in (it for it in steps if it > self.refuted) if self.tools.solver else ():
            said, witness = self.within(count)
            if witness:
                return self.shortest(witness)
            if said is not Said.UNSATISFIABLE:
                break
        return None

    def within(self, count: int) -> Tuple[Said, Optional[Path]]:
        """What the solver says of runs of at most so many steps, and the witness that follows from its answer."""
        self.progress.tell(self.assertion, f"{count} steps")
        name, what = f"part{count}", f"{count} steps"
        said = self.ask(self.smaller, name, what, "--frames", count)
        discard(self.folder / f"{name}.drat")
        if said is Said.UNSATISFIABLE:
            self.refuted = count
        if said is not Said.SATISFIABLE:
            return said, None
        answer, smaller = self.folder / f"{name}.answer", self.folder / f"{name}.aiw"
        told = self.unroll(self.smaller, "--frames", count, "--answer", answer, self.smaller.path, smaller)
        witness = self.written(self.widened(smaller.read_text())) if told.status == 0 else None
        if not witness:
            self.fails(f"the answer of {self.solver.kind} for {what} is wrong")
            return Said.NOTHING, None
        return said, witness

    def widened(self, text: str) -> str:
        """A witness for the model, by one for what is searched."""
        return self.part.widened(text)

    def written(self, text: Optional[str]) -> Optional[Path]:
        """The file of a witness, if it is one."""
        if not text:
            return None
        path = self.folder / f"run{secrets.token_hex(4)}.aiw"
        path.write_text(text)
        step = self.tools.aiger.confirmed(self.model.path, path)
        if step is None:
            discard(path)
            return None
        self.steps[path] = step
        return path

    def step(self, witness: Path) -> int:
        """The step that aiger said of a witness when it was written."""
        return self.steps[witness]

    def length(self, witness: Path) -> int:
        """How many steps lead to what the witness claims."""
        return self.step(witness)

    def shortest(self, witness: Path) -> Verdict:
        """The shortest run that breaks the assertion, by a witness of one that does."""
        step = self.length(witness)
        self.left = min(self.left, self.tools.limits.time)
        while self.tools.solver and self.refuted < step:
            said, shorter = self.within((self.refuted + step) // 2 + 1)
            if shorter:
                witness, step = shorter, self.length(shorter)
            elif said is not Said.UNSATISFIABLE:
                break
        if step and not (self.refuted == step and self.is_none_within(step)):
            self.note_longer()
        return Verdict(Answer.REACHED, steps=step, witness=witness)

    def note_longer(self) -> None:
        self.notes.append(f"{self.assertion}: that no shorter {self.assertion.run} breaks it is not proved")

    def is_plain(self, *options: Any) -> bool:
        """Whether it is shown without a solver, since the clauses refute themselves."""
        refutation = self.folder / "never.drat"
        discard(refutation)
        refutation.write_bytes(b"")
        words = (*self.whole.option, *options, "--refutation", refutation, self.whole.path)
        told = self.tools.aiger.call("aigunroll", *words)
        return bool(told and (told.status, told.output) == (0, "never\n"))

    def is_none_within(self, count: int) -> bool:
        """Whether there is no run of at most so many steps: that is shown of the model."""
        name, options = f"within{count}", ("--frames", count)
        if self.solver.refutes:
            if self.ask(self.whole, name, f"{count} steps", *options) is not Said.UNSATISFIABLE:
                return False
        return self.is_shown(f"none within {count}", name, *options)

    def none_within(self) -> Optional[Verdict]:
        if self.bound:
            return replace(self.bound)
        count, name = self.tools.limits.frames, f"within{self.tools.limits.frames}"
        if self.refuted == count and self.is_none_within(count):
            simplified, refutation = name in self.simplified, self.folder / f"{name}.drat"
            return Verdict(Answer.NONE_WITHIN, steps=count, refutation=refutation, simplified=simplified)
        return None

    # Runs of any length

    def without_latches(self) -> Optional[Verdict]:
        """An assertion that depends on no latch never fails if no step breaks it, which needs no invariant."""
        if not self.tools.solver or self.part.latches:
            return None
        if not self.halves:
            return self.by_invariant([])
        return self.by_gates([]) or (self.by_invariant([]) if self.is_undecided else None)

    #: how long the solver alone is asked where gates can be swept
    SHORT = 2.0

    def by_gates(self, rows: Sequence[str]) -> Optional[Verdict]:
        """What an invariant shows of a miter: if the solver alone does not see it soon, gate by gate."""
        left = self.left
        self.left = given = min(left, self.SHORT)
        verdict = self.by_invariant(rows)
        self.is_undecided, self.left = self.left <= 0, left - given + self.left
        if verdict or not self.is_undecided or not self.halves:
            return verdict
        self.reasons.clear()
        first_gates, equalities = self.halves
        return self.by_sweep(first_gates, equalities if rows else [])

    def by_sweep(self, first_gates: int, equalities: Sequence["Equality"]) -> Optional[Verdict]:
        """Whether a refutation that goes from the inputs on shows it."""
        self.progress.tell(self.assertion, "gates")
        clauses, invariant = self.folder / "sweep.cnf", self.folder / "never.pla"
        if self.unroll(self.whole, "--invariant", invariant, "--cnf", self.whole.path, clauses).status != 0:
            return None
        begun = time.monotonic()
        sweep = Sweep(self.solver, clauses, first_gates, equalities, self.left)
        is_refuted = sweep.refutes(self.folder / "never.drat")
        self.left -= time.monotonic() - begun
        if not is_refuted or not self.is_shown("never", "never", "--invariant", invariant):
            return None
        return Verdict(Answer.NEVER, refutation=self.folder / "never.drat", invariant=invariant)

    def by_rows(self) -> Optional[Verdict]:
        """What is shown by an invariant that was found for all bad states at once."""
        if not self.rows:
            return None
        reasons = len(self.reasons)
        verdict = self.by_gates(self.rows) if self.halves else self.by_invariant(self.rows)
        del self.reasons[reasons:]
        return verdict

    def by_itself(self) -> Optional[Verdict]:
        """What is shown by induction: that its own bad state, as rows of latches, is an invariant."""
        rows = Cubes(self.model).rows(self.asked_literals())
        if not rows or self.halves or not self.tools.solver:
            return None
        reasons = len(self.reasons)
        verdict = self.by_invariant(rows)
        del self.reasons[reasons:]
        return verdict

    def asked_literals(self) -> List[int]:
        """The literals that are never to be 1."""
        return [self.model.circuit.bad[self.assertion.bad]]

    def by_abc(self) -> Optional[Verdict]:
        """What ABC's pdr shows: an invariant, or a run."""
        abc, limits = self.tools.abc, self.tools.limits
        # of two designs without latches a solver that does not decide is not helped by pdr
        if not abc or self.tools.solver and not self.part.latches and isinstance(self.assertion, (Pair, Assumption)):
            return None
        self.progress.tell(self.assertion, "pdr")
        circuit = ForAbc(self.part)
        shown = abc.pdr(circuit, self.folder, limits.time)
        if shown.rows is not None:
            reasons = len(self.reasons)
            verdict = self.by_invariant(shown.rows)
            if not verdict and len(self.reasons) == reasons:
                self.fails("ABC's invariant is not right")
            return verdict
        witness = self.written(shown.witness)
        if not witness:
            self.fails("ABC's counterexample is wrong" if shown.witness else shown.reason)
            return None
        if not self.tools.solver:
            shorter = abc.shortest(circuit, self.folder, limits.time, self.length(witness) + 1)
            witness = self.written(shorter) or witness
        return self.shortest(witness)

    def by_invariant(self, rows: Sequence[str]) -> Optional[Verdict]:
        """Whether the invariant, which is not believed, shows that no run breaks the assertion."""
        if not self.tools.solver:
            self.fails("there is no SAT solver to prove an invariant")
            return None
        if self.tools.limits.is_bounded:
            return None
        invariant = self.folder / "never.pla"
        invariant.write_text("".join(f"{row} 1\n" for row in rows))
        options = ("--invariant", invariant)
        if self.is_plain(*options):
            return Verdict(Answer.NEVER, refutation=self.folder / "never.drat", invariant=invariant)
        if self.ask(self.whole, "never", "an invariant", *options) is not Said.UNSATISFIABLE:
            return None
        if not self.is_shown("never", "never", *options):
            return None
        return Verdict(Answer.NEVER, refutation=self.folder / "never.drat", invariant=invariant)
