"""Whether what is assumed can be kept: where no run keeps it, each assertion is kept by none."""

import threading
from concurrent.futures import Executor
from dataclasses import replace
from pathlib import Path
from typing import Any, Dict, Optional, Sequence

from aiger_check.answers import Answer, Assertion, Liveness, Verdict
from aiger_check.doubts import KEPT
from aiger_check.faults import Stopped
from aiger_check.model.circuit import Model, without_justice
from aiger_check.model.kept import held, in_step, states_of, with_held_inputs
from aiger_check.model.part import Assumed
from aiger_check.report import Progress
from aiger_check.search.lassos import Lassos
from aiger_check.search.limits import FEW, Tools, steps_up_to
from aiger_check.search.single import Search
from aiger_check.tools.solvers import Said


ASKED = Assertion("assumptions", "", 0)


class Endless(Lassos):
    """Looks for one run without end that keeps all constraints, and is fair."""

    def soon(self) -> bool:
        """Whether there is one that goes round in few steps."""
        self.folder.mkdir()
        self.left = min(self.left, self.tools.limits.time)
        return not self.prepare() and bool(self.bounded(steps_up_to(FEW)))

    def later(self) -> Optional[Verdict]:
        """Whether there is one of more steps, or none."""
        most = steps_up_to(self.tools.limits.frames)
        return self.by_abc() or self.bounded([count for count in most if count > FEW])

    def shortest(self, witness: Path) -> Verdict:
        return Verdict(Answer.REACHED, steps=self.step(witness), witness=witness)


class Long(Search):
    """Looks for a run of so many steps that keeps all constraints."""

    def prepare(self) -> Optional[str]:
        self.smaller = self.whole
        return None

    def widened(self, text: str) -> str:
        return text

    def run_of(self, count: int) -> Optional[Path]:
        """The witness of such a run, if there is one."""
        self.left = min(self.left, self.tools.limits.time)
        self.folder.mkdir()
        self.prepare()
        said, witness = self.within(count)
        self.is_refuted = said is Said.UNSATISFIABLE and self.is_none_within(count)
        return witness if witness and self.step(witness) == count - 1 else None


class Keeping:
    """What is known of the constraints of one model, with its fairness or without. Each question is asked once, of what
    they depend on, and what is found is what aiger says of that: a run that it confirms, or that none is there."""

    #: how long it may take to show that inputs that do not change keep the constraints for ever, how often others are
    #: tried, and of how many steps
    HELD = 5.0
    ATTEMPTS, MOST = 5, 1000

    def __init__(self, model: Model, fairness: Sequence[int], tools: Tools, folder: Path, progress: Progress) -> None:
        self.tools, self.folder, self.progress = tools, folder, progress
        self.source, self.is_fair = model, bool(fairness)
        self.fairness = fairness
        self.lock = threading.Lock()
        self.asked = self.is_broken_off = False
        #: why no answer that something is kept for ever, or within the bound, says anything
        self.never: Optional[str] = None
        self.within: Optional[str] = None

    def reason(self, answer: Answer) -> Optional[str]:
        """Why this answer says nothing, if so."""
        with self.lock:
            if self.is_broken_off:
                raise Stopped
            if not self.asked:
                self.is_broken_off = True
                self.find()
                self.is_broken_off, self.asked = False, True
        return self.never if answer is Answer.NEVER else self.within

    def find(self) -> None:
        self.folder.mkdir()
        path = self.folder / "assumed.aig"
        path.write_bytes(Assumed(self.source, self.fairness).circuit().write())
        self.model = Model(path)
        endless = Endless(
            Liveness("assumptions", "", 0), self.model, self.tools, self.folder / "endless", self.progress
        )
        if endless.soon():
            return
        self.never = self.within = self.end()
        if self.within or self.tools.limits.is_bounded or self.is_held():
            return
        later = endless.later()
        if not later or later.answer is not Answer.REACHED:
            self.never = self.not_for_ever(later is not None)

    def not_for_ever(self, is_shown: bool) -> str:
        steps, runs = self.tools.limits.frames, " by a fair run" if self.is_fair else ""
        if is_shown:
            return f"the assumptions cannot be kept for ever{runs}"
        return f"that the assumptions can be kept for ever{runs} is not shown, for {steps} steps it is"

    def end(self) -> Optional[str]:
        """Why no run of as many steps as are searched keeps the constraints; nothing if one does."""
        most = self.tools.limits.frames
        long = self.run_of(most)
        if self.run:
            return None
        least = 0
        while long.is_refuted and least + 1 < most:
            middle = (least + most) // 2
            long = self.run_of(middle)
            least, most = (middle, most) if self.run else (least, middle)
            long.is_refuted = long.is_refuted or bool(self.run)
        if not long.is_refuted:
            return "that the assumptions can be kept is not shown"
        if not least:
            return "the assumptions contradict one another in the first step"
        return f"the assumptions cannot be kept beyond step {least - 1}"

    def run_of(self, count: int) -> Long:
        """Looks for a run of so many steps."""
        long = self.long(f"long{count}", without_justice(self.model.circuit), count)
        self.run = long.run_of(count)
        return long

    def long(self, name: str, circuit: Any, count: int) -> Long:
        path = self.folder / f"{name}.aig"
        path.write_bytes(in_step(circuit, count - 1).write())
        return Long(ASKED, Model(path), self.tools, self.folder / name, self.progress)

    def is_held(self) -> bool:
        """Whether inputs that do not change, behind a step of the run that was found, keep the constraints for ever: no
        counter needs to come back for that."""
        if self.is_fair or not self.run:
            return False
        states = states_of(without_justice(self.model.circuit), self.run.read_text())
        starts = dict.fromkeys(states[at] for at in (0, 1, -1) if at < len(states))
        return any(self.is_held_from(state, f"held{at}") for at, state in enumerate(starts))

    def is_held_from(self, state: str, name: str) -> bool:
        """Whether some do from this state on: those that do for some steps are tried, and then for more."""
        circuit, steps = without_justice(self.model.circuit), self.tools.limits.frames
        for attempt in range(self.ATTEMPTS):
            run = self.long(f"{name}-{attempt}", with_held_inputs(circuit, state), steps).run_of(steps)
            if not run:
                return False
            inputs = run.read_text().split("\n")[2][: len(circuit.inputs)]
            verdict = self.kept_by(f"{name}-{attempt}-kept", held(circuit, state, inputs))
            if verdict.answer is Answer.NEVER:
                return True
            steps = max(steps, (verdict.steps or 0) + 1) if verdict.answer is Answer.REACHED else 4 * steps
            if steps > self.MOST:
                return False
        return False

    def kept_by(self, name: str, circuit: Any) -> Verdict:
        path = self.folder / f"{name}.aig"
        path.write_bytes(circuit.write())
        limits = replace(self.tools.limits, time=self.HELD, limit=self.HELD)
        tools = replace(self.tools, limits=limits)
        return Search(ASKED, Model(path), tools, self.folder / name, self.progress).verdict()


class Vacuity:
    """Which answers say nothing, since what is assumed cannot be kept."""

    def __init__(self, model: Model, live: Optional[Model], tools: Tools, folder: Path, progress: Progress) -> None:
        self.keepings: Dict[bool, Keeping] = {}
        if model.circuit.constraints:
            self.keepings[False] = Keeping(model, [], tools, folder / "assumed", progress)
        if live and live.circuit.fairness:
            self.keepings[True] = Keeping(live, live.circuit.fairness, tools, folder / "fair", progress)
        elif live and False in self.keepings:
            self.keepings[True] = self.keepings[False]

    def start(self, pool: Executor) -> None:
        """Asks beside the search."""
        for keeping in dict.fromkeys(self.keepings.values()):
            pool.submit(keeping.reason, Answer.NEVER)

    def applied(self, assertion: Assertion, verdict: Verdict) -> Verdict:
        """The verdict, or that it says nothing."""
        if assertion.wants_run:
            return verdict
        keeping = self.keepings.get(isinstance(assertion, Liveness))
        reason = keeping.reason(verdict.answer) if keeping and verdict.answer in KEPT else None
        return Verdict(Answer.VACUOUS, reason=reason) if reason else verdict
