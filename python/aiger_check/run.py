"""One run of the program: the order of things."""

import argparse
import shutil
import signal
import time
from concurrent.futures import ThreadPoolExecutor
from dataclasses import replace
from pathlib import Path
from typing import Dict, List, NamedTuple, Optional

from aiger_check import competition
from aiger_check.answers import Answer, Assertion, Liveness, NO_TIME, Verdict
from aiger_check.asked import ask
from aiger_check.asked.question import Question
from aiger_check.doubts import KEPT
from aiger_check.faults import Trouble
from aiger_check.junit import Suite, report
from aiger_check.keep.first import clear
from aiger_check.keep.keeper import TOGETHER
from aiger_check.keep.keepers import Keepers
from aiger_check.keep.whole import is_special, put_whole
from aiger_check.output import Output
from aiger_check.programs import Programs
from aiger_check.search.joint import Joint
from aiger_check.search.lassos import Lassos
from aiger_check.search.limits import Tools
from aiger_check.search.single import Search
from aiger_check.search.together import Together
from aiger_check.search.vacuity import Vacuity
from aiger_check.session import Session
from aiger_check.statuses import Status
from aiger_check.tallies import Answered, Tally
from aiger_check.tools.processes import Children, SIGNALS


LATE = Verdict(Answer.UNKNOWN, reason=NO_TIME)


class Found(NamedTuple):
    """An answer, and whether the assertion failed on the design too, where that was tried: in Yosys, and in others."""

    verdict: Verdict
    is_replayed: Optional[bool]
    others: Dict[str, bool]

    def in_yosys(self) -> Dict[str, bool]:
        return {} if self.is_replayed is None else {"Yosys's replay": self.is_replayed}


class Run:
    """One run of the program, in a temporary folder."""

    def __init__(self, given: argparse.Namespace, folder: Path, children: Children) -> None:
        self.given, self.session = given, Session(given, folder, children)
        self.tally, self.output = Tally(given.frames, given.equal, not given.only), Output(given)

    def status(self) -> Status:
        """Checks all assertions, and gives the status of the program."""
        # what is blocked here would be in the programs that are started
        signal.pthread_sigmask(signal.SIG_UNBLOCK, SIGNALS)
        self.session.start()
        clear(self.given.vcd)
        if self.given.junit and not is_special(Path(self.given.junit)):
            # so no report of an earlier run stands there, whatever ends this one
            self.write_report(Status.TROUBLE, "the run has not ended")
        try:
            status = self.checked()
        except (Trouble, OSError) as why:
            self.write_report(Status.TROUBLE, str(why))
            raise
        is_answered = self.tally.answered and status is not Status.TROUBLE
        self.write_report(status, None if is_answered else "; ".join(self.session.notes.all) or "there is no answer")
        return competition.status(self.tally.answered, status) if self.given.competition else status

    @property
    def is_overdue(self) -> bool:
        return self.session.is_overdue

    def checked(self) -> Status:
        session, programs = self.session, Programs(self.session)
        tools = programs.tools()
        question = session.in_time(lambda: ask(session, programs, tools.aiger), None)
        if question:
            keepers = Keepers(session, question, programs.aiger(session.keeping))
            self.answer_all(question, tools, keepers)
            keepers.first.end()
            self.tell_seconds(question, keepers)
            keepers.keep_commands(session, question, programs.found)
        else:
            session.notes.warn(f"{NO_TIME} once the model was asked for")
        self.output.end(self.tally, session.notes.all)
        return self.tally.status() if question else Status.TIMEOUT

    def write_report(self, status: Status, trouble: Optional[str] = None) -> None:
        """Writes the report of JUnit, if one is wanted."""
        if self.given.junit:
            name = ",".join(self.given.tops or self.given.files)
            suite = Suite(name, time.monotonic() - self.session.begun, self.session.notes.all, trouble)
            put_whole(Path(self.given.junit), report(suite, self.tally.answered, status))

    def answer_all(self, question: Question, tools: Tools, keepers: Keepers) -> None:
        """Answers all assertions, side by side, and says each in its turn."""
        session = self.session
        vacuity = Vacuity(question.model, question.live, tools, session.folder, session.progress)
        searches = [self.search(it, question, tools, at) for at, it in enumerate(question.assertions)]
        known: Dict[int, Verdict] = session.in_time(lambda: self.ask_together(question, tools, searches), {})
        with ThreadPoolExecutor(self.given.jobs) as pool:
            try:
                if not self.given.competition:
                    vacuity.start(pool)
                for search, found in zip(searches, pool.map(lambda it: self.answer(question, it, known), searches)):
                    self.tell(search, self.judged(vacuity, search.assertion, found), keepers)
                    self.tell_lines(question, search.assertion)
            except BaseException:
                session.children.stop()
                raise

    def search(self, assertion: Assertion, question: Question, tools: Tools, at: int) -> Search:
        folder, progress = self.session.folder / str(at), self.session.progress
        if isinstance(assertion, Liveness) and question.live:
            return Lassos(assertion, question.live, tools, folder, progress)
        return Search(assertion, question.model, tools, folder, progress)

    def ask_together(self, question: Question, tools: Tools, searches: List[Search]) -> Dict[int, Verdict]:
        """Asks of all at once; what came of it is for each, by its bad state."""
        session, asked = self.session, [it for it in searches if not isinstance(it.assertion, Liveness)]
        folder, progress = session.folder / TOGETHER, session.progress
        if question.sides and asked:
            together = Together(question.sides, question.model, tools, folder, progress)
            of_all = together.of_all()
            for search in asked:
                search.rows, search.halves = together.rows, together.halves
            return {it.assertion.bad: replace(of_all) for it in asked} if of_all else {}
        joint = Joint([it.assertion.bad for it in asked], question.model, tools, folder, progress)
        shown = joint.answers()
        for search in asked:
            joint.hand_on(search)
        return shown

    def answer(self, question: Question, search: Search, known: Dict[int, Verdict]) -> Found:
        """The answer for an assertion; a counterexample is replayed on the design."""
        session, assertion = self.session, search.assertion
        found = None if isinstance(assertion, Liveness) else known.get(assertion.bad)
        verdict: Verdict = found or session.in_time(search.verdict, LATE)
        if question.unset and verdict.answer is Answer.REACHED and not assertion.wants_run:
            search.notes += question.unset.hints(assertion, verdict.steps)
        shown = session.in_time(lambda: self.replayed(question, assertion, verdict), None)
        others = session.in_time(lambda: self.by_seconds(question, assertion, verdict), None)
        if others is None and verdict.answer in KEPT:
            # whether there are doubts is not known
            return Found(LATE, shown, {})
        return Found(session.doubts.applied(assertion, verdict), shown, others or {})

    def by_seconds(self, question: Question, assertion: Assertion, verdict: Verdict) -> Dict[str, bool]:
        """Waits for the second front end, which may have doubts; and whether an assertion fails there too."""
        found: Dict[str, bool] = {}
        for second in question.seconds:
            second.wait()
            is_broken = not isinstance(assertion, Liveness) and not assertion.wants_run
            if verdict.witness and is_broken and question.replay and not self.given.quiet:
                shown = second.shows(assertion, question.model, verdict.witness)
                found.update({second.called: shown} if shown is not None else {})
        return found

    def tell_seconds(self, question: Question, keepers: Keepers) -> None:
        """What the second front end says of a design as a whole."""
        for second in question.seconds:
            self.session.in_time(second.wait, None)
            for words in second.report.notes:
                self.session.notes.tell(words)
            keepers.keep_waves(second.waves)

    def replayed(self, question: Question, assertion: Assertion, verdict: Verdict) -> Optional[bool]:
        """Whether an assertion fails on the design too, where that can be tried."""
        replay, witness = question.replay, verdict.witness
        if not replay or not witness or isinstance(assertion, Liveness) or assertion.wants_run:
            return None
        return replay.shows(assertion, witness)

    def judged(self, vacuity: Vacuity, assertion: Assertion, found: Found) -> Found:
        """The answer, if what is assumed can be kept. A competition asks no such thing."""
        if self.given.competition:
            return found
        verdict = self.session.in_time(lambda: vacuity.applied(assertion, found.verdict), LATE)
        return found._replace(verdict=verdict)

    def tell(self, search: Search, found: Found, keepers: Keepers) -> None:
        """Says an answer, and keeps what shows it."""
        assertion, verdict = search.assertion, found.verdict
        self.note_all(search, found)
        keepers.keep(assertion, verdict)
        self.tally.add(assertion, verdict)
        self.session.progress.clear()
        self.output.add(Answered(assertion, verdict))
        shutil.rmtree(search.folder, ignore_errors=True)

    def tell_lines(self, question: Question, assertion: Assertion) -> None:
        """What an answer builds on that the second front end leaves open."""
        for second in question.seconds:
            for words in second.report.lines.get(assertion.cell, []):
                self.session.notes.warn(words)

    def note_all(self, search: Search, found: Found) -> None:
        """Says what is to be known of an answer."""
        for words in search.notes:
            self.session.notes.warn(words)
        if self.given.competition and found.verdict.answer not in (Answer.NEVER, Answer.REACHED):
            self.session.notes.tell(f"{search.assertion}: {search.assertion.said(found.verdict)}")
        for where, fails in {**found.others, **found.in_yosys()}.items():
            if fails:
                self.session.notes.tell(f"{search.assertion} fails in {where} too")
            else:
                self.session.notes.warn(f"{search.assertion} does not fail in {where}")
