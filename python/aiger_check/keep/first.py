"""The waveform of the first assertion that fails."""

from pathlib import Path
from typing import Any, Optional

from aiger_check.answers import Assertion, Verdict
from aiger_check.faults import visible
from aiger_check.keep.runs import Runs
from aiger_check.keep.whole import is_special, put_whole
from aiger_check.order import by_answer
from aiger_check.session import Session


def clear(name: Optional[str]) -> None:
    """Removes what an earlier run wrote, so that no waveform of another answer stands there."""
    if name and not is_special(Path(name)):
        Path(name).unlink(missing_ok=True)


class First:
    """Writes it to a file, if one is wanted."""

    def __init__(self, session: Session, runs: Runs) -> None:
        self.session, self.given, self.runs = session, session.given, runs
        self.best: Any = None

    def take(self, assertion: Assertion, verdict: Verdict) -> None:
        """Takes an answer, in the order of answers: where these are sorted by what they are, the worst is the first."""
        is_shown = verdict.witness and (not assertion.wants_run or self.given.mode == "cover")
        key = by_answer(assertion, verdict) if self.given.sort == "answer" else ()
        if not self.given.vcd or not is_shown or (self.best is not None and key >= self.best):
            return
        self.best = key
        put_whole(Path(self.given.vcd), self.runs.best(assertion, verdict))
        self.session.notes.tell(f"{visible(self.given.vcd)} has the run of {assertion}")

    def end(self) -> None:
        if self.given.vcd and self.best is None:
            self.session.notes.tell(f"{visible(self.given.vcd)} is not written: there is no run to show")
