"""Answers as the checkers of the hardware model checking competition take them."""

from typing import Sequence

from aiger_check.answers import Answer, Assertion, Verdict
from aiger_check.statuses import Status
from aiger_check.tallies import Answered

#: the first line of an answer that is no run
FIRST = {Answer.NEVER: "0"}
UNKNOWN = "2"


def block(assertion: Assertion, verdict: Verdict) -> str:
    """The lines of an answer: of a run they are its witness."""
    if verdict.witness:
        return verdict.witness.read_text(encoding="ascii").rstrip("\n")
    return f"{FIRST.get(verdict.answer, UNKNOWN)}\n{assertion.position}\n."


def status(answered: Sequence[Answered], own: Status) -> Status:
    """With what the program ends: its own status where no run is found and not all is shown."""
    if any(it.verdict.answer is Answer.REACHED for it in answered):
        return Status.FOUND
    return Status.PROVED if answered and all(it.verdict.answer is Answer.NEVER for it in answered) else own
