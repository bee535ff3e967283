"""With what status the program ends."""

import enum
from typing import Iterable, Sequence, Tuple

from aiger_check.answers import Answer, Assertion, LeftSide, NO_TIME, Verdict


class Status(enum.IntEnum):
    """What the whole run came to. What SymbiYosys has too has its number."""

    KEPT = 0
    BROKEN = 1
    USAGE = 2
    VACUOUS = 3
    UNKNOWN = 4
    TIMEOUT = 8
    #: those of --competition
    FOUND = 10
    TROUBLE = 16
    PROVED = 20


#: what --expect calls these, as SymbiYosys does
OUTCOMES = {
    "pass": Status.KEPT,
    "fail": Status.BROKEN,
    "unknown": Status.UNKNOWN,
    "timeout": Status.TIMEOUT,
    "error": Status.TROUBLE,
    "vacuous": Status.VACUOUS,
}


def outcome_of(status: Status) -> str:
    """The word for a status."""
    return next(word for word, it in OUTCOMES.items() if it is status)


def expected(status: Status, outcomes: Sequence[str]) -> Status:
    """The status where one of these outcomes is expected: one of its own where that is not what comes."""
    if not outcomes:
        return status
    if any(OUTCOMES[it] is status for it in outcomes):
        return Status.KEPT
    return Status.BROKEN if status is Status.KEPT else status


#: what one answer comes to, where it is not that something is kept
OF_ANSWER = {Answer.REACHED: Status.BROKEN, Answer.UNKNOWN: Status.UNKNOWN, Answer.VACUOUS: Status.VACUOUS}
#: the first of these that there is makes the status of all
FIRST = (Status.BROKEN, Status.TIMEOUT, Status.UNKNOWN, Status.VACUOUS, Status.KEPT)


def status_of_one(assertion: Assertion, verdict: Verdict) -> Status:
    """What one answer comes to."""
    if verdict.answer is Answer.UNKNOWN and verdict.reason == NO_TIME:
        return Status.TIMEOUT
    if assertion.wants_run and verdict.answer is not Answer.UNKNOWN:
        unmet = Status.VACUOUS if isinstance(assertion, LeftSide) else Status.BROKEN
        return Status.KEPT if verdict.answer is Answer.REACHED else unmet
    return OF_ANSWER.get(verdict.answer, Status.KEPT)


def status_of(answered: Iterable[Tuple[Assertion, Verdict]]) -> Status:
    """What all answers come to."""
    found = {status_of_one(*it) for it in answered}
    return next((it for it in FIRST if it in found), Status.TROUBLE)
