"""The answers of a run, as they are added up and written as an object."""

from typing import Any, Dict, List, NamedTuple

from aiger_check.answers import Answer, Assertion, KINDS, Pair, Verdict, counted
from aiger_check.statuses import Status, status_of


class Answered(NamedTuple):
    """An assertion and its answer."""

    assertion: Assertion
    verdict: Verdict

    def record(self) -> Dict[str, Any]:
        """What --json says of it."""
        assertion, verdict = self
        told = {"name": assertion.name, **assertion.shown(), "answer": assertion.called(verdict.answer)}
        witness = str(verdict.kept) if verdict.kept else None
        rest = {"steps": verdict.steps, "witness": witness, "reason": verdict.reason}
        return {**told, **{key: value for key, value in rest.items() if value is not None}}


class Tally:
    """All answers, in the order in which they are said."""

    def __init__(self, frames: int, is_of_two: bool, needs_pairs: bool = True) -> None:
        self.frames, self.is_of_two = frames, is_of_two
        #: whether it is an error if no pair is compared
        self.needs_pairs = needs_pairs
        self.answered: List[Answered] = []

    def add(self, assertion: Assertion, verdict: Verdict) -> None:
        self.answered.append(Answered(assertion, verdict))

    def status(self) -> Status:
        """What they come to. Assumptions alone are nothing that was compared."""
        found = status_of(self.answered)
        return Status.TROUBLE if self.is_nothing_compared() and found is not Status.BROKEN else found

    def is_nothing_compared(self) -> bool:
        return self.is_of_two and self.needs_pairs and not any(isinstance(it.assertion, Pair) for it in self.answered)

    def records(self) -> Dict[str, Any]:
        """What --json says."""
        lists = ("pairs", "assumptions") if self.is_of_two else ("assertions",)
        found: Dict[str, Any] = {name: [] for name in lists}
        for it in self.answered:
            found.setdefault(it.assertion.listed, []).append(it.record())
        return found

    def summary(self) -> str:
        """How many there are of each kind, and how many of these have each answer."""
        of_kind = {kind: [it for it in self.answered if type(it.assertion) is kind] for kind in KINDS}
        sums = ["0 pairs"] if self.is_nothing_compared() else []
        sums += [self.sum_of(its) for its in of_kind.values() if its]
        return "; ".join(sums) or "0 assertions"

    def sum_of(self, its: List[Answered]) -> str:
        counts = []
        for answer in Answer:
            count = sum(it.verdict.answer is answer for it in its)
            if count:
                asked = its[0].assertion
                bound = f" {counted(self.frames, asked.words.unit)}" if answer is Answer.NONE_WITHIN else ""
                counts.append(f"{count} {asked.called(answer)}{bound}")
        return f"{counted(len(its), its[0].assertion.unit)}: {', '.join(counts)}"
