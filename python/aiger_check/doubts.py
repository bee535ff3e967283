"""Why an answer that is shown of the model may not be so of the design that the user wrote."""

from typing import Dict, Iterable, List, Optional, Set, Tuple

from aiger_check.answers import Answer, Assertion, Verdict

#: the answers that say of a design that something is kept
KEPT = (Answer.NEVER, Answer.NONE_WITHIN)


class Doubts:
    """Reasons by which the model is not the design: for all that is asked, or for some assertions, by their cells."""

    def __init__(self) -> None:
        self.of_all: List[str] = []
        self.of_cell: Dict[str, List[str]] = {}
        #: reasons for all but those of which it is known what they depend on
        self.of_others: List[Tuple[str, Set[str]]] = []

    def add(self, reason: str, cells: Optional[Iterable[str]] = None) -> None:
        """Adds a reason: for these cells, or for all assertions where none are named."""
        places = [self.of_all] if cells is None else [self.of_cell.setdefault(it, []) for it in cells]
        for reasons in places:
            if reason not in reasons:
                reasons.append(reason)

    def add_for_others(self, reason: str, known: Iterable[str]) -> None:
        """Adds a reason for all whose cells are not among these."""
        self.of_others.append((reason, set(known)))

    def reasons(self, assertion: Assertion) -> List[str]:
        others = [reason for reason, known in self.of_others if assertion.cell not in known]
        return [*self.of_all, *self.of_cell.get(assertion.cell, []), *others]

    def applied(self, assertion: Assertion, verdict: Verdict) -> Verdict:
        """The verdict, which is unknown where it would say that something is kept and there is a reason against it."""
        reasons = self.reasons(assertion)
        if verdict.answer not in KEPT or not reasons:
            return verdict
        return Verdict(Answer.UNKNOWN, reason="; ".join(reasons))
