"""What is asked of a design, and what is said of it."""

import enum
from dataclasses import dataclass
from pathlib import Path
from typing import Dict, NamedTuple, Optional, Sequence, Tuple

from aiger_check.faults import visible


class Answer(enum.Enum):
    """What is said of an assertion."""

    NEVER = "never"
    NONE_WITHIN = "none within"
    REACHED = "reached"
    VACUOUS = "vacuous"
    UNKNOWN = "unknown"


class Words(NamedTuple):
    """What answers are called where something is said of a design."""

    never: str
    within: str
    reached: str
    unit: str = ""


@dataclass(frozen=True)
class Assertion:
    """An assertion, which is a bad state of the model."""

    name: str
    place: str
    bad: int
    cell: str = ""

    words = Words("never", "none within", "reached")
    #: what breaks it
    run = "run"
    #: whether a run is wanted, and not that there is none
    wants_run = False
    #: what one is called where they are counted, and in which list of an object it stands
    unit = "assertion"
    listed = "assertions"

    def __str__(self) -> str:
        return f"{visible(self.name)} ({visible(self.place)})"

    @property
    def option(self) -> Tuple[str, int]:
        """The words for it where aiger is asked of the model."""
        return "--bad", self.bad

    @property
    def position(self) -> str:
        """What a witness calls it."""
        option, at = self.option
        return f"{'j' if option == '--justice' else 'b'}{at}"

    @property
    def file(self) -> str:
        """What its files are called, before that is made safe."""
        return self.name

    def shown(self) -> Dict[str, str]:
        """What else --json says of it."""
        return {"source": self.place}

    def said(self, verdict: "Verdict") -> str:
        """The answer in words."""
        if verdict.answer is Answer.REACHED:
            kept = f", {visible(str(verdict.kept))}" if verdict.kept else ""
            return f"{self.words.reached} at {verdict.steps}{kept}"
        if verdict.answer is Answer.NONE_WITHIN:
            return f"{self.words.within} {counted(verdict.steps, self.words.unit)}"
        return self.called(verdict.answer) + (f": {visible(verdict.reason)}" if verdict.reason else "")

    def called(self, answer: Answer) -> str:
        """The word for an answer, without its number."""
        words = {Answer.NEVER: self.words.never, Answer.NONE_WITHIN: self.words.within}
        return {**words, Answer.REACHED: self.words.reached}.get(answer, str(answer.value))


def counted(count: Optional[int], unit: str) -> str:
    """A number, with the word for what it counts if there is one."""
    return f"{count} {unit}{'' if count == 1 else 's'}" if unit else str(count)


@dataclass(frozen=True)
class Liveness(Assertion):
    """An assertion that something comes again and again, which is a justice property of the model: the run that breaks
    it has no end. It comes back to a state, and then goes round for ever: a lasso."""

    justice: int = 0

    words = Words("holds", "no lasso within", "lasso")
    run = "lasso"
    unit = "liveness assertion"

    @property
    def option(self) -> Tuple[str, int]:
        return "--justice", self.justice

    def shown(self) -> Dict[str, str]:
        return {**super().shown(), "kind": "liveness"}


class Cover(Assertion):
    """Something that a run is to reach: what an assertion in its place would forbid."""

    words = Words("never", "none within", "covered")
    wants_run = True
    unit = "cover"
    listed = "covers"


class LeftSide(Assertion):
    """That a run meets the condition under which an assertion says something."""

    words = Words("never met", "not met within", "met")
    wants_run = True
    unit = "left side"
    listed = "left sides"

    def __str__(self) -> str:
        return f"{super().__str__()}, left side"

    @property
    def file(self) -> str:
        return f"{self.name}.left_side"


class Pair(Assertion):
    """Two outputs or bad states, one of each design, which are to be equal: a bad state of the miter."""

    def shown(self) -> Dict[str, str]:
        return {}

    words = Words("equal", "equal for", "differs", "step")
    unit = "pair"
    listed = "pairs"

    def __str__(self) -> str:
        return visible(self.name)


class Assumption(Assertion):
    """A constraint of the second design, which the first one is to keep: a bad state of the miter."""

    def shown(self) -> Dict[str, str]:
        return {}

    words = Words("holds", "holds for", "fails", "step")
    unit = "assumption"
    listed = "assumptions"

    def __str__(self) -> str:
        return f"assumption {visible(self.name)} of {visible(self.place)}"

    @property
    def file(self) -> str:
        return f"assumption-{self.name}"


#: why nothing is said of what the time for the whole did not suffice for
NO_TIME = "no time left"

#: in the order in which they are added up
KINDS = (Assertion, Liveness, Cover, LeftSide, Pair, Assumption)


@dataclass
class Verdict:
    """An answer, with what shows it: files of the folder in which it was found."""

    answer: Answer
    steps: Optional[int] = None
    reason: Optional[str] = None
    witness: Optional[Path] = None
    refutation: Optional[Path] = None
    invariant: Optional[Path] = None
    kept: Optional[Path] = None
    #: whether the refutation is one for all bad states at once, and which are left out
    of_all: bool = False
    left_out: Sequence[int] = ()
    #: whether it is one of simplified clauses
    simplified: bool = False

    def claim(self) -> str:
        """What aiger says where it shows this."""
        return f"none within {self.steps}" if self.answer is Answer.NONE_WITHIN else str(self.answer.value)
