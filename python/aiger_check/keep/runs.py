"""Which waveform shows a run."""

from typing import Optional

from aiger_check.answers import Assertion, Liveness, Verdict
from aiger_check.asked.question import Question
from aiger_check.faults import Trouble, visible
from aiger_check.front.second.faults import Unable
from aiger_check.keep.design import DesignWaves
from aiger_check.keep.waves import of_two, of_witness
from aiger_check.session import Session
from aiger_check.tools.aiger import Aiger


class Runs:
    """Makes waveforms: of a whole design, where the model is one of Verilog, of two designs, or of the model."""

    def __init__(self, session: Session, question: Question, aiger: Aiger) -> None:
        self.session, self.question, self.aiger = session, question, aiger
        self.waves: Optional[DesignWaves] = None
        if question.whole:
            asked, folder = question.assertions, session.folder / "waves"
            self.waves = DesignWaves(question.whole, asked, question.model, aiger, folder)

    def of_design(self, assertion: Assertion, verdict: Verdict) -> Optional[bytes]:
        """A waveform of the whole design, or nothing where there is none."""
        if not self.waves or not verdict.witness:
            return None
        source = self.question.live if isinstance(assertion, Liveness) else None
        try:
            return self.waves.of(assertion, verdict, verdict.witness, source or self.question.model)
        except (Unable, Trouble, OSError, ValueError, LookupError) as why:
            self.waves = None
            self.session.notes.tell(f"there is no waveform of the whole design: {visible(str(why))}")
            return None

    def best(self, assertion: Assertion, verdict: Verdict) -> bytes:
        """The waveform that shows most of a run."""
        question, witness = self.question, verdict.witness
        if not witness:
            raise Trouble("there is no run to show")
        if question.sides:
            return of_two(self.aiger, question.sides, witness)
        live = question.live if isinstance(assertion, Liveness) else None
        return self.of_design(assertion, verdict) or of_witness(self.aiger, (live or question.model).path, witness)
