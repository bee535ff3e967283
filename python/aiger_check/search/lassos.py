"""The answer for one justice property."""

import time
from pathlib import Path
from typing import Optional, Sequence

from aiger_check.answers import Answer, Verdict
from aiger_check.model.circuit import Model
from aiger_check.model.part import Closing, Goals
from aiger_check.search.limits import Target
from aiger_check.search.single import Search
from aiger_check.tools.processes import discard


class Lassos(Search):
    """Finds the answer for a justice property: whether a run comes back to a state, and has met all goals since. From
    there it may go round for ever.

    Lassos are looked for in a part of the model, and followed in the model.
    """

    #: in so many steps the model is to come back too
    MOST = 100000

    def prepare(self) -> Optional[str]:
        _, justice = self.assertion.option
        self.source, self.goals = self.model, Goals(self.model, justice)
        self.smaller, live = Target(self.folder / "goals.aig", ("--justice", 0)), self.folder / "live.aig"
        self.smaller.path.write_bytes(self.goals.circuit().write())
        reason = self.tools.aiger.with_loop(self.smaller.path, 0, live)
        if not reason:
            self.model = Model(self.smaller.path)
            self.part = Closing(self.model, Model(live))
        return reason

    def verdict(self) -> Verdict:
        found = super().verdict()
        return self.followed(found.witness) if found.witness else found

    def by_itself(self) -> Optional[Verdict]:
        return None

    def by_invariant(self, rows: Sequence[str]) -> Optional[Verdict]:
        return super().by_invariant(self.goals.invariant(rows))

    def widened(self, text: str) -> str:
        return text

    def length(self, witness: Path) -> int:
        return len(witness.read_text().splitlines()) - 4

    def followed(self, found: Path) -> Verdict:
        """The lasso of the model, by that of its part: where more than the part has to come back it goes round more
        often, as far as steps and time allow."""
        _, _, state, *steps, _, _ = found.read_text().split("\n")
        start, end = self.step(found), time.monotonic() + self.tools.limits.time
        known, stem, loop = dict(zip(self.goals.latches, state)), steps[:start], steps[start:]
        self.model = self.source

        def behind(rounds: int) -> Optional[Path]:
            return self.written(self.goals.witness(known, [*stem, *loop * rounds]))

        too_few, rounds, witness = 0, 1, behind(1)
        while loop and not witness and start + 2 * rounds * len(loop) <= self.MOST and time.monotonic() < end:
            too_few, rounds = rounds, 2 * rounds
            witness = behind(rounds)
        if not witness:
            tried = f"does not come back in {start + rounds * len(loop)} steps"
            return Verdict(Answer.UNKNOWN, reason=f"what it depends on has a lasso, in which the model {tried}")
        # once it came back it does so in each round
        while too_few + 1 < rounds:
            fewer = (too_few + rounds) // 2
            shorter = behind(fewer)
            if shorter:
                discard(witness)
            too_few, rounds, witness = (too_few, fewer, shorter) if shorter else (fewer, rounds, witness)
        return self.shortened(self.length(found), witness)

    def shortened(self, least: int, witness: Path) -> Verdict:
        """The shortest lasso of the model, by one of it, and by how many steps that of its part has."""
        steps = self.length(witness)
        if steps > least:
            self.notes.clear()
            if steps <= self.tools.limits.frames:
                self.smaller = self.whole
                witness = self.shortest(witness).witness or witness
            else:
                self.note_longer()
        return Verdict(Answer.REACHED, steps=self.step(witness), witness=witness)
