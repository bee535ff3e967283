"""What keeps each answer."""

import glob
from pathlib import Path
from typing import Dict, List

from aiger_check.answers import Assertion, Assumption, Cover, LeftSide, Liveness, Pair, Verdict
from aiger_check.asked.question import Question
from aiger_check.keep.first import First
from aiger_check.keep.journal import Journal
from aiger_check.keep.keeper import DESIGN, Keeper
from aiger_check.keep.others import KeeperOfLassos, KeeperOfTwo
from aiger_check.keep.runs import Runs
from aiger_check.session import Session
from aiger_check.tools.aiger import Aiger


class Keepers:
    """Keeps the answers of each kind, where a folder is given, and the first waveform, where a file is."""

    def __init__(self, session: Session, question: Question, aiger: Aiger) -> None:
        self.of_kind: Dict[type, Keeper] = {}
        self.runs = Runs(session, question, aiger)
        self.first = First(session, self.runs)
        if session.given.keep is not None:
            self.of_kind = keepers(Path(session.given.keep), question, aiger)

    def keep_commands(self, session: Session, question: Question, programs: Dict[str, str]) -> None:
        """Keeps how the answers were come by."""
        for keeper in [*self.of_kind.values()][-1:]:
            again = [*(only(question) if session.given.only else []), *keeper.again]
            Journal(session, keeper.folder).keep(question.translations, again, programs)

    def keep_waves(self, waves: Dict[str, Path]) -> None:
        """Keeps the waveforms of a run in which a second front end says otherwise, and none of another run's."""
        for keeper in [*self.of_kind.values()][:1]:
            for path in keeper.folder.glob("second-*.vcd"):
                path.unlink()
            for name, path in waves.items():
                keeper.put(name, path.read_bytes())

    def keep(self, assertion: Assertion, verdict: Verdict) -> None:
        keeper = self.of_kind.get(type(assertion))
        if keeper:
            keeper.keep(assertion, verdict)
            waves = self.runs.of_design(assertion, verdict)
            if waves and verdict.kept:
                keeper.put(f"{verdict.kept.stem}{DESIGN}", waves)
        self.first.take(assertion, verdict)


def only(question: Question) -> List[str]:
    """The words that choose what was asked, by the names that it has in the model."""
    return [f"--only={glob.escape(it.name if question.sides else it.position)}" for it in question.assertions]


def keepers(folder: Path, question: Question, aiger: Aiger) -> Dict[type, Keeper]:
    """What keeps the answers of each kind."""
    model, live, sides = question.model, question.live, question.sides
    if sides:
        of_two = KeeperOfTwo(folder, model.path, aiger, sides)
        return {Pair: of_two, Assumption: of_two}
    found: Dict[type, Keeper] = {}
    if model.circuit.bad or not live:
        found = dict.fromkeys((Assertion, Cover, LeftSide), Keeper(folder, model.path, aiger))
    if live:
        names = found[Assertion].names if found else set()
        found[Liveness] = KeeperOfLassos(folder, live, aiger, names)
    return found
