"""What is asked of all assertions of a model at once."""

from dataclasses import replace
from pathlib import Path
from typing import Any, Dict, Iterator, List, Optional, Sequence, Set

from aiger_check.answers import Answer, Assertion, Verdict
from aiger_check.equality.alike import Patterns
from aiger_check.model.circuit import Gates, Model
from aiger_check.model.part import Part
from aiger_check.model.kept import entries
from aiger_check.report import Progress
from aiger_check.search.limits import FEW, Target, Tools, steps_up_to
from aiger_check.search.single import Search
from aiger_check.tools.library import aigtools


def with_bad(circuit: Any, bad: Sequence[int]) -> Any:
    """The circuit with these of its bad states."""
    names = [it for it in circuit.symbols if it.kind != "b"]
    return replace(circuit, bad=[circuit.bad[at] for at in bad], symbols=names)


def with_either(circuit: Any, bad: Sequence[int]) -> Any:
    """The circuit with one bad state, which is reached where one of these is."""
    gates, either = Gates(circuit.max_var + 1), 0
    for at in bad:
        either = gates.either(either, circuit.bad[at])
    parts = {name: getattr(circuit, name) for name in ("inputs", "latches", "constraints")}
    return aigtools().Circuit(max_var=gates.variable - 1, bad=[either], gates=entries(circuit, gates), **parts)


class Joint(Search):
    """Shows of all assertions at once that none is reached: by one invariant, and by one refutation. Those that some run
    reaches are taken out, and the rest is asked again."""

    #: how many steps some runs by chance have, and of how many gates they are made at most
    STEPS, GATES = 32, 60000

    def __init__(self, asked: Sequence[int], model: Model, tools: Tools, folder: Path, progress: Progress) -> None:
        super().__init__(Assertion("all", model.path.name, 0), model, tools, folder, progress)
        self.source = model
        #: the bad states of which it is asked, and that no run is known to reach
        self.open = sorted(asked)
        #: what is shown of these if each alone is not shown to be kept for ever
        self.bound: Optional[Verdict] = None

    def answers(self) -> Dict[int, Verdict]:
        """What is shown of bad states, by their numbers."""
        solver = self.tools.solver
        if not solver or not solver.refutes or len(self.open) < 2:
            return {}
        self.folder.mkdir()
        self.take()
        shown = self.at_once() or self.by_rounds()
        if not shown:
            return {}
        if shown.answer is Answer.NONE_WITHIN:
            self.bound = shown
            return {}
        return {at: replace(shown) for at in self.open}

    def hand_on(self, search: Search) -> None:
        """Tells the search for one what is known of it."""
        if search.assertion.bad in self.open:
            search.refuted, search.bound = self.refuted, self.bound

    def at_once(self) -> Optional[Verdict]:
        """What needs no invariant."""
        verdict = self.by_no_rows()
        if not verdict and len(self.source.circuit.gates) <= self.GATES:
            self.leave_out(self.met_by_chance())
        return verdict

    def by_rounds(self) -> Optional[Verdict]:
        steps = steps_up_to(self.tools.limits.frames)
        few, more = [it for it in steps if it <= FEW][-1:], [it for it in steps if it > FEW]
        while len(self.open) > 1:
            count = len(self.open)
            verdict = self.bounded(few) or self.by_itself() or self.by_abc() or self.bounded(more) or self.none_within()
            if not verdict or verdict.answer is not Answer.REACHED:
                return self.of_rest(verdict) if verdict else None
            if len(self.open) == count:
                return None
        return None

    def by_itself(self) -> Optional[Verdict]:
        # the search has a model of its own, of which latches are the same
        self.model, either = self.source, self.model
        verdict = super().by_itself()
        self.model = either
        return verdict

    def of_rest(self, verdict: Verdict) -> Verdict:
        """An answer of all that is open."""
        left_out = set(range(len(self.source.circuit.bad))) - set(self.open)
        return replace(verdict, of_all=True, left_out=sorted(left_out))

    def by_no_rows(self) -> Optional[Verdict]:
        reasons = len(self.reasons)
        verdict = self.by_invariant([])
        del self.reasons[reasons:]
        return self.of_rest(verdict) if verdict else None

    def asked_literals(self) -> List[int]:
        return [self.source.circuit.bad[at] for at in self.open]

    def take(self) -> None:
        """Makes the models of what is open: the rest of the model, and one for the search that reaches either."""
        circuit, rest = self.source.circuit, self.folder / f"rest{len(self.open)}.aig"
        either = self.folder / f"either{len(self.open)}.aig"
        rest.write_bytes(with_bad(circuit, self.open).write())
        either.write_bytes(with_either(circuit, self.open).write())
        self.whole, self.model = Target(rest), Model(either)
        self.part = Part(self.model, 0)
        self.smaller = Target(self.folder / f"part{len(self.open)}.aig", ("--bad", 0))
        self.smaller.path.write_bytes(self.part.circuit().write())

    def shortest(self, witness: Path) -> Verdict:
        """A run that reaches some: these are looked at alone."""
        self.leave_out(self.met_by(witness.read_text()))
        return Verdict(Answer.REACHED)

    def leave_out(self, met: Sequence[int]) -> None:
        if met:
            self.open = [at for at in self.open if at not in met]
            if len(self.open) > 1:
                self.take()

    def met_by(self, text: str) -> List[int]:
        """The bad states that a witness reaches."""
        circuit = self.source.circuit
        _, _, state, *lines = text.split("\n")
        here = bytes(map(int, state))
        met: Set[int] = set()
        for line in lines[: lines.index(".")]:
            step = circuit.step(bytes(map(int, line)), here)
            met.update(at for at in self.open if step.bad[at] == 1)
            here = step.next
        return sorted(met)

    def met_by_chance(self) -> List[int]:
        """The bad states that some runs by chance reach."""
        circuit = self.source.circuit
        met: Set[int] = set()
        for values, kept in self.runs():
            met.update(at for at in self.open if values[circuit.bad[at]] & kept)
        return sorted(met)

    def runs(self) -> Iterator[Any]:
        """Of each step of many runs the value of each literal, and a mark for those that kept the constraints."""
        patterns, source = Patterns(self.source), self.source
        state = [latch.reset * patterns.ones if latch.reset < 2 else patterns.any() for latch in source.latches]
        kept = patterns.ones
        for _ in range(self.STEPS if source.latches else 1):
            values = patterns.values([patterns.any() for _ in source.circuit.inputs], state)
            for literal in source.circuit.constraints:
                kept &= values[literal]
            yield values, kept
            state = [values[latch.next] for latch in source.latches]
