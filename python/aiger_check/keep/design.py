"""Waveforms of a whole design."""

from dataclasses import dataclass
from functools import cached_property
from pathlib import Path
from typing import Any, Dict, List, Sequence, Tuple

from aiger_check.answers import Assertion, Cover, LeftSide, Liveness, Verdict
from aiger_check.front.second.faults import Unable
from aiger_check.front.second.probes import Place, Probed, place_of, symbols_of
from aiger_check.front.second.witness import Witness, witness_of
from aiger_check.front.shown import WholeDesign
from aiger_check.keep.dump import Signal, dumped
from aiger_check.keep.signals import OUTPUTS, STATE, Named, signals
from aiger_check.keep.waves import started_at, traced
from aiger_check.model.circuit import Model, named_by_symbols
from aiger_check.tools.aiger import Aiger

#: how long a step is
STEP = 10
#: the column of bad states
BAD = 4
Trace = List[List[str]]


@dataclass
class DesignWaves:
    """Makes waveforms of runs of a design. Each value is one that aiger gives: of a signal in a second model of the
    same translation, of an assertion in the model itself, by its bad state. What is left open is x."""

    whole: WholeDesign
    assertions: Sequence[Assertion]
    #: the model of bad states
    model: Model
    aiger: Aiger
    #: a folder that is to be made
    folder: Path

    @cached_property
    def probed(self) -> Probed:
        self.folder.mkdir()
        return self.whole.probed(self.aiger.children, self.folder)

    def of(self, assertion: Assertion, verdict: Verdict, witness: Path, source: Model) -> bytes:
        """The waveform of a run by its witness, which is one of the source."""
        run = witness_of(witness, source, self.probed.widths)
        _, _, state, *lines = witness.read_text(encoding="ascii").split("\n")
        steps = lines[: lines.index(".")]
        trace, judged = self.trace(run), self.traced(self.model.circuit, state, steps, "--properties")
        self.need_same(trace, judged)
        rows, moments = [[*its, of[STATE]] for its, of in zip(trace, judged)], self.moments(len(steps))
        named = signals(self.probed, self.whole.top, self.clock, self.registers)
        shown = [self.signal(it, rows, moments) for it in named]
        shown += self.of_assertions(judged, moments)
        if isinstance(assertion, Liveness):
            loop = [str(int(step >= (verdict.steps or 0))) for step, _, _ in moments]
            shown.append(Signal(("aiger_check", "loop"), 1, "", loop))
        about = f"{assertion}: {assertion.called(verdict.answer)} at {verdict.steps}; an assertion is 0 where it fails"
        return dumped(about, shown, [time for _, time, _ in moments], STEP * len(steps))

    @property
    def clock(self) -> str:
        """The clock whose steps are those of the model, if it has one."""
        return "" if self.whole.is_global else self.whole.clock or ""

    def trace(self, run: Witness) -> Trace:
        """What the second model does by these inputs."""
        circuit = self.probed.circuit
        resets = [str(it.reset) if it.reset < 2 else "x" for it in circuit.latches]
        for at, places in self.probed.unset.items():
            value = next((run.starts[it] for it in places if it in run.starts), None)
            resets[at] = "x" if value is None else str(value)
        rows = [[step.get(it, "x") if it else "x" for it in self.probed.inputs] for step in run.inputs]
        return self.traced(circuit, "".join(resets), ["".join(map(str, row)) for row in rows])

    def traced(self, circuit: Any, state: str, steps: Sequence[str], *words: str) -> Trace:
        """What aigsim says of each step, in columns."""
        model, stimulus = self.folder / "run.aig", self.folder / "run.stimulus"
        model.write_bytes(started_at(circuit, state).write())
        stimulus.write_text("".join(f"{it}\n" for it in steps), encoding="ascii")
        told = traced(self.aiger, *words, model, stimulus, output=self.folder / "run.trace").decode("ascii")
        return [line.split(" ") for line in told.split("\n")[: len(steps)]]

    @cached_property
    def registers(self) -> Dict[Place, int]:
        """The registers of the model, by what they are in the design."""
        named, latches = symbols_of(self.probed.widths), named_by_symbols(self.model.circuit, "l")
        return {place_of(it, named): at for at, names in latches.items() for it in names.split()}

    def need_same(self, trace: Trace, judged: Trace) -> None:
        """Refuses a second model in which a register has another value than in the model."""
        for place, at in self.registers.items():
            output = self.probed.outputs.get(place)
            both = [(row[OUTPUTS][output], its[STATE][at]) for row, its in zip(trace, judged) if output is not None]
            if any("x" not in it and it[0] != it[1] for it in both):
                raise Unable(f"{place[0]} has another value in the second model")

    def moments(self, steps: int) -> List[Tuple[int, int, str]]:
        """When something may change: the step, the time, and the value of the clock, which rises where a step ends."""
        if not self.clock:
            return [(step, STEP * step, "") for step in range(steps)]
        rest = ((step, STEP * step + behind, clock) for step in range(1, steps) for behind, clock in HALVES)
        return [(0, 0, "0"), *rest]

    def signal(self, named: Named, trace: Trace, moments: Sequence[Tuple[int, int, str]]) -> Signal:
        values = [clock if named.is_clock else named.value(trace[step]) for step, _, clock in moments]
        return Signal(named.path, len(named.bits), named.range, values)

    def of_assertions(self, judged: Trace, moments: Sequence[Tuple[int, int, str]]) -> List[Signal]:
        """Each assertion by its name: 0 where it fails; a cover is 1 where it is covered."""
        asked = [it for it in self.assertions if not isinstance(it, (LeftSide, Liveness))]
        found: Dict[str, Signal] = {}
        for it in asked:
            words = {"0": "0", "1": "1"} if isinstance(it, Cover) else {"0": "1", "1": "0"}
            values = [words.get(judged[step][BAD][it.bad], "x") for step, _, _ in moments]
            name = it.name
            if sum(other.name == name for other in asked) > 1:
                name = f"{name}_{it.place.rpartition(':')[2]}"
            while name in found:
                name += "_"
            found[name] = Signal(tuple(name.split(".")), 1, "", values)
        return list(found.values())


#: in a step the clock is 1 and then 0
HALVES = ((0, "1"), (STEP // 2, "0"))
