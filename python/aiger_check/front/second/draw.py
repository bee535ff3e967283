"""Runs of the second model, by inputs that are drawn."""

import random
import time
from dataclasses import dataclass, field
from typing import Any, Dict, List, Optional, Set

from aiger_check.front.second.probes import Place, Probed

X = 2
#: a run of more steps is not drawn again from its first state
FEW = 8


@dataclass
class Drawn:
    """A run: its first state, the inputs of each step, and what the model gives."""

    #: the values of latches without first value, by their places
    starts: Dict[int, int]
    inputs: List[bytes] = field(default_factory=list)
    #: the outputs of each step, with a value for each latch
    outputs: List[bytes] = field(default_factory=list)
    #: the same, where a latch that a simulator cannot set has none
    open_outputs: List[bytes] = field(default_factory=list)


@dataclass
class Chance:
    """Draws runs: the same from the same seed."""

    probed: Probed
    #: the latches whose first values can be set in the simulation
    settable: Set[int]
    #: inputs of the design that are clocks, each with the value before its first edge
    clocks: Dict[Place, int]
    is_global: bool
    until: float
    #: whether clocks may change together, as none of them is used as data
    is_apart: bool = True

    #: of so many draws one has to keep the assumptions
    DRAWS = 30
    #: and so many first states are tried
    TRIES = 4

    def drawn(self, seed: int, steps: int) -> Optional[Drawn]:
        """A run, which may be shorter where the assumptions cannot be kept, or none."""
        rng, best = random.Random(seed), Drawn({})
        for _ in range(self.TRIES):
            starts = {at: rng.randrange(2) for at in sorted(self.probed.unset)}
            run = self.go_on(Drawn(starts), steps, rng)
            best = max(best, run, key=lambda it: len(it.inputs))
            if len(best.inputs) > min(FEW, steps - 1):
                break
        self.open(best)
        return best if best.inputs else None

    def go_on(self, run: Drawn, steps: int, rng: random.Random) -> Drawn:
        """Draws step by step; gives the longest run. Where no step is found that keeps the assumptions, those before are
        drawn again."""
        states, best = [self.first(run.starts)], Drawn(run.starts)
        left = steps + 50
        while len(run.inputs) < steps and left > 0 and time.monotonic() < self.until:
            before = run.inputs[-1] if run.inputs else None
            found = None
            for _ in range(self.DRAWS):
                inputs = self.inputs(rng, before)
                step = self.probed.circuit.step(inputs, states[-1])
                found = step if self.is_kept(step) else None
                if found:
                    break
                left -= 1
            if found:
                run.inputs.append(inputs)
                run.outputs.append(found.outputs)
                states.append(found.next)
            elif not run.inputs:
                break
            else:
                best = max(best, Drawn(run.starts, run.inputs[:], run.outputs[:]), key=lambda it: len(it.inputs))
                back = max(0, len(run.inputs) - 2)
                del run.inputs[back:], run.outputs[back:], states[back + 1 :]
        return max(best, run, key=lambda it: len(it.inputs))

    def is_kept(self, step: Any) -> bool:
        """Whether a step breaks no assumption, also none that is of the step after, whatever comes then."""
        if not step.constraints:
            return True
        circuit = self.probed.circuit
        anything = bytes([X] * len(circuit.inputs))
        return 0 not in step.constraints and 0 not in circuit.step(anything, step.next).constraints

    def first(self, starts: Dict[int, int]) -> bytes:
        state = bytearray(self.probed.circuit.first_state())
        for at, value in starts.items():
            state[at] = value
        return bytes(state)

    def inputs(self, rng: random.Random, before: Optional[bytes]) -> bytes:
        """The inputs of a step. With several clocks either these change, or others do, as in a simulation it counts
        which is first."""
        places = self.probed.inputs
        kind = rng.random()
        values = bytearray(rng.getrandbits(1) if kind < 0.7 else int(kind < 0.8) for _ in places)
        if before is not None and rng.random() < 0.5:
            values = bytearray(old if rng.random() < 0.7 else new for old, new in zip(before, values))
        clocks_move = self.is_global and rng.random() < 0.6
        moved = rng.choice(sorted(self.clocks)) if self.clocks and not self.is_apart else None
        for at, place in enumerate(places):
            if place is None:
                values[at] = X
            elif place in self.clocks and (not self.is_global or before is None):
                values[at] = self.clocks[place]
            elif self.is_global and before is not None and (place in self.clocks) != clocks_move:
                values[at] = before[at]
            elif moved is not None and before is not None and place in self.clocks and place != moved:
                values[at] = before[at]
        return bytes(values)

    def open(self, run: Drawn) -> None:
        """The run once more, where what cannot be set is not known."""
        hidden = [at for at in run.starts if at not in self.settable]
        if not hidden:
            run.open_outputs = run.outputs
            return
        state = bytearray(self.first(run.starts))
        for at in hidden:
            state[at] = X
        now = bytes(state)
        for inputs in run.inputs:
            step = self.probed.circuit.step(inputs, now)
            run.open_outputs.append(step.outputs)
            now = step.next

    def others(self, run: Drawn, seed: int) -> List[bytes]:
        """Inputs that come for a moment before those of each step."""
        rng = random.Random(seed)
        return [self.inputs(rng, None) for _ in run.inputs]
