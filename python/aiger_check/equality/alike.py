"""What seems to be equal in two designs."""

import random
import time
from typing import Dict, Iterable, List, NamedTuple, Optional, Sequence, Tuple

from aiger_check.equality.sides import Sides
from aiger_check.faults import Stopped
from aiger_check.model.circuit import Model
from aiger_check.search.limits import Tools


class Patterns:
    """The values of a model in many runs at once: each bit of a number is one run."""

    WIDTH = 512
    #: how often inputs are chosen again for the runs whose inputs break a constraint
    TRIES = 6

    def __init__(self, model: Model) -> None:
        self.circuit, self.latches, self.chance = model.circuit, model.latches, random.Random(1)
        self.ones = (1 << self.WIDTH) - 1
        words = self.circuit.gates.words
        self.gates = list(zip(words[0::3], words[1::3], words[2::3]))

    def any(self) -> int:
        return self.chance.getrandbits(self.WIDTH)

    def values(self, inputs: Iterable[int], state: Iterable[int]) -> List[int]:
        """The value of each literal."""
        ones, values = self.ones, [0] * (2 * self.circuit.max_var + 2)
        values[1] = ones
        literals = (*self.circuit.inputs, *(latch.literal for latch in self.latches))
        for literal, value in zip(literals, (*inputs, *state)):
            values[literal], values[literal ^ 1] = value, value ^ ones
        for literal, left, right in self.gates:
            value = values[left] & values[right]
            values[literal], values[literal ^ 1] = value, value ^ ones
        return values

    def step(self, state: Sequence[int]) -> Tuple[List[int], int]:
        """The next state by some inputs, and a mark for the runs that keep the constraints."""
        kept, inputs = 0, [0] * len(self.circuit.inputs)
        for _ in range(self.TRIES):
            inputs = [old & kept | self.any() & (self.ones ^ kept) for old in inputs]
            values, kept = self.values(inputs, state), self.ones
            for literal in self.circuit.constraints:
                kept &= values[literal]
            if kept == self.ones:
                break
        return [values[latch.next] for latch in self.latches], kept


class Equality(NamedTuple):
    """Two latches are equal, or opposite, where a third is 1. The first may be the constant 0, as -1."""

    one: int
    other: int
    opposite: int
    later: Optional[int]

    def asked(self) -> List[Dict[int, int]]:
        """The values of latches that are not to be."""
        last = {} if self.later is None else {self.later: 1}
        if self.one < 0:
            return [{self.other: self.opposite ^ 1, **last}]
        return [{self.one: value, self.other: value ^ self.opposite ^ 1, **last} for value in (0, 1)]


class Alike:
    """Latches of a miter that have one value in each step, or opposite ones, or always the same: as far as some runs by
    chance tell. So it is believed by nobody, and the invariant that they make has to be proved."""

    STEPS, ROUNDS, QUIET = 24, 60, 4
    #: an invariant has two rows for each latch, and a row a character for each
    MOST = 4000

    def __init__(self, model: Model, sides: Sides, tools: Tools) -> None:
        self.latches, self.patterns = model.latches, Patterns(model)
        self.children, self.end = tools.aiger.children, time.monotonic() + tools.limits.time
        first, second = sides.first.unset(), sides.second.unset()
        before = len(sides.first.circuit.latches)
        self.pairs = [(one, before + other) for one, other in zip(first, second)]
        count = before + len(sides.second.circuit.latches)
        #: the latch that is 0 in the first step alone, where there is a pair
        self.later = count if self.pairs and len(self.latches) == count + 1 else None
        self.phases: Dict[int, int] = {}
        self.classes: List[List[int]] = []

    def find(self) -> None:
        """Looks for what is alike, where there are latches."""
        if 0 < len(self.latches) <= self.MOST:
            self.from_start()
            self.by_induction()

    def equalities(self) -> List["Equality"]:
        """Which latch is which other one, or a constant, in each step, or in all but the first."""
        found = []
        for group in self.classes:
            for at in group[1:]:
                one = Equality(group[0], at, self.phases[group[0]] ^ self.phases[at], None)
                if not all(map(self.is_kept_at_start, one.asked())):
                    one = one._replace(later=self.later)
                if all(map(self.is_kept_at_start, one.asked())):
                    found.append(one)
        return found

    def is_kept_at_start(self, asked: Dict[int, int]) -> bool:
        """Whether no first state has these values."""
        return any(self.latches[at].reset == value ^ 1 for at, value in asked.items())

    def rows(self) -> List[str]:
        """The rows of an invariant."""
        rows = []
        for equality in self.equalities():
            for asked in equality.asked():
                row = ["-"] * len(self.latches)
                for at, value in asked.items():
                    row[at] = str(value)
                rows.append("".join(row))
        return rows

    def split(self, state: Sequence[int], kept: int) -> bool:
        """Parts what differs in one of the runs that are kept, and tells whether something did. Constants are the
        latch -1."""
        before, self.classes = self.classes, []
        for group in before:
            parts: Dict[int, List[int]] = {}
            for at in group:
                value = (0 if at < 0 else state[at]) ^ self.phases[at] * self.patterns.ones
                parts.setdefault(value & kept, []).append(at)
            self.classes += [part for part in parts.values() if len(part) > 1]
        return self.classes != before

    def from_start(self) -> None:
        patterns = self.patterns
        state = [latch.reset * patterns.ones if latch.reset < 2 else patterns.any() for latch in self.latches]
        for one, other in self.pairs:
            state[other] = state[one]
        self.phases = {-1: 0, **{at: value & 1 for at, value in enumerate(state)}}
        self.classes, kept = [list(self.phases)], patterns.ones
        for _ in range(self.STEPS):
            self.split(state, kept)
            if self.is_over():
                break
            state, now = patterns.step(state)
            kept &= now
        self.split(state, kept)

    def by_induction(self) -> None:
        """Steps from any states in which they are alike, until they stay so."""
        quiet = 0
        for _ in range(self.ROUNDS):
            state, kept = self.patterns.step(self.any_state())
            quiet = 0 if self.split(state, kept) else quiet + 1
            if quiet == self.QUIET or self.is_over():
                break

    def is_over(self) -> bool:
        """Whether this has taken long enough; ends where the run is to end."""
        if self.children.stopped:
            raise Stopped
        return time.monotonic() > self.end

    def any_state(self) -> List[int]:
        ones = self.patterns.ones
        state = [self.patterns.any() for _ in self.latches]
        for group in self.classes:
            value = 0 if group[0] < 0 else self.patterns.any()
            for at in group:
                if at >= 0:
                    state[at] = value ^ self.phases[at] * ones
        if self.later is not None:
            state[self.later] = ones
        return state
