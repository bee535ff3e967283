"""The states in which something is so, as rows of an invariant."""

from typing import Dict, Iterable, List, Optional

from aiger_check.model.circuit import Model

#: values of some latches, by number
Cube = Dict[int, int]


class Cubes:
    """In which states a literal can be 1, whatever the inputs are: as values of latches, where few of these are enough.
    An input counts as free wherever it is read, so there may be more states than there are."""

    #: how many there are of one literal at most, and how many are looked at in all
    MOST, WORK = 128, 200000

    def __init__(self, model: Model) -> None:
        self.model, self.inputs = model, len(model.circuit.inputs)
        self.before_gates = self.inputs + len(model.latches)
        self.known: Dict[int, Optional[List[Cube]]] = {}
        self.work = 0

    def rows(self, literals: Iterable[int]) -> Optional[List[str]]:
        """Rows that each state meets in which one of these is 1; nothing where they would be many."""
        found: Dict[str, None] = {}
        for literal in literals:
            cubes = self.of(literal)
            if cubes is None:
                return None
            for cube in cubes:
                row = ["-"] * len(self.model.latches)
                for latch, value in cube.items():
                    row[latch] = str(value)
                found["".join(row)] = None
        return list(found)

    def of(self, literal: int) -> Optional[List[Cube]]:
        """The cubes of a literal. What it is made of comes first, so that no call goes deep."""
        waiting = [literal]
        while waiting and self.work <= self.WORK:
            now = waiting[-1]
            missing = [it for it in self.operands(now) if it not in self.known] if now not in self.known else []
            waiting += missing
            if not missing:
                self.known.setdefault(now, self.made(now))
                waiting.pop()
        return self.known.get(literal)

    def operands(self, literal: int) -> List[int]:
        """What is asked of a gate's operands, to know of the gate."""
        at = 3 * ((literal >> 1) - self.before_gates)
        words = self.model.circuit.gates.words
        return [words[at - 2] ^ literal & 1, words[at - 1] ^ literal & 1] if at > 0 else []

    def made(self, literal: int) -> Optional[List[Cube]]:
        variable = literal >> 1
        if not variable:
            return [{}] if literal else []
        if variable <= self.inputs:
            return [{}]
        if variable <= self.before_gates:
            return [{variable - self.inputs - 1: 1 - (literal & 1)}]
        one, other = (self.known[it] for it in self.operands(literal))
        self.work += 1
        if one is None or other is None:
            return None
        self.work += len(one) + len(other) if literal & 1 else len(one) * len(other)
        cubes = [*one, *other] if literal & 1 else both(one, other)
        kept = list({tuple(sorted(it.items())): it for it in cubes}.values())
        return kept if len(kept) <= self.MOST else None


def both(ones: List[Cube], others: List[Cube]) -> List[Cube]:
    """The cubes of what is in both."""
    pairs = ((one, other) for one in ones for other in others)
    return [{**one, **other} for one, other in pairs if all(other.get(at, value) == value for at, value in one.items())]
