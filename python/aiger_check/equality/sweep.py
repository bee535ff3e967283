"""A refutation of the clauses of a miter, gate by gate."""

import random
import re
import time
from pathlib import Path
from typing import Dict, Iterator, List, Optional, Sequence, Set, Tuple

from aiger_check.equality.alike import Equality
from aiger_check.tools.processes import bytes_of
from aiger_check.tools.solvers import Said, Solver


class Sweep:
    """Refutes the clauses of a miter whose two halves have much in common, from the inputs on.

    Gates that have one value in many patterns are taken for equal, and a solver shows it for some of them at a time, in
    a window of what they depend on: it is asked for a difference of each, and what it learns goes into one refutation.
    What was shown makes the next windows small. That all is right, aiger sees.
    """

    WIDTH, CHUNK, DEPTH, TRIES = 2048, 200, 10, 6
    #: in so many patterns the constraints have to hold
    LEAST = 64
    #: a variable that is false
    FALSE = 1

    def __init__(
        self, solver: Solver, clauses: Path, first_gates: int, equalities: Sequence[Equality], seconds: float
    ) -> None:
        self.solver, self.folder, self.end = solver, clauses.parent, time.monotonic() + seconds
        self.first_gates, self.equalities = first_gates, equalities
        self.gates: Dict[int, Tuple[int, int]] = {}
        self.to: Dict[int, int] = {}
        self.leaders: Dict[int, List[Tuple[int, int]]] = {}
        self.known: Dict[Tuple[int, int], int] = {}
        self.read(clauses)

    def read(self, clauses: Path) -> None:
        """The gates of the clauses, and their last clause: one of these gates of bad states is true."""
        with open(clauses, encoding="ascii") as file:
            self.count, rows = (int(word) for word in file.readline().split()[2:])
            next(file)
            for _ in range((rows - 2) // 3):
                left, right, _ = next(file).split(), next(file).split(), next(file)
                self.gates[-int(left[0])] = (int(left[1]), int(right[1]))
            self.bad = [int(word) for word in next(file).split()[:-1]]

    def refutes(self, refutation: Path) -> bool:
        """Whether it comes to a refutation, which it writes."""
        with open(refutation, "w", encoding="ascii") as self.proof:
            self.begin()
            if bin(self.mask).count("1") < self.LEAST or any(self.key_of_value(it)[0] for it in self.bad):
                return False
            if not self.sweep() or not all(self.find(it) == self.FALSE or self.is_false(it) for it in self.bad):
                return False
            self.add()
        return True

    # What is known

    def add(self, *literals: int) -> None:
        self.proof.write(" ".join(map(str, (*literals, 0))) + "\n")

    def find(self, literal: int) -> int:
        """The literal that a literal was shown to be."""
        sign, variable = (1, literal) if literal > 0 else (-1, -literal)
        known = self.to.get(variable)
        while known is not None:
            if known < 0:
                sign, known = -sign, -known
            variable = known
            known = self.to.get(variable)
        return sign * variable

    def merge(self, variable: int, literal: int) -> None:
        self.add(-variable, literal)
        self.add(variable, -literal)
        self.to[variable] = literal

    def begin(self) -> None:
        """Has all latches that are equal be one, which the constraints say, and gives each literal its patterns."""
        # the gate of a bad state has the end of the chain of constraints, which stands behind all else, or 1
        operands = self.gates[self.bad[0]]
        self.held = -self.FALSE if -self.FALSE in operands else max(operands, key=abs)
        if self.equalities:
            self.add(self.held)
        for one, other, opposite, later in self.equalities:
            variable, literal = other + 2, (-1 if opposite else 1) * (one + 2 if one >= 0 else self.FALSE)
            at_first = () if later is None else (later + 2, -later - 2)
            for first in at_first:
                self.add(-variable, literal, first)
                self.add(variable, -literal, first)
            self.merge(variable, literal)
        self.simulate()

    def simulate(self) -> None:
        chance, ones = random.Random(1), (1 << self.WIDTH) - 1
        values = [0] * (self.count + 1)
        free = [it for it in range(2, self.count + 1) if it not in self.gates]
        for variable in free:
            values[variable] = chance.getrandbits(self.WIDTH)
        self.ones, self.values = ones, values
        for variable in free:
            values[variable] = self.value(self.find(variable))
        for variable, (left, right) in self.gates.items():
            one = values[left] if left > 0 else values[-left] ^ ones
            values[variable] = one & (values[right] if right > 0 else values[-right] ^ ones)
        # patterns in which the constraints do not hold say nothing
        self.mask = self.value(self.held)
        self.lowest = self.mask & -self.mask
        for variable in [self.FALSE, *free]:
            if variable not in self.to:
                self.lead(variable)

    def value(self, literal: int) -> int:
        return self.values[literal] if literal > 0 else self.values[-literal] ^ self.ones

    def key_of_value(self, variable: int) -> Tuple[int, int]:
        """The patterns of a variable, or of its negation, and which of both."""
        value = self.values[variable] & self.mask
        return (value ^ self.mask, 1) if value & self.lowest else (value, 0)

    def key(self, variable: int) -> Tuple[int, int]:
        left, right = map(self.find, self.gates[variable])
        return (left, right) if left < right else (right, left)

    def lead(self, variable: int) -> None:
        """Takes it for different from all before."""
        value, sign = self.key_of_value(variable)
        self.leaders.setdefault(value, []).append((variable, sign))
        if variable in self.gates:
            self.known.setdefault(self.key(variable), variable)

    def guesses(self, variable: int) -> List[int]:
        """The literals that it may be equal to, the last ones first."""
        value, sign = self.key_of_value(variable)
        found = self.leaders.get(value, [])[-self.TRIES :]
        return [other if its == sign else -other for other, its in reversed(found) if other != variable]

    # What is shown

    def sweep(self) -> bool:
        """Goes through all gates on which the last clause depends, if time allows."""
        waiting: List[Tuple[int, List[int]]] = []
        cone = self.cone()
        for at, variable in enumerate(self.gates):
            if not cone[variable] or self.is_plain(variable):
                continue
            guesses = self.guesses(variable) if at >= self.first_gates else []
            if guesses:
                waiting.append((variable, guesses))
            else:
                self.lead(variable)
            if len(waiting) == self.CHUNK:
                if not self.show(waiting):
                    return False
                waiting = []
        return self.show(waiting)

    def cone(self) -> bytearray:
        """A mark for each variable on which the last clause depends."""
        needed, left = bytearray(self.count + 1), [abs(it) for it in self.bad]
        while left:
            variable = left.pop()
            if not needed[variable]:
                needed[variable] = 1
                left += map(abs, self.gates.get(variable, ()))
        return needed

    def is_plain(self, variable: int) -> bool:
        """Whether its operands say at once what it is."""
        left, right = self.key(variable)
        if left == -right or self.FALSE in (left, right):
            self.merge(variable, self.FALSE)
        elif left == right or left == -self.FALSE:
            self.merge(variable, right)
        elif right == -self.FALSE:
            self.merge(variable, left)
        elif (left, right) in self.known:
            self.merge(variable, self.known[left, right])
        else:
            return False
        return True

    def show(self, waiting: List[Tuple[int, List[int]]]) -> bool:
        """Shows what each of these is equal to, as far as that can be shown; whether the solver and time allow it."""
        while waiting:
            shown = self.ask([(variable, guesses[0]) for variable, guesses in waiting], self.DEPTH)
            if shown is None:
                return False
            if shown == len(waiting):
                break
            (variable, guesses), waiting = waiting[shown], waiting[shown + 1 :]
            if self.is_plain(variable):
                continue
            if len(guesses) > 1:
                waiting.insert(0, (variable, guesses[1:]))
            elif not any(self.ask([(variable, it)], 4 * self.DEPTH) for it in self.guesses(variable)[-3:]):
                self.lead(variable)
        return True

    def is_false(self, variable: int) -> bool:
        """Whether it is shown to be false, by all that it depends on."""
        return bool(self.ask([(variable, self.FALSE)], self.count))

    def ask(self, pairs: List[Tuple[int, int]], depth: int) -> Optional[int]:
        """How many of these pairs the solver shows to be equal, up to the first that may differ in this depth. None if
        it fails."""
        window = Window(self, pairs, depth)
        clauses = self.folder / "window.cnf"
        clauses.write_text(window.text(), encoding="ascii")
        left = self.end - time.monotonic()
        if left <= 0:
            return None
        said, _ = self.solver.solve(clauses, left)
        if said is Said.NOTHING:
            return None
        count = len(pairs) if said is Said.UNSATISFIABLE else window.differing(clauses.with_suffix(".answer"))
        lemmas = window.lemmas(clauses.with_suffix(".drat"))
        for lemma in lemmas:
            self.add(*lemma)
        for variable, literal in pairs[:count]:
            self.merge(variable, literal)
        for lemma in lemmas:
            if len(lemma) > 2:
                self.proof.write("d ")
                self.add(*lemma)
        return count


class Window:
    """What some pairs depend on, up to a depth, as clauses over numbers of its own, with cubes that ask for a
    difference of each (iCNF)."""

    def __init__(self, sweep: Sweep, pairs: List[Tuple[int, int]], depth: int) -> None:
        self.sweep, self.variables = sweep, [0]
        self.numbers: Dict[int, int] = {}
        self.lines, self.cubes = ["p inccnf", f"{-self.number(Sweep.FALSE)} 0"], []
        ends = [(variable, sweep.find(literal)) for variable, literal in pairs]
        layer, done = [abs(it) for pair in ends for it in pair], {Sweep.FALSE}
        for _ in range(depth):
            layer = self.gates_of(layer, done)
            if not layer:
                break
        for variable, literal in ends:
            one, other = self.number(variable), self.number(literal)
            self.cubes += [(one, -other), (-one, other)]

    def number(self, literal: int) -> int:
        variable = abs(literal)
        if variable not in self.numbers:
            self.numbers[variable] = len(self.variables)
            self.variables.append(variable)
        return self.numbers[variable] if literal > 0 else -self.numbers[variable]

    def gates_of(self, layer: List[int], done: Set[int]) -> List[int]:
        """The clauses of these gates, and what they depend on."""
        below = []
        for variable in layer:
            if variable in self.sweep.gates and variable not in done:
                left, right = map(self.sweep.find, self.sweep.gates[variable])
                own, one, other = self.number(variable), self.number(left), self.number(right)
                self.lines.append(f"{-own} {one} 0\n{-own} {other} 0\n{own} {-one} {-other} 0")
                below += [abs(left), abs(right)]
            done.add(variable)
        return below

    def text(self) -> str:
        return "\n".join([*self.lines, *(f"a {one} {other} 0" for one, other in self.cubes), ""])

    def differing(self, answer: Path) -> int:
        """The first pair that differs by the solver's answer."""
        lines = re.findall(rb"(?m)^v([-0-9 ]*)$", bytes_of(answer))
        true = {int(it) for line in lines for it in re.findall(rb"-?[0-9]+", line)}
        return next((at for at, cube in enumerate(self.cubes) if true.issuperset(cube)), 0) // 2

    def lemmas(self, refutation: Path) -> List[List[int]]:
        """What the solver learnt, over the variables of the whole. What it deletes is kept until all is used."""
        found = []
        for line in binary_lemmas(bytes_of(refutation)):
            if all(abs(it) < len(self.variables) for it in line):
                found.append([self.variables[it] if it > 0 else -self.variables[-it] for it in line])
        return [lemma for lemma in found if lemma]


def binary_lemmas(data: bytes) -> Iterator[List[int]]:
    """The clauses that a binary refutation adds."""
    literals: List[int] = []
    value = shift = 0
    kind = 0
    for byte in data:
        if not kind:
            kind = byte
        elif byte & 128:
            value, shift = value | (byte & 127) << shift, shift + 7
        elif byte or shift:
            value |= byte << shift
            literals.append(-(value >> 1) if value & 1 else value >> 1)
            value = shift = 0
        else:
            if kind == ord("a"):
                yield literals
            literals, kind = [], 0
