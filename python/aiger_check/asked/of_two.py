"""Two designs that are given."""

import contextlib
from typing import Any, List, Sequence

from aiger_check.answers import Pair
from aiger_check.arguments import Design
from aiger_check.asked.of_aiger import copied
from aiger_check.asked.of_verilog import note_all, seconds, started, translation
from aiger_check.asked.question import Question, Translation
from aiger_check.equality.sides import Side, Sides, in_order_of
from aiger_check.faults import Trouble, visible
from aiger_check.front.second.beside import Second
from aiger_check.front.ports import Ports, TwoPorts
from aiger_check.model.circuit import Model
from aiger_check.programs import Programs
from aiger_check.session import Session
from aiger_check.tools.aiger import Aiger, aigtools

NAMES = ("first", "second")


class OfTwo:
    """Asks of two designs whether they are equal."""

    def __init__(self, session: Session, programs: Programs, aiger: Aiger) -> None:
        self.session, self.programs, self.aiger = session, programs, aiger
        self.designs: Sequence[Design] = session.given.designs
        self.translations: List[Translation] = []
        self.seconds: List[Second] = []

    def question(self) -> Question:
        """What is asked of their miter."""
        sides = self.of_verilog() if self.session.given.verilog else self.of_aiger()
        path, notes = self.session.folder / "model.aig", self.session.notes
        failure = self.aiger.miter(sides.first.path, sides.second.path, path, sides.by_name)
        if failure:
            side = sides.first if failure[0] == sides.first.path else sides.second
            raise Trouble(visible(f"{side.called}: {failure[1]}"))
        model, claims = Model(path), sides.claims()
        if len(model.circuit.bad) != len(claims):
            raise Trouble("which bad state of the miter is which pair cannot be told")
        if not any(isinstance(it, Pair) for it in claims):
            notes.warn("there is no output to compare")
        other = sides.other_name()
        if other:
            names = f"{visible(other[0])} of {visible(sides.first.called)} with {visible(other[1])}"
            notes.warn(f"paired by their places, as {names} of {visible(sides.second.called)}; by symbols: --by-name")
        return Question(model, claims, sides=sides, translations=self.translations, seconds=self.seconds)

    def of_aiger(self) -> Sides:
        """Two models that are given."""
        sides = []
        for name, design in zip(NAMES, self.designs):
            path = self.session.folder / f"{name}.aig"
            sides.append(Side(design.called, path, copied(self.aiger, design.files[0], path)))
        if self.session.given.by_name:
            sides[1] = in_order_of(*sides)
        return Sides(sides[0], sides[1], self.session.given.by_name)

    def of_verilog(self) -> Sides:
        """The models that Yosys writes of two designs, with the same inputs and outputs."""
        with contextlib.ExitStack() as stack:
            fronts = [self.flat(stack, at) for at in (0, 1)]
            two = TwoPorts(*fronts)
            reason = two.reason()
            for front in fronts:
                front.write(reason)
                front.read_model()
        for front in fronts:
            note_all(self.session, front)
            self.translations.append(translation(front))
        self.seconds = seconds(self.session, self.programs.yosys(), fronts)
        models = two.models()
        for words in two.notes:
            self.session.notes.warn(words)
        first, second = self.written(models)
        return Sides(first, second, True)

    def flat(self, stack: contextlib.ExitStack, at: int) -> Ports:
        """One of the designs as a flat one."""
        design, place = self.designs[at], self.session.folder / f"verilog{at}"
        yosys = started(stack, self.session, self.programs, design, place)
        front = Ports(yosys, design.top, design.called, self.session.given.clocks)
        front.flatten()
        return front

    def written(self, models: Sequence[Any]) -> List[Side]:
        """The models, each in its file."""
        sides = []
        for name, design, circuit in zip(NAMES, self.designs, models):
            path = self.session.folder / f"{name}.aig"
            path.write_bytes(circuit.write())
            sides.append(Side(design.called, path, aigtools().read(path.read_bytes())))
        return sides
