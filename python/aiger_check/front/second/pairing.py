"""Which assertion of the simulation is which of the model."""

import re
from dataclasses import dataclass, field
from typing import Callable, Dict, List, Sequence, Set, Tuple

from aiger_check.front.properties import Property
from aiger_check.front.second.told import Statement
from aiger_check.front.second.traces import Where

KINDS = {"assert": "$assert", "assume": "$assume"}


def natural(text: str) -> List[Tuple[int, str]]:
    """In the order of numbers within."""
    return [(int(it), "") if it.isdigit() else (-1, it) for it in re.split(r"(\d+)", text)]


@dataclass
class Pairs:
    """The cell of each, and what has none."""

    statements: Sequence[Statement]
    #: where the file of each number in marks is
    places: Sequence[str]
    properties: Sequence[Property]
    #: whether the values of both may be those of one
    is_alike: Callable[[Where, str], bool]
    found: Dict[Where, str] = field(default_factory=dict)
    lost: List[Where] = field(default_factory=list)

    def pair(self, told: Sequence[Where]) -> "Pairs":
        left = self.by_label(sorted(told, key=lambda it: (it[0], natural(it[1]))))
        left = self.by_groups(left, self.line_of, lambda it: (it.file, it.line))
        self.lost = self.by_groups(left, lambda _: ("", 0), lambda _: ("", 0))
        return self

    def kind(self, where: Where) -> str:
        return KINDS[self.statements[where[0]].word]

    def line_of(self, where: Where) -> Tuple[str, int]:
        statement = self.statements[where[0]]
        return self.places[statement.file], statement.line

    def by_label(self, told: Sequence[Where]) -> List[Where]:
        """Pairs what has a label by its whole name; gives what is left."""
        cells = {(it.kind, it.cell): it for it in self.properties}
        left = []
        for where in told:
            label = self.statements[where[0]].label
            name = f"{where[1]}.{label}" if where[1] else label
            if label and (self.kind(where), name) in cells:
                self.found[where] = name
            else:
                left.append(where)
        return left

    def by_groups(
        self,
        told: Sequence[Where],
        place_of_told: Callable[[Where], Tuple[str, int]],
        place_of_cell: Callable[[Property], Tuple[str, int]],
    ) -> List[Where]:
        """Pairs those of one place and one instance, where all can be paired; gives what is left."""
        used = set(self.found.values())
        groups: Dict[Tuple[object, ...], List[str]] = {}
        for it in self.properties:
            if it.cell not in used:
                groups.setdefault((it.kind, ".".join(it.path[:-1]), *place_of_cell(it)), []).append(it.cell)
        asked: Dict[Tuple[object, ...], List[Where]] = {}
        for where in told:
            instance = self.instance(where[1])
            asked.setdefault((self.kind(where), instance, *place_of_told(where)), []).append(where)
        left: List[Where] = []
        for key, its in asked.items():
            cells = sorted(groups.get(key, []), key=natural)
            left += self.matched(its, cells)
        return left

    def instance(self, scope: str) -> str:
        """The instance with properties in which a scope is."""
        its = {".".join(it.path[:-1]) for it in self.properties}
        mine = [it for it in its if f"{scope}.".startswith(f"{it}." if it else "")]
        return max(mine, key=len, default="?")

    def matched(self, told: Sequence[Where], cells: Sequence[str]) -> List[Where]:
        """Pairs each with a cell that is alike, and where not all can be, in their order; gives what is left."""
        holder: Dict[str, Where] = {}
        for where in told:
            self.seek(where, cells, holder, set())
        if len(holder) == len(told):
            self.found.update({where: cell for cell, where in holder.items()})
        else:
            self.found.update(zip(told, cells))
        return [it for it in told if it not in self.found]

    def seek(self, where: Where, cells: Sequence[str], holder: Dict[str, Where], tried: Set[str]) -> bool:
        """Finds a cell for one, perhaps by another one's giving way."""
        for cell in cells:
            if cell not in tried and self.is_alike(where, cell):
                tried.add(cell)
                if cell not in holder or self.seek(holder[cell], cells, holder, tried):
                    holder[cell] = where
                    return True
        return False
