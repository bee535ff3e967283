"""The properties of a design, and where they stand."""

import re
from typing import Any, Dict, Iterator, List, NamedTuple, Optional, Tuple

from aiger_check.front.edges import Registers
from aiger_check.front.words import Source, Word
from aiger_check.front.yosys import bare


class Property(NamedTuple):
    """A property of the Verilog: the names on the way to its cell, what it is, and where its name and its text are."""

    path: Tuple[str, ...]
    kind: str
    name: str
    file: str
    line: int
    column: int

    @property
    def number(self) -> str:
        """What orders the properties of one place, where these have no label."""
        return self.path[-1] if self.path[-1].startswith(UNNAMED) else ""

    @property
    def cell(self) -> str:
        """The name of its cell once the design is flat."""
        return ".".join(self.path)


UNNAMED = "aiger_check_unnamed_"
PROPERTIES = ("$assert", "$assume", "$cover", "$live", "$fair")
LEFT_OUT = {"$cover": "a cover", "$live": "liveness", "$fair": "fairness"}
SPELLED = {"$live": "assert", "$fair": "assume"}


def renamed(text: str) -> Iterator[str]:
    """The commands that give a plain name to each property without one, of a design in RTLIL. Yosys numbers cells as
    they are made, which is the order of the source, and of the indices of a loop."""
    module = ""
    for line in text.split("\n"):
        head = re.fullmatch(r"module (?P<module>\S+)|  cell (?P<kind>\S+) (?P<cell>\$\S*\$(?P<number>\d+))", line)
        if head and head["module"]:
            module = head["module"]
        elif head and head["kind"] in PROPERTIES:
            yield from (f"cd {module}", f"rename {head['cell']} {UNNAMED}{int(head['number']):010}", "cd")


class Range(NamedTuple):
    """From where to where something stands in a file, as Yosys says."""

    file: str
    first: Tuple[int, int]
    last: Tuple[int, int]

    def has(self, word: Word) -> bool:
        return self.file == word.file and self.first <= (word.line, word.column) < self.last


def range_of(cell: Dict[str, Any]) -> Optional[Range]:
    source = cell.get("attributes", {}).get("src", "").split("|")[0]
    match = re.fullmatch(r"(.*):(\d+)\.(\d+)-(\d+)\.(\d+)", source)
    if not match:
        return None
    return Range(match[1], (int(match[2]), int(match[3])), (int(match[4]), int(match[5])))


def properties(modules: Dict[str, Any], top: str, source: Source) -> Iterator[Property]:
    """All properties of a design before it is flattened, instance by instance."""
    waiting: List[Tuple[str, Tuple[str, ...]]] = [(top, ())]
    while waiting:
        module, path = waiting.pop()
        inside = []
        registers = Registers(modules[module], source.sources.rewritten)
        for name, cell in modules[module]["cells"].items():
            kind, here = cell["type"], (*path, bare(name))
            if kind in PROPERTIES:
                labelled = not name.startswith((UNNAMED, "$"))
                asked = registers.asked(cell)
                its = asked.name if asked and not labelled else SPELLED.get(kind, kind[1:])
                shown = ".".join(here if labelled else (*path, its))
                yield Property(here, kind, shown, *place_of(cell, labelled, source))
            elif kind in modules:
                inside.append((kind, here))
        waiting.extend(reversed(inside))


def place_of(cell: Dict[str, Any], labelled: bool, source: Source) -> Tuple[str, int, int]:
    """File, line and column of a property. Without a label Yosys has it begin where the statement before it ends."""
    its = range_of(cell)
    if not its:
        return cell.get("attributes", {}).get("src", ""), 0, 0
    word = None if labelled else next((it for it in source.properties.get(its.file, []) if its.has(it)), None)
    return (its.file, *its.first) if word is None else (its.file, word.line, word.column)


class Lost:
    """What of the source has no answer: modules that stand nowhere below the top, and what is in no branch taken."""

    def __init__(self, modules: Dict[str, Any], source: Source) -> None:
        self.source = source
        self.used = {bare(module["attributes"].get("hdlname", name)) for name, module in modules.items()}
        #: where cells came of, by each of its lines
        self.ranges: Dict[Tuple[str, int], List[Range]] = {}
        for module in modules.values():
            for cell in module["cells"].values():
                its = range_of(cell) if cell["type"] in PROPERTIES else None
                if its:
                    self.add(its)

    def add(self, its: Range) -> None:
        for line in range(its.first[0], its.last[0] + 1):
            self.ranges.setdefault((its.file, line), []).append(its)

    def is_answered(self, word: Word) -> bool:
        return any(it.has(word) for it in self.ranges.get((word.file, word.line), []))

    def notes(self) -> Iterator[str]:
        """What is said of these."""
        elsewhere = set()
        for part in self.source.parts:
            asked = [word for word in part.words if word.text == "assert"]
            if bare(part.name.text) not in self.used and asked:
                elsewhere.update(asked)
                count = f"{len(asked)} assertion{'s are' if len(asked) > 1 else ' is'}"
                place = f"{bare(part.name.text)} ({self.source.place(part.name)})"
                yield f"module {place} stands nowhere below the top: its {count} not checked"
        asserted = (word for words in self.source.properties.values() for word in words if word.text == "assert")
        for word in asserted:
            if word not in elsewhere and not self.is_answered(word):
                yield f"{self.source.place(word)}: no assertion comes of this: it is in a branch that is never taken"
