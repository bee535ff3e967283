"""Which properties of a design are asked for, and how a cover becomes a bad state."""

import re
from dataclasses import dataclass
from typing import Dict, List, Optional, Sequence, Tuple

from aiger_check.front.yosys import quoted

#: the properties of each mode; without one it is all that is assumed to be kept
OF_MODE: Dict[Optional[str], Tuple[str, ...]] = {
    None: ("$assert", "$live"),
    "bmc": ("$assert",),
    "prove": ("$assert",),
    "live": ("$live",),
    "cover": ("$cover",),
}
#: what the cell is called that says whether an assertion's left side was met
MET = "$met"


@dataclass(frozen=True)
class Asked:
    """What is asked of a design: its mode, and whether the left sides of implications are to be met too."""

    mode: Optional[str] = None
    left_sides: bool = False

    @property
    def kinds(self) -> Tuple[str, ...]:
        return OF_MODE[self.mode]

    def left_out(self, kinds: Sequence[str]) -> List[str]:
        """The kinds of cells of which nothing is asked, where these are there: fairness is for liveness alone."""
        wanted = {*self.kinds, *(["$assert"] if self.left_sides else [])}
        found = [it for it in ("$assert", "$cover", "$live") if it not in wanted]
        return found + ["$fair"] * ("$live" not in wanted or "$live" not in kinds)

    def is_noted(self, kind: str) -> bool:
        """Whether it is said that such a property is left out: what a mode leaves out is known."""
        return not self.mode or kind == "$fair" and self.mode == "live"

    def text(self, text: str, top: str) -> str:
        """A netlist of gates in RTLIL, in which what is to be reached is what an assertion forbids."""
        if "$cover" not in self.kinds and not self.left_sides:
            return text
        made: List[str] = []
        cells = Reached(self, made)
        is_top = False
        for line in text.split("\n"):
            if line.startswith("module "):
                is_top = line == f"module {quoted(top)}"
            if not (is_top and cells.takes(line)):
                made.append(line)
        return "\n".join(made)


CELL = re.compile(r"  cell (\$assert|\$cover) (\S+)$")


class Reached:
    """Takes the lines of assertions and covers of a module, and writes others in their place."""

    def __init__(self, asked: Asked, made: List[str]) -> None:
        self.asked, self.made = asked, made
        self.inside: Optional[Tuple[str, str]] = None
        self.ports: Dict[str, str] = {}
        self.count = 0

    def takes(self, line: str) -> bool:
        """Whether this line is one of such a cell."""
        cell = CELL.match(line)
        if cell:
            self.inside, self.ports = (cell[1], cell[2]), {}
            # attributes stand before what has them
            while self.made[-1].startswith("  attribute "):
                self.made.pop()
        elif self.inside and line == "  end":
            self.put(*self.inside)
            self.inside = None
        elif self.inside:
            _, port, value = line.split(None, 2)
            self.ports[port] = value
        else:
            return False
        return True

    def put(self, kind: str, name: str) -> None:
        value, enabled = self.ports["\\A"], self.ports["\\EN"]
        if kind == "$cover":
            self.forbid(name, value, enabled)
            return
        if "$assert" in self.asked.kinds:
            self.cell("$assert", name, A=value, EN=enabled)
        if self.asked.left_sides and enabled != "1'1":
            self.forbid(name + MET, enabled, "1'1")

    def forbid(self, name: str, value: str, enabled: str) -> None:
        """An assertion that this is never 1."""
        self.count += 1
        inverse = f"\\aiger_check_not_{self.count}"
        self.made.append(f"  wire {inverse}")
        self.cell("$_NOT_", f"{inverse}_cell", A=value, Y=inverse)
        self.cell("$assert", name, A=inverse, EN=enabled)

    def cell(self, kind: str, name: str, **ports: str) -> None:
        self.made += [f"  cell {kind} {name}", *(f"    connect \\{it} {value}" for it, value in ports.items()), "  end"]
