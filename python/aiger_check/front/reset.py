"""A reset at the start of each run: active in the first steps, and never again."""

import re
from typing import Dict, List, NamedTuple, Set

from aiger_check.faults import Trouble, visible

#: the register that is 1 behind the reset, in each of its bits one step later
DONE = "\\aiger_check_reset_done"
#: the cell that assumes how the reset goes
KEPT = "\\aiger_check_reset"
#: what counts behind the reset alone
LOOKED_AT = ("$assert", "$cover")
#: what Yosys calls the registers of an assertion in a clocked block
ENABLE = re.compile(r"\$formal\S*_EN\S*")


class Reset(NamedTuple):
    """An input that resets the design: its name, whether it does so at 0, and for how many steps."""

    name: str
    is_low: bool
    steps: int

    @classmethod
    def of(cls, text: str, steps: int) -> "Reset":
        return cls(text.lstrip("!"), text.startswith("!"), steps)


class WithReset:
    """The text of a flat design in RTLIL, to which a reset is added.

    A register counts the steps of the model. An assumption says that the reset is active until it is full, and not
    behind that. An assertion counts behind it: one in a clocked block, where the edge is that looked at it.
    """

    def __init__(self, text: str, top: str, reset: Reset) -> None:
        self.reset, self.top = reset, top
        self.lines = text.split("\n")
        self.begin = self.lines.index(f"module {top}")
        self.end = self.lines.index("end", self.begin)
        self.wires: List[str] = []
        self.added: List[str] = []
        self.need_input()

    def text(self) -> str:
        """The design with the reset."""
        cells = self.cells()
        enables = self.enables(cells)
        for number, (start, kind) in enumerate(cells.items()):
            if kind in LOOKED_AT:
                self.mask(start, "EN", number) if self.value(start, "EN") not in enables else None
            elif kind in ("$dff", "$ff") and self.value(start, "Q") in enables:
                self.mask(start, "D", number)
        self.count()
        self.assume()
        head, body, rest = self.lines[: self.begin + 1], self.lines[self.begin + 1 : self.end], self.lines[self.end :]
        return "\n".join([*head, *self.wires, *body, *self.added, *rest])

    def need_input(self) -> None:
        """Refuses a name that is no input of one bit."""
        wire = re.compile(rf"  wire (width (\d+) )?.*input \d+ {re.escape(chr(92) + self.reset.name)}$")
        found = next(filter(None, map(wire.match, self.lines[self.begin : self.end])), None)
        if not found or found[2] not in (None, "1"):
            raise Trouble(f"--reset {visible(self.reset.name)}: the top module has no such input of one bit")

    def cells(self) -> Dict[int, str]:
        """Where each cell begins, and its kind."""
        found = {}
        for at in range(self.begin, self.end):
            match = re.match(r"  cell (\S+) ", self.lines[at])
            if match:
                found[at] = match[1]
        return found

    def enables(self, cells: Dict[int, str]) -> Set[str]:
        """What says that an assertion of a clocked block is looked at, which a register keeps for a step."""
        kept = {self.value(at, "Q") for at, kind in cells.items() if kind in ("$dff", "$ff")}
        asked = {self.value(at, "EN") for at, kind in cells.items() if kind in LOOKED_AT}
        return {it for it in kept & asked if ENABLE.search(it)}

    def place(self, start: int, port: str) -> int:
        """The line that connects a port of a cell."""
        return next(at for at in range(start, self.end) if self.lines[at].startswith(f"    connect \\{port} "))

    def value(self, start: int, port: str) -> str:
        return self.lines[self.place(start, port)].split(" ", 6)[-1]

    def mask(self, start: int, port: str, number: int) -> None:
        """Makes what is connected there 0 until the reset is over."""
        made = f"\\aiger_check_reset_mask{number}"
        self.gate("$and", made, self.value(start, port), self.done)
        self.lines[self.place(start, port)] = f"    connect \\{port} {made}"

    @property
    def done(self) -> str:
        return f"{DONE} [{self.reset.steps - 1}]"

    def count(self) -> None:
        steps = self.reset.steps
        before = f"{{ {DONE} [{steps - 2}:0] 1'1 }}" if steps > 1 else "1'1"
        self.wires += [f"  attribute \\init {steps}'{'0' * steps}", f"  wire width {steps} {DONE}"]
        self.added += [
            f"  cell $ff {DONE}_register",
            f"    parameter \\WIDTH {steps}",
            f"    connect \\D {before}",
            f"    connect \\Q {DONE}",
            "  end",
        ]

    def assume(self) -> None:
        kind = "$xnor" if self.reset.is_low else "$xor"
        self.gate(kind, f"{KEPT}_kept", f"\\{self.reset.name}", self.done)
        self.added += [
            "  attribute \\keep 1",
            f"  cell $assume {KEPT}",
            f"    connect \\A {KEPT}_kept",
            "    connect \\EN 1'1",
            "  end",
        ]

    def gate(self, kind: str, made: str, left: str, right: str) -> None:
        """Adds a gate of one bit, and the wire that it makes."""
        signs = [f"    parameter \\{name} 0" for name in ("A_SIGNED", "B_SIGNED")]
        widths = [f"    parameter \\{name}_WIDTH 1" for name in "ABY"]
        ports = [f"    connect \\{name} {value}" for name, value in (("A", left), ("B", right), ("Y", made))]
        self.wires.append(f"  wire {made}")
        self.added += [f"  cell {kind} {made}_gate", *signs, *widths, *ports, "  end"]
