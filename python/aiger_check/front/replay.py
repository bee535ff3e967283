"""Counterexamples on the design, by Yosys."""

import os
import re
from dataclasses import dataclass
from pathlib import Path
from typing import Optional

from aiger_check.answers import Assertion
from aiger_check.front.yosys import quoted
from aiger_check.tools.processes import Children


@dataclass(frozen=True)
class Replay:
    """Replays a counterexample on the design by Yosys's own simulator, as a check of the way from it to the model.

    Of the global clock and of the first step the simulator knows less than the model, so that an assertion does not
    fail there says something only where neither is used.
    """

    program: str
    children: Children
    folder: Path
    top: str
    clock: Optional[str]
    is_sure: bool

    def shows(self, assertion: Assertion, witness: Path) -> Optional[bool]:
        """Whether the assertion fails there, or None where this cannot be replayed."""
        path = witness.with_name("replay.aiw")
        path.write_text(re.sub(r"(?m)^$", "0", witness.read_text().rstrip("\n")) + "\n")
        clock = f"-clock {quoted(self.clock)[1:]}" if self.clock else "-multiclock"
        place = os.path.relpath(path, self.folder)
        commands = f"read_rtlil prepared.il; sim -q -r {place} -map model.map {clock}"
        told = self.children.run([self.program, "-q", "-p", commands], self.folder, 60)
        fails = f"Warning: Assert {self.top}.{assertion.cell} ("
        if any(line.startswith(fails) for line in told.errors.splitlines()):
            return True
        is_plain = re.fullmatch(r"[\w.\[\]]+", assertion.cell)
        return False if told.status == 0 and self.is_sure and is_plain else None
