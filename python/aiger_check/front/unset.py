"""Registers that start at any value, on which an assertion depends."""

from typing import Any, Dict, List, Optional, Set

from aiger_check.answers import Assertion
from aiger_check.faults import visible
from aiger_check.front.clocks import REGISTER_GATE, REGISTERS
from aiger_check.front.cones import Bit, Cones
from aiger_check.front.yosys import bare


class Unset:
    """The registers of a flat module that have no initial value."""

    def __init__(self, module: Dict[str, Any]) -> None:
        self.names, self.cones = module["netnames"], Cones(module)
        held = {bit for cell in module["cells"].values() if is_register(cell) for bit in cell["connections"]["Q"]}
        self.bits = held - self.known()

    def known(self) -> Set[Bit]:
        """The bits that have an initial value."""
        found: Set[Bit] = set()
        for net in self.names.values():
            start = str(net.get("attributes", {}).get("init", ""))[::-1]
            found.update(bit for bit, value in zip(net["bits"], start) if value in "01")
        return found

    def needed_by(self, cell: str) -> List[str]:
        """The names of those on which a cell depends, as the user wrote them."""
        bits = self.cones.bits([cell]) & self.bits
        # what functions have within is Yosys's own
        written = (it for it in self.names.items() if not it[1].get("hide_name") and "$" not in it[0])
        shown = {bare(name) for name, net in written if bits & set(net["bits"])}
        return sorted(shown, key=lambda name: (name.count("."), len(name), name))

    def hints(self, assertion: Assertion, step: Optional[int]) -> List[str]:
        """What to try where an assertion fails at once, and depends on some of these. One in a clocked block counts in
        the step after."""
        names = self.needed_by(assertion.cell) if step in (0, 1) and assertion.cell in self.cones.cells else []
        if not names:
            return []
        listed = ", ".join(names[:3]) + (", .." if len(names) > 3 else "")
        what = f"register {listed} has" if len(names) == 1 else f"registers {listed} have"
        return [f"{assertion} fails at once, and {visible(what)} no initial value: --reset NAME begins with a reset"]


def is_register(cell: Dict[str, Any]) -> bool:
    kind = cell["type"]
    return kind in REGISTERS or bool(REGISTER_GATE.fullmatch(kind))
