"""Assertions of a clock's edge, each of which is a register's: how they are called, and in which step they count."""

import re
from typing import Any, Dict, Iterator, Mapping, NamedTuple, Optional

from aiger_check.front.sva.rewriting import Rewritten
from aiger_check.front.yosys import bare, quoted

REGISTER = re.compile(r"(?:(.*)\.)?(aiger_check_sva_\w+_)asked")
ASKED = ("$assert", "$assume", "$cover")


class Edge(NamedTuple):
    """An assertion that was rewritten, and the names of the blocks in which it stands."""

    blocks: str
    rewritten: Rewritten

    @property
    def name(self) -> str:
        """Its label, behind the blocks of loops, of which Yosys says nothing."""
        shown = self.rewritten.label or self.rewritten.word
        return f"{self.blocks}.{shown}" if self.blocks else shown


class Registers:
    """The registers of a module of which something is asserted."""

    def __init__(self, module: Mapping[str, Any], rewritten: Mapping[str, Rewritten]) -> None:
        self.module = module
        self.of_bit: Dict[Any, Edge] = {}
        for name, net in module["netnames"].items() if rewritten else ():
            match = REGISTER.fullmatch(bare(name))
            if match and match[2] in rewritten:
                self.of_bit[net["bits"][0]] = Edge(match[1] or "", rewritten[match[2]])

    def asked(self, cell: Mapping[str, Any]) -> Optional[Edge]:
        """The assertion that a cell is, if it was rewritten."""
        bits = cell["connections"].get("A", [])
        return self.of_bit.get(bits[0]) if bits else None

    def sooner(self) -> Iterator[str]:
        """The commands by which assertions count in the step of the edge at which they are asked, where a step is one
        of that clock: what the register takes is asserted in its place."""
        if not self.of_bit:
            return
        taken: Dict[Any, Any] = {}
        for cell in self.module["cells"].values():
            if cell["type"] == "$dff":
                taken.update(zip(cell["connections"]["Q"], cell["connections"]["D"]))
        names = self.names()
        for name, cell in self.module["cells"].items():
            bit = cell["connections"]["A"][0] if cell["type"] in ASKED else None
            if bit in self.of_bit and taken.get(bit) in names:
                yield f"connect -port {quoted(name)} A {names[taken[bit]]}"

    def names(self) -> Dict[Any, str]:
        """Of each bit a name that is a word of a command."""
        found: Dict[Any, str] = {"0": "1'0", "1": "1'1"}
        for name, net in self.module["netnames"].items():
            if not re.search(r"[,\s\"'#;{}]", name):
                for at, bit in enumerate(net["bits"]):
                    found.setdefault(bit, quoted(name) if len(net["bits"]) == 1 else f"{quoted(name)}[{at}]")
        return found


def lasting(module: Mapping[str, Any], rewritten: Mapping[str, Rewritten]) -> Optional[Rewritten]:
    """An assumption of several steps that can be disabled, if there is one."""
    found = Registers(module, rewritten)
    for cell in module["cells"].values():
        its = found.asked(cell) if cell["type"] in ("$assume", "$fair") else None
        if its and its.rewritten.is_disabled and its.rewritten.is_long:
            return its.rewritten
    return None
