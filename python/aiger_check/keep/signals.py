"""The signals of a design in its second model, with their places in the scopes of its modules."""

from typing import Any, Dict, Iterator, List, NamedTuple, Optional, Tuple

from aiger_check.front.second.clocked import named_nets
from aiger_check.front.second.probes import PORT, Place, Probed
from aiger_check.front.yosys import bare
from aiger_check.model.circuit import named_by_symbols

#: what names of this program's own begin with
OWN = "aiger_check_"


#: a column of a trace, and a character there
Spot = Tuple[int, int]
#: the columns of a trace of the second model, and behind these the registers of the model itself
STATE, INPUTS, OUTPUTS, REGISTERS = 0, 1, 2, 4


class Named(NamedTuple):
    """A signal: the scopes on the way to it and its name, its range, and where each of its bits is shown, from the
    right: by the second model, or where that has x, by the model."""

    path: Tuple[str, ...]
    range: str
    bits: List[List[Spot]]
    is_clock: bool = False

    def value(self, row: List[str]) -> str:
        """Its value, by a line of a trace."""
        found = ([row[column][at] for column, at in its] for its in reversed(self.bits))
        return "".join(next((it for it in values if it != "x"), "x") for values in found)


def signals(probed: Probed, top: str, clock: Optional[str], registers: Dict[Place, int]) -> Iterator[Named]:
    """All that the user named: nets, then words of memories. Of the model's registers it is told where they stand."""
    module = probed.module
    clocks = set(named_nets(probed, clock)) if clock else set()
    columns = ((INPUTS, {it: at for at, it in enumerate(probed.inputs) if it}), (OUTPUTS, probed.outputs))
    for written, net in module["netnames"].items():
        name = bare(written)
        path = (top, *path_of(name, net))
        if net.get("hide_name") or name.startswith(PORT) or any(it.startswith(OWN) for it in path):
            continue
        places = [(name, at) for at in range(len(net["bits"]))]
        shown = (*columns, (REGISTERS, registers))
        bits = [[(column, of[place]) for column, of in shown if place in of] for place in places]
        if any(bits) or name in clocks:
            yield Named(path, range_of(net), bits, name in clocks)
    yield from words(probed, top)


def words(probed: Probed, top: str) -> Iterator[Named]:
    """The words of memories, each of which is a signal."""
    shown = {name: [(OUTPUTS, at)] for at, name in named_by_symbols(probed.circuit, "o").items()}
    for written, memory in probed.module.get("memories", {}).items():
        width, first = int(memory["width"]), int(memory.get("start_offset", 0))
        *scopes, last = top, *path_of(bare(written), memory)
        for at in range(first, first + int(memory["size"])):
            name = f"{bare(written)}[{at}]"
            bits = [shown.get(name if width == 1 else f"{name}[{bit}]", []) for bit in range(width)]
            if any(bits):
                yield Named((*scopes, f"{last}[{at}]"), f"[{width - 1}:0]" if width > 1 else "", bits)


def path_of(name: str, net: Dict[str, Any]) -> List[str]:
    """The instances on the way to a net, and its name; a block that generates has a dot behind its name."""
    parts = net.get("attributes", {}).get("hdlname", "").split() or [name]
    return [it for part in parts for it in bare(part).split(".")]


def range_of(net: Dict[str, Any]) -> str:
    """The range with which a net was declared."""
    low, width = net.get("offset", 0), len(net["bits"])
    high = low + width - 1
    return "" if width == 1 and not low else f"[{low}:{high}]" if net.get("upto") else f"[{high}:{low}]"
