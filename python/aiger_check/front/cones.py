"""What the cells of a flat design depend on."""

from typing import Any, Dict, Iterable, List, Sequence, Set

#: a bit of a netlist in JSON: a number, or "0", "1", "x", "z"
Bit = Any
OUTPUTS = ("output", "inout")


class Cones:
    """What each cell of a flat module depends on, over any number of steps: through registers and memories too."""

    def __init__(self, module: Dict[str, Any]) -> None:
        self.cells: Dict[str, Any] = module["cells"]
        self.drivers: Dict[Bit, List[str]] = {}
        #: of each memory the cells that write it, by its name
        self.writers: Dict[str, List[str]] = {}
        for name, cell in self.cells.items():
            for bits in self.outputs(cell):
                for bit in bits:
                    self.drivers.setdefault(bit, []).append(name)
            if cell["type"].startswith(("$memwr", "$meminit")):
                self.writers.setdefault(cell["parameters"]["MEMID"], []).append(name)

    def outputs(self, cell: Dict[str, Any]) -> Iterable[List[Bit]]:
        directions = cell.get("port_directions", {})
        return (bits for port, bits in cell["connections"].items() if directions.get(port) in OUTPUTS)

    def inputs(self, cell: Dict[str, Any]) -> Iterable[List[Bit]]:
        directions = cell.get("port_directions", {})
        return (bits for port, bits in cell["connections"].items() if directions.get(port) != "output")

    def bits(self, cells: Iterable[str]) -> Set[Bit]:
        """The bits on which these cells depend."""
        waiting, seen, found = list(cells), set(cells), set()
        while waiting:
            cell = self.cells[waiting.pop()]
            more: List[str] = []
            if cell["type"].startswith("$memrd"):
                more += self.writers.get(cell["parameters"]["MEMID"], [])
            for bits in self.inputs(cell):
                for bit in bits:
                    if bit not in found:
                        found.add(bit)
                        more += self.drivers.get(bit, [])
            waiting += [it for it in more if it not in seen]
            seen.update(more)
        return found

    def depending(self, bits: Set[Bit], asked: Sequence[str], assumed: Sequence[str]) -> List[str]:
        """The cells of the kinds that are asked which depend on one of these bits; all where an assumption does."""
        kinds = {name: cell["type"] for name, cell in self.cells.items()}
        conditions = [name for name, kind in kinds.items() if kind in assumed]
        wanted = [name for name, kind in kinds.items() if kind in asked]
        if self.bits(conditions) & bits:
            return wanted
        return [name for name in wanted if self.bits([name]) & bits]
