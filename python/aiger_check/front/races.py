"""What one process assigns at once and another one takes at the same edge, wherever both stand."""

from typing import Any, Dict, Iterator, List, Mapping, Sequence, Set, Tuple

from aiger_check.front.cones import Bit
from aiger_check.front.drivers import Drivers
from aiger_check.front.order import Order, State
from aiger_check.front.yosys import bare

#: the names on the way to an instance, and its module
Instance = Tuple[Tuple[str, ...], str]
#: a process of an instance, by its number
Group = Tuple[Tuple[str, ...], int]


def instances(modules: Mapping[str, Any], top: str) -> Iterator[Instance]:
    """All instances of a design before it is flattened."""
    waiting: List[Instance] = [((), top)]
    while waiting:
        path, module = waiting.pop()
        yield path, module
        for name, cell in modules[module]["cells"].items():
            if cell["type"] in modules:
                waiting.append(((*path, bare(name)), cell["type"]))


def flat_name(path: Sequence[str], name: str) -> str:
    """What a net is called once the design is flat."""
    joined = ".".join((*path, name))
    return f"$flatten\\{joined}" if path and name[:1] == "$" else joined


class Races:
    """The states of a flat module that take what another process assigns at once."""

    def __init__(self, order: Order, design: Sequence[Instance], drivers: Drivers) -> None:
        self.order, self.design = order, design
        self.nets: Dict[str, Any] = order.module["netnames"]
        self.of_module: Dict[str, List[Tuple[str, int]]] = {}
        for (module, name), number in drivers.of_process.items():
            self.of_module.setdefault(module, []).append((name, number))
        self.writers = drivers.writers
        self.fanout: Dict[Bit, List[str]] = {}
        for name in order.module["cells"]:
            for bit in order.inputs(name):
                self.fanout.setdefault(bit, []).append(name)
        self.takers: Dict[Bit, List[State]] = {}
        for state in order.states.values():
            for bit in state.takes:
                self.takers.setdefault(bit, []).append(state)
        #: of each bit the processes that drive it: of equal registers one is left
        self.groups: Dict[Bit, Set[Group]] = {}
        for path, module in design:
            self.group(path, module)

    def bits(self, path: Sequence[str], name: str) -> List[Bit]:
        """The bits of a net, or what is read of a memory."""
        called = flat_name(path, bare(name))
        read = self.order.read.get(f"\\{called}")
        return read or [it for it in self.nets.get(called, {}).get("bits", []) if not isinstance(it, str)]

    def group(self, path: Tuple[str, ...], module: str) -> None:
        """Takes the processes of an instance."""
        numbers = [(name, {number}) for name, number in self.of_module.get(module, [])]
        numbers += [(name, its) for (of, name), its in self.writers.items() if of == module]
        for name, its in numbers:
            for bit in self.bits(path, name):
                self.groups.setdefault(bit, set()).update((path, number) for number in its)

    def own(self, path: Tuple[str, ...], module: str, name: str) -> Set[Group]:
        """The processes that assign a net or a memory of an instance."""
        numbers = {number for its, number in self.of_module.get(module, []) if its == name}
        numbers |= next((its for (of, it), its in self.writers.items() if of == module and bare(it) == name), set())
        return {(path, it) for it in numbers}

    def readers(self, bits: Sequence[Bit]) -> Iterator[State]:
        """The states that take what depends on these bits within a step."""
        waiting, seen = list(bits), set(bits)
        while waiting:
            bit = waiting.pop()
            yield from self.takers.get(bit, [])
            for name in self.fanout.get(bit, []):
                cell = self.order.module["cells"][name]
                directions = cell.get("port_directions", {})
                shown = (its for port, its in cell["connections"].items() if directions.get(port) == "output")
                ends = {one for its in shown for one in its}
                waiting += ends - seen
                seen |= ends

    def found(self, names: Mapping[str, Mapping[str, str]], modules: Mapping[str, Any]) -> Iterator[Tuple[str, State]]:
        """Each with why; `names` are those that are assigned at once, by their modules, each with its place."""
        writer = {bit: state for state in self.order.states.values() for bit in state.shows}
        for path, module in self.design:
            of_source = bare(modules[module]["attributes"].get("hdlname", module))
            for name, place in names.get(of_source, {}).items():
                held = [it for it in self.bits(path, name) if it in writer]
                for reader in self.readers(held):
                    groups = set().union(*(self.groups.get(it, set()) for it in reader.shows))
                    is_own = groups and groups <= self.own(path, module, name)
                    if not is_own and reader.clocks & writer[held[0]].clocks:
                        shown = ".".join((*path, name))
                        reason = f"{shown} is assigned at once at an edge at which another process reads it: write <="
                        yield f"{place}: {reason}", reader
