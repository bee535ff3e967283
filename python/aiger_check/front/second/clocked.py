"""By what the second model is clocked: all of the design, also what no assertion depends on."""

from typing import Any, Dict, List, Optional, Sequence, Set, Tuple

from aiger_check.front.clocks import Clocks
from aiger_check.front.second.faults import Unable
from aiger_check.front.second.probes import Place, Probed
from aiger_check.front.yosys import bare

LATCHES = {"$dlatch", "$adlatch", "$dlatchsr", "$sr"}


def edges_of(probed: Probed) -> Dict[Place, Set[bool]]:
    """The bits of inputs that are clocks, and whether their rising and falling edges are used."""
    edges: Dict[Any, Set[bool]] = {}
    for cell in probed.module["cells"].values():
        if cell["type"] == "$ff":
            raise Unable("the global clock is used")
        polarity = cell["parameters"].get("CLK_POLARITY")
        if polarity is not None and "CLK" in cell["connections"] and not cell["type"].startswith("$memrd"):
            for bit in cell["connections"]["CLK"]:
                edges.setdefault(bit, set()).add(polarity[-1:] == "1")
    found: Dict[Place, Set[bool]] = {}
    for name, port in probed.module["ports"].items():
        for at, bit in enumerate(port["bits"] if port["direction"] == "input" else []):
            if bit in edges:
                found[name, at] = edges.pop(bit)
    if edges:
        raise Unable("a clock that is no input is not simulated")
    return found


def are_data(probed: Probed, clocks: Sequence[Place]) -> bool:
    """Whether some clock is used as data too."""
    ports = probed.module["ports"]
    return bool(Clocks(probed.module).data & {ports[name]["bits"][at] for name, at in clocks})


def one_clock(probed: Probed, edges: Dict[Place, Set[bool]]) -> Optional[str]:
    """The port that alone is a clock, and rises; nothing where there is no clock; or None."""
    if any(cell["type"] in LATCHES for cell in probed.module["cells"].values()):
        return None
    if not edges:
        return ""
    (name, _), its = next(iter(edges.items()))
    is_one = len(edges) == 1 and its == {True} and len(probed.module["ports"][name]["bits"]) == 1
    return name if is_one else None


def is_of_first_step(probed: Probed, has_both: bool) -> Tuple[Dict[Place, int], bool]:
    """The bits of registers that are to be set in the simulation, with the outputs that show them: those without first
    value, or all where a clock's first edge comes too soon; and whether these are all that there are."""
    nets = {bare(name): net for name, net in probed.module["netnames"].items() if not net.get("hide_name")}
    wanted: Set[Any] = set()
    for cell in probed.module["cells"].values():
        if "Q" in cell["connections"]:
            wanted.update(cell["connections"]["Q"])
    found: Dict[Place, int] = {}
    left = set(wanted)
    for name, net in nets.items():
        first = net["attributes"].get("init", "").rjust(len(net["bits"]), "x")[::-1]
        for at, bit in enumerate(net["bits"]):
            if bit in wanted and (name, at) in probed.outputs:
                left.discard(bit)
                if has_both or first[at] not in "01":
                    found[name, at] = probed.outputs[name, at]
    has_memory = any(cell["type"].startswith("$mem") for cell in probed.module["cells"].values())
    return found, not left and not has_memory


def named_nets(probed: Probed, name: str) -> List[str]:
    """The names of a net."""
    nets = {bare(it): net["bits"] for it, net in probed.module["netnames"].items()}
    return [it for it, bits in nets.items() if bits == nets.get(name)]
