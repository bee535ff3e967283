"""First values that are no constants: Yosys would have what is assigned once follow its source for ever."""

import re
from typing import Any, Dict, Iterator, List, NamedTuple, Set, Tuple

from aiger_check.front.cones import Bit, Cones
from aiger_check.front.words import Source
from aiger_check.front.yosys import bare, in_netlist

#: the lines of RTLIL that tell where a process stands, what it takes, and what it drives
LINE = re.compile(
    r"module (?P<module>\S+)|  attribute \\(?P<always>always_\w+) 1|  attribute \\src \"(?P<place>[^|\"]*).*\""
    r"|  (?P<process>process) .*"
    r"| +assign (?:\{.*?\}|\S+(?: \[[\d:]+\])?) (?P<source>.*)|      update (?P<update>\\[^$\s]+)(?: .*)?"
)
NAME = re.compile(r"[\\$]\S+")


class Process(NamedTuple):
    """A process: where it stands, what it reads, and what it drives by names of the user's."""

    module: str
    place: str
    reads: Set[str]
    driven: List[str]

    def is_initial(self, source: Source) -> bool:
        """Whether it is an initial block, which has no place, or the first value of a declaration."""
        match = re.fullmatch(r"(.*):(\d+)\.(\d+)-.*", self.place)
        if not match or match[2] == "0":
            return True
        begun = source.at_place.get((match[1], int(match[2]), int(match[3])), "")
        # behind the blocks of loops
        return bare(begun) in [bare(it).rpartition(".")[2] for it in self.driven]


def processes(text: str) -> Iterator[Process]:
    """Those of a design in RTLIL."""
    module, place, always = "", "", ""
    its = Process("", "", set(), [])
    for line in text.split("\n"):
        match = LINE.fullmatch(line)
        if match and match["module"]:
            module = in_netlist(match["module"])
        elif match and match["always"]:
            always = match["always"]
        elif match and match["place"] is not None:
            place = match["place"]
        elif match and match["process"]:
            its = Process(module, place, set(), [])
        elif match and match["source"]:
            its.reads.update(NAME.findall(match["source"]))
        elif match and match["update"]:
            its.driven.append(match["update"])
        elif line == "  end":
            if its.driven and not always:
                yield its
            its, always = Process("", "", set(), []), ""


def varying(modules: Dict[str, Any], text: str, source: Source) -> Iterator[Tuple[str, str]]:
    """The nets that begin with what is no constant: of each its module and its name."""
    for its in processes(text):
        if its.reads and its.is_initial(source):
            names = {it for it in its.reads if it[0] == "\\"} - set(its.driven)
            if names or not is_constant(modules[its.module], its.reads):
                yield its.module, bare(its.driven[0])


def is_constant(module: Dict[str, Any], names: Set[str]) -> bool:
    """Whether nothing but constants comes together in these nets."""
    cones = Cones(module)
    waiting: List[Bit] = [bit for it in names for bit in module["netnames"].get(in_netlist(it), {}).get("bits", [])]
    seen: Set[Bit] = set(waiting)
    while waiting:
        bit = waiting.pop()
        if isinstance(bit, str):
            continue
        drivers = cones.drivers.get(bit, [])
        if not drivers or any(not is_operator(module["cells"][it]["type"]) for it in drivers):
            return False
        more = {one for it in drivers for bits in cones.inputs(module["cells"][it]) for one in bits} - seen
        seen |= more
        waiting += more
    return True


def is_operator(kind: str) -> bool:
    return kind[:1] == "$" and not kind.startswith(("$mem", "$any", "$all", "$ff", "$dff", "$init"))
