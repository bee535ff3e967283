"""Names that are not declared, and nets that nobody drives."""

import re
from typing import Any, Dict, Iterator, List, Sequence

from aiger_check.faults import Trouble, visible
from aiger_check.front.sources import Sources
from aiger_check.front.yosys import bare

UNDECLARED = re.compile(
    r"(?:(?P<file>.*?):(?P<line>\d+): )?Warning: Identifier `\\?(?P<name>.*)' is implicitly declared.*"
)
UNDRIVEN = re.compile(
    r"Warning: Wire (?P<module>.*?)\.(?P<name>[\\$].*?)(?: \[(?P<bit>\d+)\])? is used but has no driver\."
)


def refuse_undeclared(said: Sequence[str], sources: Sources) -> None:
    """Refuses a name that is not declared, of which Yosys makes a net of one bit that nobody drives."""
    for line in said:
        match = UNDECLARED.match(line)
        if match:
            place = f"{sources.shown(match['file'], int(match['line']))}: " if match["file"] else ""
            name = match["name"]
            if name.startswith("$"):
                raise Trouble(visible(f"{place}{name} is not read by Yosys: an input may be anything in each step"))
            instead = "a name within an instance is not read" if "." in name else "declare it"
            raise Trouble(visible(f"{place}{name} is not declared here: {instead}"))


def placed(name: str, its: Dict[str, Any], sources: Sources) -> str:
    """A name with its place."""
    source = re.match(r"(.*?):(\d+)\.", its.get("attributes", {}).get("src", "").split("|")[-1])
    return f"{name} ({sources.shown(source[1], int(source[2]))})" if source else name


def undriven(said: Sequence[str], top: str, module: Dict[str, Any], sources: Sources) -> Iterator[str]:
    """A note of each net of the flat design that is read and not driven: in the model it may have any value in each
    step, so what is said never to be reached is so for all of them."""
    bits: Dict[str, List[str]] = {}
    for match in filter(None, map(UNDRIVEN.match, said)):
        if match["module"] == top:
            its = bits.setdefault(bare(match["name"]), [])
            its += [bit for bit in [match["bit"]] if bit and bit not in its]
    for name, its in bits.items():
        net = module["netnames"].get(name, {})
        which = "" if len(its) == len(net.get("bits", [])) else "".join(f"[{bit}]" for bit in sorted(its, key=int)[:1])
        more = " and others of its bits" if which and len(its) > 1 else ""
        called = placed(f"{top}.{name}{which}{more}", net, sources)
        yield f"{called} is read and never driven: it may be anything in each step"


def without_body(modules: Dict[str, Any], sources: Sources) -> Iterator[str]:
    """A note of each module that has none."""
    for name, module in modules.items():
        if int(module["attributes"].get("blackbox", "0"), 2):
            called = placed(f"module {bare(name)}", module, sources)
            yield f"{called} has no body: the outputs of its instances may be anything in each step"
