"""VHDL files by ghdl, in Verilog."""

import re
from dataclasses import dataclass, field
from pathlib import Path
from typing import Dict, List, Optional, Sequence, Tuple

from aiger_check.faults import Trouble, visible
from aiger_check.front.files import text_of
from aiger_check.front.vhdl.netlist import modules_of
from aiger_check.front.vhdl.text import Text, lost
from aiger_check.front.vhdl.verilog import verilog_of
from aiger_check.tools.processes import Children, Finished

SUFFIXES = (".vhd", ".vhdl")
#: seconds that ghdl may take for a design
LIMIT = 600.0
OPTIONS = ("--synth", "--std=08", "-fpsl", "--out=dump")
#: what ghdl writes, and what is made of it
NETLIST, MADE = "netlist.dump", "design.v"
SAID = re.compile(r"vhdl(\d+)\.vhd:(\d+):(\d+):\s*(?:(warning|note|error|\(\w+ \w+\)):\s*)?(.*)")
FAULT = re.compile(r"raised (\S+) : (.*)")


@dataclass
class Vhdl:
    """A design in VHDL: its files, and the Verilog that was made of them."""

    program: str
    files: List[str]
    top: str
    generics: List[str]
    #: what ghdl was told, for one that runs beside the sources
    words: List[str]
    path: Path
    #: of the lines of the Verilog those of the VHDL, with the name of the file, and the column
    origins: Dict[int, Tuple[str, int, int]]
    has_psl: bool
    notes: List[str] = field(default_factory=list)

    def position(self, line: int) -> Optional[Tuple[int, str, int, int]]:
        """What orders a line of the Verilog among the others."""
        origin = self.origins.get(line)
        return (self.files.index(origin[0]), *origin) if origin else None


def is_vhdl(name: str) -> bool:
    return name.lower().endswith(SUFFIXES)


def translated(
    program: str, children: Children, files: Sequence[str], top: str, generics: Sequence[str], folder: Path
) -> Vhdl:
    """Has ghdl synthesize the files, in a folder that is there."""
    texts = {name: Text(text_of(name), name) for name in files}
    names = [f"vhdl{at}.vhd" for at in range(len(files))]
    for name, copy in zip(files, names):
        (folder / copy).write_bytes(text_of(name).encode("latin-1"))
    words = [*OPTIONS, *map(generic, generics), *names, "-e", top]
    told = children.run([program, *words], folder, LIMIT, folder / NETLIST)
    notes = Said(files).notes(told)
    dump = (folder / NETLIST).read_text(encoding="latin-1")
    modules = modules_of(re.sub(r"vhdl(\d+)\.vhd(?=:\d+:\d+$)", lambda it: files[int(it[1])], dump, flags=re.M))
    if top.lower() not in modules:
        raise Trouble(f"ghdl wrote no module {visible(top)}")
    made = verilog_of(modules, top.lower(), top, lambda it: texts[it[0]].word_at(*it[1:]) if it[0] in texts else "")
    (folder / MADE).write_text(made.text, encoding="latin-1")
    refuse_lost(texts, set(made.origins.values()))
    notes += lost(texts, set(made.origins.values()))
    return Vhdl(program, list(files), top, list(generics), words, folder / MADE, made.origins, made.has_psl, notes)


def refuse_lost(texts: Dict[str, Text], found: "set[Tuple[str, int, int]]") -> None:
    """Refuses an assertion of a subprogram, which ghdl never lets fail."""
    for name, text in texts.items():
        for it in text.asserted:
            if it.is_in_subprogram and (name, it.line, it.column) in found:
                what = "an assertion in a function or procedure is not taken, as ghdl may never let it fail"
                raise Trouble(visible(f"{name}:{it.line}: {what}: write it where that is called"))


def generic(text: str) -> str:
    """The word that sets a generic of the top entity."""
    name, _, value = text.partition("=")
    return f"-g{name}={value[1:-1] if re.fullmatch(chr(34) + '.*' + chr(34), value) else value}"


class Said:
    """What ghdl says, with the user's names."""

    def __init__(self, files: Sequence[str]) -> None:
        self.files = files

    def notes(self, told: Finished) -> List[str]:
        """What ghdl warns of, where it did not fail."""
        found = []
        for match in filter(None, map(SAID.fullmatch, told.errors.split("\n"))):
            kind, words = match[4], f"{self.files[int(match[1])]}:{match[2]}: {match[5]}"
            if kind == "warning":
                found.append(f"ghdl: {words}")
            elif kind and kind.startswith("(assertion"):
                raise Trouble(visible(f"{words}: this assertion is broken before any step"))
            elif kind in (None, "error"):
                raise Trouble(visible(words))
        if told.status != 0 or told.late:
            raise Trouble(visible(self.failure(told)))
        return found

    def failure(self, told: Finished) -> str:
        """Why ghdl ended."""
        if told.late:
            return f"ghdl did not end in {LIMIT:g} s"
        fault = FAULT.search(told.errors)
        if fault:
            return f"ghdl ended by a fault of its own, at {fault[2]}: {fault[1]}"
        last = (told.errors.strip().splitlines() or [f"status {told.status}"])[-1]
        return f"ghdl: {last.partition(': ')[2] or last}"
