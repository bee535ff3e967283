"""The user's files, copied with a mark on each line that says which one it is."""

import re
from dataclasses import dataclass, field
from pathlib import Path
from typing import Dict, List

from aiger_check.front.second.faults import Unable
from aiger_check.front.sources import Sources

INCLUDE = re.compile(r'^(\s*)`include\s+"([^"\n]*)"')
#: a line that is no text of the design
DIRECTIVE = re.compile(
    r"\s*`(include|define|undef|undefineall|ifdef|ifndef|elsif|else|endif|line|timescale|default_nettype|resetall|celldefine"
    r"|endcelldefine|pragma|begin_keywords|end_keywords|unconnected_drive|nounconnected_drive)\b"
)
#: what changes how a line of Verilog goes on in the next
PARTS = re.compile(r'//[^\n]*|/\*|\*/|"(?:\\.|[^"\\\n])*"', re.S)


@dataclass
class Texts:
    """The marked copies, in a folder of their own, of what the first front end has copied."""

    sources: Sources
    folder: Path
    #: of each file that was read its place among those copies, by its number in marks
    places: List[str] = field(default_factory=list)
    copies: List[str] = field(default_factory=list)
    included: Dict[str, str] = field(default_factory=dict)

    def write(self) -> "Texts":
        for path in self.sources.copied:
            self.copies.append(self.copy(self.sources.place_of(str(path)), "sv"))
        return self

    def copy(self, place: str, suffix: str) -> str:
        """Copies a file by a plain name, and what it includes."""
        number = len(self.places)
        self.places.append(place)
        name = f"text{number}.{suffix}"
        text = (self.sources.folder / place).read_text(encoding="latin-1")
        (self.folder / name).write_text(self.marked(text, number), encoding="latin-1")
        return name

    def shown(self, number: int, line: int) -> str:
        """What the user calls a line of a file."""
        path = str(self.sources.folder / self.places[number]) if number < len(self.places) else ""
        return self.sources.shown(path, line)

    def marked(self, text: str, number: int) -> str:
        """The text with marks at the start of lines, but within comments and where a line goes on."""
        made, within, goes_on = [], False, False
        for at, line in enumerate(text.split("\n"), 1):
            include = None if within or goes_on else INCLUDE.match(line)
            if include:
                line = self.with_copy(line, include)
            is_text = not (within or goes_on or DIRECTIVE.match(line))
            made.append(f"/*second {number} {at}*/{line}" if is_text else line)
            goes_on = line.rstrip("\r").endswith("\\")
            within = is_within(line, within)
        return "\n".join(made)

    def with_copy(self, line: str, include: "re.Match[str]") -> str:
        place = include[2]
        if not (self.sources.folder / place).is_file():
            return line
        if place not in self.included:
            self.included[place] = ""
            self.included[place] = self.copy(place, "svh")
        if not self.included[place]:
            raise Unable("a file includes itself")
        return f'{include[1]}`include "{self.included[place]}"{line[include.end():]}'


def is_within(line: str, within: bool) -> bool:
    """Whether a comment goes on behind a line."""
    for match in PARTS.finditer(line):
        if match[0] == "*/":
            within = False
        elif match[0] == "/*":
            within = True
        elif within and match[0].startswith("//"):
            within = not match[0].rstrip().endswith("*/") and "*/" not in match[0]
        elif within and match[0][0] == '"':
            within = "*/" not in match[0]
    return within
