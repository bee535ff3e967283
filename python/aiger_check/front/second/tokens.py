"""The words of a Verilog text."""

import bisect
import re
from typing import List, NamedTuple, Optional, Sequence, Tuple

#: at the start of each line of the user's stands which one it is
MARK = re.compile(r"/\*second (\d+) (\d+)\*/")

WORD = re.compile(
    r"""(?P<blank>\s+|//[^\n]*|/\*.*?\*/)
    |(?P<string>"(?:\\.|[^"\\\n])*")
    |(?P<escaped>\\[^\s]+)
    |(?P<name>[A-Za-z_][A-Za-z0-9_$]*)
    |(?P<system>\$[A-Za-z_][A-Za-z0-9_$]*)
    |(?P<directive>`[A-Za-z_][A-Za-z0-9_$]*)
    |(?P<number>[0-9]*\s*'[sS]?[bodhBODH]\s*[0-9a-fA-FxXzZ?_]+|'[01xXzZ]|[0-9][0-9_]*(?:\.[0-9_]+)?(?:[munpf]?s\b)?)
    |(?P<attribute>\(\*(?!\s*\))|\*\)(?!\s*[;)]))
    |(?P<sign>.)""",
    re.S | re.X,
)


class Token(NamedTuple):
    kind: str
    text: str
    start: int
    end: int


def tokens_of(text: str) -> List[Token]:
    """All words but blanks and comments."""
    found = []
    for match in WORD.finditer(text):
        kind = match.lastgroup or ""
        if kind != "blank":
            found.append(Token(kind, match[0], match.start(), match.end()))
    return found


class Edits:
    """Changes of a text, each in its own place."""

    def __init__(self, text: str) -> None:
        self.text = text
        self.made: List[Tuple[int, int, str]] = []

    def put(self, start: int, end: int, new: str) -> None:
        self.made.append((start, end, new))

    def applied(self) -> str:
        """The text with all changes; what stands within another change is left out."""
        parts, at = [], 0
        for start, end, new in sorted(self.made, key=lambda it: (it[0], it[1] != it[0], -it[1])):
            if start >= at:
                parts += [self.text[at:start], new]
                at = end
        return "".join(parts) + self.text[at:]


class Places:
    """Of which line of the user's a part of a text is."""

    def __init__(self, text: str) -> None:
        marks = [(it.end(), int(it[1]), int(it[2])) for it in MARK.finditer(text)]
        self.starts = [it[0] for it in marks]
        self.lines = [it[1:] for it in marks]

    def of(self, at: int) -> Optional[Tuple[int, int]]:
        """The number of the file, and the line."""
        place = bisect.bisect_right(self.starts, at) - 1
        return self.lines[place] if place >= 0 else None


def closing(tokens: Sequence[Token], at: int) -> int:
    """Where what is opened at a place is closed."""
    depth = 0
    for here in range(at, len(tokens)):
        text = tokens[here].text
        depth += (text in ("(", "[", "{")) - (text in (")", "]", "}"))
        if depth == 0:
            return here
    return len(tokens) - 1
