"""Waveforms, as a simulator writes them."""

from pathlib import Path
from typing import Dict, Iterator, List, NamedTuple, Tuple


class Variable(NamedTuple):
    """A variable of a waveform: its code there, its kind, its width, and the names on the way to it."""

    code: str
    kind: str
    width: int
    path: Tuple[str, ...]


class Waves:
    """The variables by their names with all scopes, and the changes in the order of time."""

    def __init__(self, path: Path) -> None:
        self.path = path
        self.variables: Dict[str, Variable] = {}
        self.changes: List[Tuple[int, str, str]] = []
        with open(path, encoding="utf-8", errors="replace") as file:
            self.read(file)

    def read(self, lines: Iterator[str]) -> None:
        scopes: List[str] = []
        now = 0
        for line in lines:
            first = line[:1]
            if first in "01xzXZ" and first:
                self.changes.append((now, line[1:].strip(), first.lower()))
            elif first in "bB" and first:
                value, _, code = line[1:].partition(" ")
                self.changes.append((now, code.strip(), value.lower()))
            elif first == "#":
                now = int(line[1:])
            elif line.lstrip().startswith("$"):
                self.declare(line.split(), scopes)

    def declare(self, words: List[str], scopes: List[str]) -> None:
        if words[0] == "$scope":
            # Verilator has a scope around all
            scopes.append("" if not scopes and words[2] == "TOP" else words[2].lstrip("\\"))
        elif words[0] == "$upscope" and scopes:
            scopes.pop()
        elif words[0] == "$var":
            path = (*filter(None, scopes), words[4].lstrip("\\"))
            self.variables.setdefault(".".join(path), Variable(words[3], words[1], int(words[2]), path))


class Values:
    """The values of all variables, as time goes on."""

    def __init__(self, waves: Waves) -> None:
        self.waves, self.now, self.at = waves, {}, 0  # type: Waves, Dict[str, str], int

    def until(self, time: int) -> None:
        """Takes what changes up to a time, which goes on from call to call."""
        changes = self.waves.changes
        while self.at < len(changes) and changes[self.at][0] <= time:
            self.now[changes[self.at][1]] = changes[self.at][2]
            self.at += 1

    def bit(self, code: str, at: int) -> str:
        """A bit, counted from the right. What is not written on the left is 0, or as the first that is."""
        value = self.now.get(code, "x")
        bit = value[-1 - at] if at < len(value) else value[0] if value[0] in "xz" else "0"
        return "x" if bit == "z" else bit
