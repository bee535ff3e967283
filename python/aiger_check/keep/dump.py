"""A Value Change Dump (IEEE 1364-2005, section 18) of signals in nested scopes."""

import re
from typing import Dict, Iterator, List, NamedTuple, Sequence, Tuple

from aiger_check import PROGRAM, VERSION

#: of a code each character is one of these: visible, and neither # nor $, with which lines of other kinds begin
FIRST, COUNT = 37, 90


class Signal(NamedTuple):
    """A signal: the scopes on the way to it and its name, its width, its range as it was declared, and its value at
    each moment, the highest bit first."""

    path: Tuple[str, ...]
    width: int
    range: str
    values: Sequence[str]


class Scope:
    """What stands in a scope, in the order in which it came."""

    def __init__(self) -> None:
        self.scopes: Dict[str, "Scope"] = {}
        self.signals: List[Tuple[str, Signal]] = []

    def add(self, path: Sequence[str], code: str, signal: Signal) -> None:
        if len(path) > 1:
            self.scopes.setdefault(path[0], Scope()).add(path[1:], code, signal)
        else:
            self.signals.append((code, signal))

    def lines(self) -> Iterator[str]:
        for code, it in self.signals:
            yield f"$var wire {it.width} {code} {spelled(it.path[-1])}{it.range and ' '}{it.range} $end"
        for name, scope in self.scopes.items():
            yield f"$scope module {safe(name)} $end"
            yield from scope.lines()
            yield "$upscope $end"


def dumped(about: str, signals: Sequence[Signal], moments: Sequence[int], end: int) -> bytes:
    """The text of a dump, whose time goes on to an end behind the last moment."""
    root, codes = Scope(), [code_of(at) for at in range(len(signals))]
    for code, it in zip(codes, signals):
        root.add(it.path, code, it)
    shown = "".join("_" if char == "$" else char for char in about)
    lines = [f"$comment {shown} $end", f"$version {PROGRAM} {VERSION} $end", "$timescale 1 ns $end"]
    lines += [*root.lines(), "$enddefinitions $end"]
    for at, moment in enumerate(moments):
        lines.append(f"#{moment}")
        changed = (it for it in zip(codes, signals) if not at or it[1].values[at] != it[1].values[at - 1])
        lines += (f"b{it.values[at]} {code}" if it.width > 1 else f"{it.values[at]}{code}" for code, it in changed)
    return "\n".join([*lines, f"#{end}", ""]).encode("ascii", "replace")


def code_of(number: int) -> str:
    """The code of a signal."""
    code = chr(FIRST + number % COUNT)
    return code if number < COUNT else code_of(number // COUNT - 1) + code


def safe(name: str) -> str:
    """A name of visible characters."""
    return re.sub(r"[^!-~]", "_", name) or "_"


def spelled(name: str) -> str:
    """The name of a signal: one that is no plain word as Verilog escapes it."""
    return safe(name) if re.fullmatch(r"[A-Za-z_][\w$]*", name, re.ASCII) else f"\\{safe(name)}"
