"""An AIGER model as it is searched."""

from array import array
from dataclasses import replace
from pathlib import Path
from typing import Any, Dict, Iterable

from aiger_check.tools.aiger import aigtools


class Model:
    """An AIGER model: its binary file, where inputs are numbered first, then latches, then gates; and its circuit."""

    def __init__(self, path: Path) -> None:
        self.path = path
        self.circuit = aigtools().read(path.read_bytes())
        self.latches = list(self.circuit.latches)

    def cone(self, roots: Iterable[int]) -> bytearray:
        """A mark for each variable on which these literals depend, over any number of steps."""
        inputs, words = len(self.circuit.inputs), self.circuit.gates.words
        before_gates = inputs + len(self.latches)
        needed, waiting = bytearray(self.circuit.max_var + 1), [root >> 1 for root in roots]
        while waiting:
            variable = waiting.pop()
            if needed[variable]:
                continue
            needed[variable] = 1
            if variable > before_gates:
                at = 3 * (variable - before_gates)
                waiting += (words[at - 2] >> 1, words[at - 1] >> 1)
            elif variable > inputs:
                waiting.append(self.latches[variable - inputs - 1].next >> 1)
        return needed


def named_by_symbols(circuit: Any, kind: str) -> Dict[int, str]:
    """What the symbols name of a kind, by position."""
    return {it.position: it.name.decode(errors="surrogateescape") for it in circuit.symbols if it.kind == kind}


class Gates:
    """AND gates, whose variables are numbered as they are made."""

    def __init__(self, variable: int) -> None:
        self.variable, self.words = variable, array("I")

    def both(self, left: int, right: int) -> int:
        if left == right or right == 1:
            return left
        if left == 1:
            return right
        if left ^ right == 1 or not left or not right:
            return 0
        self.words.extend((2 * self.variable, max(left, right), min(left, right)))
        self.variable += 1
        return 2 * self.variable - 2

    def either(self, left: int, right: int) -> int:
        return self.both(left ^ 1, right ^ 1) ^ 1


def without_justice(circuit: Any) -> Any:
    names = [it for it in circuit.symbols if it.kind not in "jf"]
    return replace(circuit, justice_sizes=(), justice_literals=(), fairness=(), symbols=names)
