"""Which property of a model is which cell of the design: a second model of the same netlist tells it."""

import re
from typing import Any, Dict, List, Sequence

from aiger_check.faults import Trouble
from aiger_check.front.yosys import quoted
from aiger_check.model.circuit import Model

CALLED = {"$assert": "bad state", "$assume": "constraint", "$live": "justice property", "$cover": "output"}
#: a line of a module in RTLIL that begins a cell; and one that connects a port of it
CELL = re.compile(r"  cell (\S+) (\S+)$")
PORT = re.compile(r"    connect \\(A|EN) ")


def with_inputs(text: str, top: str, cells: Sequence[str], value: str) -> str:
    """A netlist in RTLIL in which each of these cells has a bit of one new input for its value, and is enabled."""
    bits = {quoted(name): at for at, name in enumerate(cells)}
    made: List[str] = []
    is_top, inside = False, None
    for line in text.split("\n"):
        if line.startswith("module "):
            is_top = line == f"module {quoted(top)}"
            made.append(line)
            if is_top:
                # one bit alone would have no number in its name
                made.append(f"  wire width {max(2, len(cells))} input 1000000 \\{value}")
            continue
        cell = CELL.match(line) if is_top else None
        if cell:
            inside = bits.get(cell[2])
        elif line == "  end":
            inside = None
        port = PORT.match(line) if inside is not None else None
        if port:
            line = f"    connect \\{port[1]} " + (f"\\{value} [{inside}]" if port[1] == "A" else "1'1")
        made.append(line)
    return "\n".join(made)


def told_positions(kind: str, names: Dict[bytes, str], told: Model, model: Model) -> Dict[str, int]:
    """Of each cell of a kind which of the model's properties it is, by the names of the inputs that have their values."""
    which = told_loops(told) if kind == "$live" else told_inputs(told.circuit, kind)
    if sorted(which) != sorted(names) or len(which) != len(told_literals(model.circuit, kind)):
        raise Trouble(f"which {CALLED[kind]} is which cannot be told")
    return {names[name]: position for position, name in enumerate(which)}


def told_literals(circuit: Any, kind: str) -> Sequence[int]:
    """The literals that are 1 where the cells of a kind are violated."""
    if kind == "$live":
        return list(circuit.justice_literals)
    return list(circuit.bad) if kind == "$assert" else [literal ^ 1 for literal in circuit.constraints]


def told_loops(model: Model) -> List[bytes]:
    """Of each justice property the one input with a name on which it depends, over any number of steps, or nothing."""
    names = {it.position: it.name for it in model.circuit.symbols if it.kind == "i"}
    found = []
    for literal in told_literals(model.circuit, "$live"):
        needed = model.cone([literal])
        its = [names[at] for at, it in enumerate(model.circuit.inputs) if needed[it >> 1] and at in names]
        found.append(its[0] if len(its) == 1 else b"")
    return found


def told_inputs(circuit: Any, kind: str) -> List[bytes]:
    """Of each of these the name of the input that is its negation, or nothing."""
    gates = {gate.literal: {gate.left, gate.right} - {1} for gate in circuit.gates}
    names = {circuit.inputs[it.position]: it.name for it in circuit.symbols if it.kind == "i"}
    operands = (gates.get(literal, {literal}) for literal in told_literals(circuit, kind))
    return [names.get(min(it) ^ 1, b"") if len(it) == 1 else b"" for it in operands]
