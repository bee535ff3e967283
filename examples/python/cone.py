#!/usr/bin/env python3
"""Draws the cone of an output or a property: all that its value depends on, through latches too. It writes a graph for
Graphviz. From the top of the repository:

    PYTHONPATH=python python3 examples/python/cone.py MODEL NAME | dot -Tpng > cone.png

NAME is a symbol, or where none is so, a letter and a position, as o0, b0, c0, j0 or f0. MODEL may be -, the standard
input. Inputs are boxes, latches double boxes, and gates circles with their literals. A dashed line with a small circle
negates. Status 0: done; 1: the model is refused, or has nothing of that name; 2: wrong words."""
import argparse
import os
import sys
from itertools import islice
from pathlib import Path

import aigtools

ESCAPES = str.maketrans({"&": "&amp;", "\\": r"\\", '"': r"\"", "\n": r"\n", "\0": r"\\0"})


def ends(circuit, names, wanted):
    """The literals of the outputs and properties of this name, each by its letter and position."""
    single = {"o": circuit.outputs, "b": circuit.bad, "c": circuit.constraints, "f": circuit.fairness}
    found = {f"{kind}{at}": [literal] for kind, literals in single.items() for at, literal in enumerate(literals)}
    rest = iter(circuit.justice_literals)
    found.update((f"j{at}", [*islice(rest, size)]) for at, size in enumerate(circuit.justice_sizes))
    keys = [key for key in found if names.get(key) == os.fsencode(wanted)] or [key for key in found if key == wanted]
    if not keys:
        raise LookupError(f"no output or property {wanted}")
    return {key: found[key] for key in keys}


def cone(sources, literals):
    """The variables, by their literals, on which these literals depend."""
    seen, left = set(), [*literals]
    while left:
        literal = left.pop() & ~1
        if literal not in seen:
            seen.add(literal)
            left += sources.get(literal, ())
    return seen


def graph(circuit, wanted):
    """The graph, line by line: nodes in the order of the file, then their edges."""
    names = {f"{symbol.kind}{symbol.position}": symbol.name for symbol in circuit.symbols}
    sources = {gate.literal: [gate.left, gate.right] for gate in circuit.gates}
    sources.update((latch.literal, [latch.next]) for latch in circuit.latches)
    sinks = ends(circuit, names, wanted)
    inside = cone(sources, (literal for literals in sinks.values() for literal in literals))

    nodes = [(0, "0", "plaintext")]
    nodes += [(literal, f"i{at}", "box") for at, literal in enumerate(circuit.inputs)]
    nodes += [(latch.literal, f"l{at}", "box, peripheries=2") for at, latch in enumerate(circuit.latches)]
    nodes += [(gate.literal, str(gate.literal), "circle") for gate in circuit.gates]
    nodes = [node for node in nodes if node[0] in inside] + [(key, key, "plaintext") for key in sinks]
    starts = {latch.literal: f"\nstarts at {'x' if latch.reset > 1 else 1}" for latch in circuit.latches if latch.reset}

    yield "digraph cone {\n    rankdir=LR;\n    node [fontname=Helvetica];"
    for it, key, shape in nodes:
        label = names.get(key, key.encode()).decode("utf-8", "backslashreplace") + starts.get(it, "")
        yield f'    {it} [label="{label.translate(ESCAPES)}", shape={shape}];'
    for it, _, _ in nodes:
        for literal in sinks[it] if it in sinks else sources.get(it, ()):
            yield f"    {literal & ~1} -> {it}{' [style=dashed, arrowhead=odot]' if literal & 1 else ''};"
    yield "}"


def main():
    parser = argparse.ArgumentParser(description=__doc__, formatter_class=argparse.RawDescriptionHelpFormatter)
    parser.add_argument("model", metavar="MODEL")
    parser.add_argument("name", metavar="NAME")
    given = parser.parse_args()
    try:
        data = sys.stdin.buffer.read() if given.model == "-" else Path(given.model).read_bytes()
        lines = [*graph(aigtools.read(data), given.name)]
    except OSError as why:
        sys.exit(f"cone.py: {given.model}: {why.strerror}")
    except (aigtools.Refused, LookupError) as why:
        sys.exit(f"cone.py: {given.model}: {why}")
    sys.stdout.buffer.write("".join(f"{line}\n" for line in lines).encode())


if __name__ == "__main__":
    main()
