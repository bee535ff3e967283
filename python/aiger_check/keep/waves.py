"""Waveforms that aiger writes of runs."""

import re
from pathlib import Path
from typing import Any, Dict, List

from aiger_check.equality.sides import Sides
from aiger_check.faults import Trouble
from aiger_check.tools.aiger import Aiger, aiger_failure, aigtools


def traced(aiger: Aiger, *words: Any, output: Path) -> bytes:
    """What aigsim says."""
    told = aiger.run("aigsim", *words, folder=output.parent, output=output)
    if told.status != 0:
        raise Trouble(aiger_failure(told))
    return output.read_bytes()


def of_witness(aiger: Aiger, model: Path, witness: Path) -> bytes:
    """The waveform of the run of a witness, in the names of the model."""
    return traced(aiger, "--witness", "--vcd", model, witness, output=witness.with_suffix(".vcd"))


def of_two(aiger: Aiger, sides: Sides, witness: Path) -> bytes:
    """One waveform of both designs, by a witness of their miter."""
    _, _, state, *steps = witness.read_text().split("\n")
    stimulus = witness.with_suffix(".stimulus")
    stimulus.write_text("\n".join([*steps[: steps.index(".")], ""]))
    count, waves = len(sides.first.circuit.latches), []
    for side, start in ((sides.first, state), (sides.second, state[count:])):
        started = witness.with_suffix(".aig")
        started.write_bytes(started_at(side.circuit, start).write())
        waves.append(traced(aiger, "--vcd", started, stimulus, output=witness.with_suffix(".vcd")))
    return waves_beside(*waves)


def started_at(circuit: Any, state: str) -> Any:
    """A circuit whose latches start at these values, or at any where that is x."""
    parts = {name: getattr(circuit, name) for name in CIRCUIT}
    both = zip(circuit.latches, state)
    latches = [(it.literal, it.next, it.literal if value == "x" else int(value)) for it, value in both]
    return aigtools().Circuit(**{**parts, "latches": latches})


CIRCUIT = ("max_var", "inputs", "outputs", "bad", "constraints", "gates", "symbols")


def waves_beside(first: bytes, second: bytes) -> bytes:
    """One dump of two that have the same times: each is a scope, and its codes begin with a letter of its own."""
    heads: List[bytes] = []
    changes: Dict[int, List[bytes]] = {}
    for name, letter, dump in ((b"first", b"a", first), (b"second", b"b", second)):
        head, _, body = dump.partition(b"$enddefinitions $end\n")
        scoped = head[head.index(b"$scope") :].replace(b"$scope module aiger ", b"$scope module " + name + b" ", 1)
        heads.append(re.sub(rb"(?m)^(\$var \w+ \d+ )", rb"\1" + letter, scoped))
        for line in body.splitlines():
            if line[:1] == b"#":
                time_ = int(line[1:])
            else:
                value, space, code = line.rpartition(b" ") if line[:1] == b"b" else (line[:1], b"", line[1:])
                changes.setdefault(time_, []).append(value + space + letter + code)
        changes.setdefault(time_, [])
    lines = [line for at in sorted(changes) for line in (b"#%d" % at, *changes[at])]
    start = first[: first.index(b"$scope")]
    return b"".join([start, *heads, b"$enddefinitions $end\n", b"\n".join([*lines, b""])])
