"""The testbench: it gives a design the inputs of each step, and its registers their first values."""

import re
from dataclasses import dataclass, field
from typing import Dict, List, Sequence, Tuple

from aiger_check.front.second.faults import Unable
from aiger_check.front.second.probes import PORT, Place, Probed
from aiger_check.front.second.draw import Drawn

#: what a step takes in the simulation, when it is looked at in it, and when the clock rises
PERIOD, LOOK, EDGE = 10, 4, 6
PLAIN = re.compile(r"[A-Za-z_][A-Za-z0-9_$]*(\[\d+\])*")
#: what a waveform may have
DUMP = 400000000


def spelled(path: Sequence[str]) -> str:
    """A path of names in Verilog."""
    return ".".join(it if PLAIN.fullmatch(it) else f"\\{it} " for it in path)


@dataclass
class Start:
    """A register, or a net that nobody drives, whose first value is given: of each bit from the right the latch that it
    is, or the output that shows it."""

    path: Tuple[str, ...]
    width: int
    is_net: bool
    is_word: bool = False
    latches: Dict[int, int] = field(default_factory=dict)
    outputs: Dict[int, int] = field(default_factory=dict)

    def has(self, bit: int) -> bool:
        return bit in self.latches or bit in self.outputs


@dataclass
class Bench:
    """The text of the testbench, and the files that it reads for a run."""

    top: str
    probed: Probed
    #: the one clock, or nothing
    clock: str
    #: or the bits of inputs that are clocks
    clocks: Sequence[Place]
    is_global: bool
    #: parameters of the top, as NAME=VALUE
    given: Sequence[str] = ()
    starts: List[Start] = field(default_factory=list)
    #: memories' words whose waveforms are asked for by name, and nets that are driven from here
    driven: Dict[str, Tuple[str, ...]] = field(default_factory=dict)

    def __post_init__(self) -> None:
        ports = self.probed.module["ports"].items()
        self.ports: List[Tuple[str, int]] = []
        for name, port in ports:
            if port["direction"] == "inout":
                raise Unable(f"the port {name} goes both ways")
            if port["direction"] == "input" and name != self.clock and not name.startswith(PORT):
                self.ports.append((name, len(port["bits"])))
        self.ports += [(name, self.width(name)) for name in self.driven]

    def width(self, name: str) -> int:
        return self.probed.widths[name]

    def text(self, steps: int) -> str:
        """The testbench for runs of at most so many steps."""
        hooks = [f".{spelled([name])}(second_row[{low} +: {width}])" for name, low, width in self.slices(False)]
        if self.clock:
            hooks.append(f".{spelled([self.clock])}(second_clock)")
        row, start = max(1, sum(width for _, width in self.ports)), max(1, sum(it.width for it in self.starts))
        lines = [
            "module second_tb;",
            "event sample; integer at, step, count; reg is_first, glitches; reg second_clock = 0;",
            f"reg [{row - 1}:0] second_rows [0:{2 * steps - 1}]; reg [{row - 1}:0] second_row;",
            f"reg [{start - 1}:0] second_starts [0:0]; reg [{start - 1}:0] second_start; reg [8*64:1] name;",
            f"{spelled([self.top])} {self.parameters()}dut({', '.join(hooks)});",
            "initial begin is_first = 1; at = -1; count = 0;",
            'if (!$value$plusargs("count=%d", count)) count = 0; glitches = $test$plusargs("glitches");',
            'if ($value$plusargs("waves=%s", name)) begin $dumpfile(name); '
            f"$dumplimit({DUMP}); $dumpvars(0, dut); end",
            'if ($value$plusargs("rows=%s", name)) $readmemb(name, second_rows);',
            'if ($value$plusargs("starts=%s", name)) $readmemb(name, second_starts);',
            "second_start = second_starts[0];",
            # so that their first edges come later
            *(f"second_row[{it}] = second_rows[0][{it}];" for it in self.clock_bits()),
            "#1;",
            "if (count > 0) begin",
            *self.first_values(),
            "end",
            "for (step = 0; step < count; step = step + 1) begin",
            "if (glitches) second_row = second_rows[2 * step + 1];",
            "#1 second_row = second_rows[2 * step];",
            *(
                f"force dut.{spelled(self.driven[name])} = second_row[{low} +: {width}];"
                for name, low, width in self.slices(True)
            ),
            f"at = {'2 * step + 1' if self.is_global else '2 * step'};",
            "#2 ->sample; #1 is_first = 0; at = 2 * step + 1; #1;",
            "second_clock = 1; #2 second_clock = 0; #1 at = 2 * step + 2; #2;" if self.clock else "#5;",
            "end",
            "$finish(0); end",
            "endmodule",
        ]
        return "\n".join(lines) + "\n"

    def parameters(self) -> str:
        """The values of the top's parameters, which the first front end has read."""
        values = [f".{name}({value})" for name, _, value in (it.partition("=") for it in self.given)]
        return f"#({', '.join(values)}) " if values else ""

    def slices(self, driven: bool) -> List[Tuple[str, int, int]]:
        """Of each port where its bits are in a row; or of each net that is driven."""
        found, low = [], 0
        for name, width in self.ports:
            if (name in self.driven) == driven:
                found.append((name, low, width))
            low += width
        return found

    def clock_bits(self) -> List[int]:
        """Where in a row the clocks are."""
        lows = {name: low for name, low, _ in self.slices(False)}
        return [lows[name] + at for name, at in self.clocks]

    def first_values(self) -> List[str]:
        lines, low = [], 0
        for it in self.starts:
            name, value = f"dut.{spelled(it.path)}", f"second_start[{low} +: {it.width}]"
            mask = "".join("0" if it.has(at) else "1" for at in reversed(range(it.width)))
            if "1" in mask:
                value = f"(({name} & {it.width}'b{mask}) | {value})"
            # what has an enumeration's type takes no value but by force, and a word of a memory none by force
            forced = f"force {name} = {value};" + ("" if it.is_net else f" release {name};")
            lines.append(f"{name} = {value};" if it.is_word else forced)
            low += it.width
        return lines

    def start_row(self, run: Drawn) -> str:
        """The first values as the testbench reads them."""
        bits: List[str] = []
        for it in self.starts:
            bits += [first_value(it, at, run) for at in range(it.width)]
        return ("".join(reversed(bits)) or "0") + "\n"

    def start_row_of(self, values: Dict[Place, int]) -> str:
        """The same, by the values of bits."""
        bits: List[str] = []
        for it in self.starts:
            name = ".".join(it.path)
            bits += [str(values.get((name, at), 0)) if it.has(at) else "0" for at in range(it.width)]
        return ("".join(reversed(bits)) or "0") + "\n"

    def rows(self, inputs: Sequence[bytes], others: Sequence[bytes] = ()) -> str:
        """The inputs of each step, and others that come before."""
        places = {place: at for at, place in enumerate(self.probed.inputs) if place is not None}
        order = [places.get((name, bit)) for name, width in self.ports for bit in range(width)]
        others = others or inputs
        lines = []
        for step in range(len(inputs)):
            for values in (inputs[step], others[step]):
                lines.append("".join("01x"[values[at]] if at is not None else "0" for at in reversed(order)) or "0")
        return "\n".join(lines) + "\n"


def first_value(start: Start, bit: int, run: Drawn) -> str:
    if bit in start.latches:
        return str(run.starts[start.latches[bit]])
    return "01x"[run.outputs[0][start.outputs[bit]]] if bit in start.outputs else "0"
