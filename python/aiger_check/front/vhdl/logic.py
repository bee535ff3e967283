"""What the gates of a netlist of ghdl's give, in Verilog."""

import re
from typing import Callable, Dict, Optional, Tuple

from aiger_check.faults import visible
from aiger_check.front.vhdl.netlist import Gate, Net, NotKnown, concatenated

#: file, line and column
Place = Tuple[str, int, int]
EDGES = ("$posedge", "$negedge")
#: gates of two operands of the same width, as Verilog spells them; of a sign it is told
BINARY = {
    "$and": "{a} & {b}",
    "$or": "{a} | {b}",
    "$xor": "{a} ^ {b}",
    "$nand": "~({a} & {b})",
    "$nor": "~({a} | {b})",
    "$xnor": "~({a} ^ {b})",
    "$add": "{a} + {b}",
    "$sub": "{a} - {b}",
    "$umul": "{a} * {b}",
    "$smul": "{a} * {b}",
    "$udiv": "{a} / {b}",
    "$umod": "{a} % {b}",
    "$sdiv": "$signed({a}) / $signed({b})",
    "$srem": "$signed({a}) % $signed({b})",
    "$umin": "{a} < {b} ? {a} : {b}",
    "$umax": "{a} > {b} ? {a} : {b}",
    "$smin": "$signed({a}) < $signed({b}) ? {a} : {b}",
    "$smax": "$signed({a}) > $signed({b}) ? {a} : {b}",
}
COMPARED = {"$eq": "==", "$ne": "!=", "$ult": "<", "$ule": "<=", "$ugt": ">", "$uge": ">="}
SIGNED = {"$slt": "<", "$sle": "<=", "$sgt": ">", "$sge": ">="}
SHIFTS = {"$lsl": "{a} << {b}", "$lsr": "{a} >> {b}", "$asr": "$signed({a}) >>> {b}"}
REDUCED = {"$red_and": "&", "$red_or": "|", "$red_xor": "^"}


class Logic:
    """Writes expressions over the nets of a module, each of which has a name or is a constant."""

    def __init__(self, drivers: Dict[int, Gate], word_at: Callable[[Place], str]) -> None:
        self.drivers, self.word_at = drivers, word_at
        self.names: Dict[int, str] = {}

    def net(self, net: Net) -> str:
        """A net in an expression."""
        if net.width == 0 or net.number not in self.names:
            edge = self.drivers.get(net.number)
            what = "ghdl made a net of no bits, which is not taken"
            if edge and edge.kind in EDGES:
                instead = "write its words in a loop, each by its index"
                what = f"ghdl made neither registers nor a memory of an array: {instead}"
            raise NotKnown(f"{shown(edge) if edge else ''}{what}")
        return self.names[net.number]

    def expression(self, gate: Gate) -> Optional[str]:
        """What a gate gives."""
        ins = {name.lstrip("$"): self.net(net) for name, net in gate.inputs.items()}
        kind, width = gate.kind, gate.output().width
        if kind in BINARY:
            self.need(gate, len({it.width for it in (*gate.inputs.values(), gate.output())}) == 1)
            return BINARY[kind].format(**ins)
        if kind in COMPARED or kind in SIGNED:
            self.need(gate, len({it.width for it in gate.inputs.values()}) == 1 and width == 1)
            if kind in SIGNED:
                return f"$signed({ins['a']}) {SIGNED[kind]} $signed({ins['b']})"
            return f"{ins['a']} {COMPARED[kind]} {ins['b']}"
        if kind in SHIFTS:
            self.need(gate, gate.inputs["$a"].width == width)
            return SHIFTS[kind].format(**ins)
        if kind in REDUCED:
            return f"{REDUCED[kind]}{ins['i']}"
        special: Optional[Callable[[Gate, Dict[str, str]], str]] = getattr(self, f"of_{kind[1:]}", None)
        return special(gate, ins) if special else None

    def need(self, gate: Gate, is_so: bool) -> None:
        if not is_so:
            raise NotKnown(f"{shown(gate)}ghdl wrote {gate.kind[1:]} with widths that are not known")

    def of_signal(self, gate: Gate, ins: Dict[str, str]) -> str:
        self.need(gate, gate.inputs["$i"].width == gate.output().width)
        return ins["i"]

    of_isignal = of_output = of_ioutput = of_port = of_nop = of_signal

    def of_not(self, gate: Gate, ins: Dict[str, str]) -> str:
        self.need(gate, gate.inputs["$i"].width == gate.output().width)
        return f"~{ins['i']}"

    def of_neg(self, gate: Gate, ins: Dict[str, str]) -> str:
        self.need(gate, gate.inputs["$i"].width == gate.output().width)
        return f"-{ins['i']}"

    def of_abs(self, gate: Gate, ins: Dict[str, str]) -> str:
        self.need(gate, gate.inputs["$i"].width == gate.output().width)
        return f"$signed({ins['i']}) < 0 ? -{ins['i']} : {ins['i']}"

    def of_smod(self, gate: Gate, ins: Dict[str, str]) -> str:
        """What is left has the sign of the divisor, where Verilog gives it that of the dividend."""
        self.need(gate, len({it.width for it in (*gate.inputs.values(), gate.output())}) == 1)
        rest, a, b = f"$signed({ins['a']}) % $signed({ins['b']})", ins["a"], ins["b"]
        is_other = f"($signed({a}) < 0) != ($signed({b}) < 0) && ({rest}) != 0"
        # where one operand has no sign, none has
        return f"{is_other} ? $signed({b}) + ({rest}) : {rest}"

    def of_utrunc(self, gate: Gate, ins: Dict[str, str]) -> str:
        return self.cut(gate, ins, 0)

    def of_strunc(self, gate: Gate, ins: Dict[str, str]) -> str:
        """Less bits of a number with a sign: of integers the last ones, and by resize with the sign before them, which
        ghdl forgets."""
        net, width, word = gate.inputs["$i"], gate.output().width, self.word_at(gate.place)
        if word != "resize":
            self.need(gate, word != "ieee" and word != "numeric_std")
            return self.cut(gate, ins, 0)
        self.need(gate, is_name(ins["i"]) and width < net.width)
        sign = f"{ins['i']}[{net.width - 1}]"
        return f"{{{sign}, {ins['i']}[{width - 2}:0]}}" if width > 1 else sign

    def of_extract(self, gate: Gate, ins: Dict[str, str]) -> str:
        return self.cut(gate, ins, gate.number("$offset"))

    def cut(self, gate: Gate, ins: Dict[str, str], offset: int) -> str:
        """Some bits of a net."""
        given, width = gate.inputs["$i"], gate.output().width
        self.need(gate, offset + width <= given.width)
        if given.width == width:
            return ins["i"]
        # what has no name of its own cannot be cut
        return f"{{{ins['i']}}} >> {offset}" if not is_name(ins["i"]) else f"{ins['i']}[{offset + width - 1}:{offset}]"

    def of_uextend(self, gate: Gate, ins: Dict[str, str]) -> str:
        more = gate.output().width - gate.inputs["$i"].width
        self.need(gate, more >= 0)
        return f"{{{more}'b0, {ins['i']}}}" if more else ins["i"]

    def of_sextend(self, gate: Gate, ins: Dict[str, str]) -> str:
        self.need(gate, gate.output().width >= gate.inputs["$i"].width)
        return f"$signed({ins['i']})"

    def of_concat2(self, gate: Gate, ins: Dict[str, str]) -> str:
        nets = concatenated(gate)
        self.need(gate, sum(it.width for it in nets) == gate.output().width)
        return f"{{{', '.join(map(self.net, nets))}}}"

    of_concat3 = of_concat4 = of_concatn = of_concat2

    def of_mux2(self, gate: Gate, ins: Dict[str, str]) -> str:
        return f"{ins['s']} ? {ins['i1']} : {ins['i0']}"

    def of_mux4(self, gate: Gate, ins: Dict[str, str]) -> str:
        cases = "".join(f"{ins['s']} == 2'd{at} ? {ins[f'i{at}']} : " for at in range(3))
        return f"{cases}{ins['i3']}"

    def of_pmux(self, gate: Gate, ins: Dict[str, str]) -> str:
        count = gate.inputs["$s"].width
        names = [str(2 + at) for at in range(count)]
        self.need(gate, list(ins) == ["s", "def", *names])
        chosen = [ins["s"]] if count == 1 else [f"{ins['s']}[{at}]" for at in range(count)]
        self.need(gate, is_name(ins["s"]))
        return "".join(f"{bit} ? {ins[name]} : " for bit, name in zip(chosen, names)) + ins["def"]


def is_name(text: str) -> bool:
    return re.fullmatch(r"\\\S+ |[A-Za-z_]\w*", text) is not None


def shown(gate: Gate) -> str:
    return f"{visible(gate.place[0])}:{gate.place[1]}: " if gate.place[1] else ""
