"""Macros and parameters of the command line, as Yosys is told of them."""

import re
from pathlib import Path
from typing import List, Sequence, Tuple

from aiger_check.faults import Trouble, visible

#: what a command of a script has as one word
PLAIN = re.compile(r"[^\s;#\"\\]*")
TCL = "defines.tcl"


def commands(defines: Sequence[Tuple[str, str]], folder: Path, alias: str) -> List[str]:
    """The commands that define macros: what no script of Yosys can have as one word goes by one of Tcl."""
    for name, value in defines:
        odd = next((c for c in value if not c.isprintable() and c != "\t"), None)
        if odd is not None:
            raise Trouble(f"-D {visible(name)}: a value with {visible(odd)}")
    if all(PLAIN.fullmatch(value) for _, value in defines):
        return [f"verilog_defines -D{name}={value}" for name, value in defines]
    lines = [f"yosys verilog_defines {escaped(f'-D{name}={value}')}\n" for name, value in defines]
    (folder / TCL).write_text("".join(lines), encoding="ascii")
    return [f"tcl {alias}/{TCL}"]


def escaped(text: str) -> str:
    """A text as one word of Tcl."""
    return "".join(c if re.fullmatch(r"[A-Za-z0-9_]", c) else tcl_character(ord(c)) for c in text)


def tcl_character(code: int) -> str:
    if code > 0xFFFF:
        raise Trouble(f"-D: a value with {visible(chr(code))}")
    return f"\\u{code:04x}"


def parameters(given: Sequence[str], top: str) -> List[str]:
    """The command that sets parameters of the top module."""
    words = []
    for name, _, value in (it.partition("=") for it in given):
        if not re.fullmatch(r"[A-Za-z_][A-Za-z0-9_$]*", name):
            raise Trouble(f"-P {visible(name)}: not the name of a parameter")
        words.append(f"-set {name} {of_parameter(name, value)}")
    return [f"chparam {' '.join(words)} {top}"] if words else []


def of_parameter(name: str, value: str) -> str:
    """A value as Yosys reads it."""
    if re.fullmatch(r"-?\d{1,10}", value) and -(1 << 31) <= int(value) < 1 << 31:
        return f"32'sb{int(value) & 0xFFFFFFFF:032b}"
    if re.fullmatch(r"\d*'[sS]?[bodhBODH][0-9a-fA-F_xXzZ?]+|\"[ !#-\[\]-~]*\"", value):
        return value
    wanted = "a number of 32 bits, a number with its width, or a text in double quotes"
    raise Trouble(f"-P {visible(name)}: {visible(value)} is not {wanted}")
