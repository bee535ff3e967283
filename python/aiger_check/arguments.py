"""The command line."""

import argparse
import os
import re
from dataclasses import dataclass
from typing import Any, List, NoReturn, Sequence

from aiger_check import PROGRAM
from aiger_check.faults import Usage, visible
from aiger_check.front.vhdl.ghdl import is_vhdl
from aiger_check.lists import FileList, read_list
from aiger_check.statuses import OUTCOMES


class Parser(argparse.ArgumentParser):
    def error(self, message: str) -> NoReturn:
        raise Usage(visible(message))


def at_least(least: int, most: int = 1000000) -> Any:
    def number(text: str) -> int:
        if not re.fullmatch(r"[0-9]{1,9}", text) or not least <= int(text) <= most:
            raise argparse.ArgumentTypeError(f"not a number from {least} to {most}: {text!r}")
        return int(text)

    return number


def seconds(text: str) -> float:
    if not re.fullmatch(r"[0-9]{1,9}(\.[0-9]+)?", text) or float(text) <= 0:
        raise argparse.ArgumentTypeError(f"not a number of seconds: {text!r}")
    return float(text)


def outcomes(text: str) -> List[str]:
    """What --expect has."""
    other = next((it for it in text.split(",") if it not in OUTCOMES), None)
    if other is not None:
        raise argparse.ArgumentTypeError(f"not one of {', '.join(OUTCOMES)}: {other!r}")
    return text.split(",")


def parse_arguments(arguments: Sequence[str]) -> argparse.Namespace:
    parser = Parser(prog=PROGRAM, add_help=False, allow_abbrev=False)
    parser.add_argument("--equal", action="store_true")
    parser.add_argument("--by-name", action="store_true")
    parser.add_argument("--top", dest="tops", action="append", default=[])
    parser.add_argument("-D", dest="defines", action="append", default=[], metavar="NAME[=VALUE]")
    parser.add_argument("-P", dest="parameters", action="append", default=[], metavar="NAME=VALUE")
    parser.add_argument("-I", dest="include", action="append", default=[], metavar="DIR")
    parser.add_argument("--frames", type=at_least(1), default=50)
    parser.add_argument("--time", type=seconds, default=30.0)
    parser.add_argument("--limit", type=seconds, default=300.0)
    parser.add_argument("--timeout", type=seconds)
    parser.add_argument("--reset", metavar="[!]NAME")
    parser.add_argument("--reset-steps", type=at_least(1, 1000), metavar="N")
    parser.add_argument("--clock", dest="clocks", action="append", default=[], metavar="NAME")
    parser.add_argument("--expect", type=outcomes, default=(), metavar="OUTCOME[,OUTCOME]..")
    parser.add_argument("--junit", metavar="FILE")
    parser.add_argument("--jobs", type=at_least(1, 1000), default=len(os.sched_getaffinity(0)))
    parser.add_argument("-s", "--solver")
    parser.add_argument("--keep")
    parser.add_argument("--mode", choices=("bmc", "prove", "cover", "live"))
    parser.add_argument("--cover-asserts", action="store_true")
    parser.add_argument("--second", choices=("icarus", "verilator", "none"), default="")
    parser.add_argument("--only", action="append", default=[], metavar="NAME")
    parser.add_argument("--sort", choices=("file", "name", "answer"), default="file")
    parser.add_argument("--color", choices=("auto", "always", "never"), default="auto")
    parser.add_argument("--vcd", metavar="FILE")
    for name in ("--json", "--quiet", "--competition"):
        parser.add_argument(name, action="store_true")
    parser.add_argument("-h", "--help", action="store_true")
    parser.add_argument("-V", "--version", action="store_true")
    parser.add_argument("files", nargs="*")
    # argparse would take what follows -- for options too
    end = arguments.index("--") if "--" in arguments else len(arguments)
    words = with_marks(arguments[:end])
    given = parser.parse_intermixed_args(words)
    if sum(word.startswith(MARK) for word in words) != sum(word.startswith(MARK) for word in given.files):
        raise Usage("-f or -F stands where another option needs a value")
    given.files += arguments[end + 1 :]
    return given


#: before the name of a list that stands among the files: no word of a command line has it
MARK = "\0"


def with_marks(arguments: Sequence[str]) -> List[str]:
    """The command line, in which each list, as -f NAME, is one word among the files: so they keep their order."""
    made, words = [], iter(arguments)
    for word in words:
        if not re.match(r"-[fF]", word):
            made.append(word)
            continue
        name = word[2:] or next(words, "")
        if not name:
            raise Usage(f"{word} needs the name of a list of files")
        made.append(f"{MARK}{word[1]}{name}")
    return made


SUFFIXES = (".v", ".sv", ".vh", ".svh", ".vhd", ".vhdl")
SPELLED = ".v, .sv, .vh, .svh, .vhd or .vhdl"


def is_verilog(name: str) -> bool:
    """Whether a file is one of a design that Yosys translates, or ghdl before it."""
    return name.lower().endswith(SUFFIXES)


@dataclass(frozen=True)
class Design:
    """Files of one design, in Verilog with their top module, and what it is called."""

    called: str
    files: List[str]
    top: str = ""


def check_arguments(given: argparse.Namespace) -> argparse.Namespace:
    """The command line, where it can be meant."""
    if not given.files:
        raise Usage("no file is given")
    for name in ("keep", "junit", "vcd"):
        if getattr(given, name) == "":
            raise Usage(f"--{name} needs a name")
    given.words = given.files
    words = [files_of(word, given) for word in given.words]
    given.files = [name for files in words for name in files]
    if not given.files:
        raise Usage("no file is given, and none stands in a list")
    given.verilog = any(map(is_verilog, given.files))
    check_mode(given)
    if given.by_name and not given.equal:
        raise Usage("--by-name is for --equal")
    if given.verilog:
        check_verilog_arguments(given)
        check_vhdl_arguments(given, words)
    else:
        check_model_arguments(given)
    check_reset(given)
    check_output(given)
    if given.equal:
        given.designs = two_designs(given, words)
    elif len(given.tops) > 1:
        raise Usage("--top is given twice, which is for --equal")
    return given


def check_reset(given: argparse.Namespace) -> None:
    """A reset, where it can be."""
    if given.reset is None and given.reset_steps is None:
        return
    if given.reset is None:
        raise Usage("--reset-steps is for --reset NAME")
    if given.equal or not given.verilog:
        raise Usage("--reset is for the files of one design, in Verilog or VHDL")
    if not re.fullmatch(r"!?[^\s!\"#]+", given.reset):
        raise Usage(f"not the name of an input, or ! and a name: --reset {visible(given.reset)}")
    given.reset_steps = given.reset_steps or 1


def check_output(given: argparse.Namespace) -> None:
    """How the answers are said, where it can be."""
    if given.competition and (given.equal or given.verilog):
        raise Usage("--competition is for one AIGER model")
    for option, value in (("--json", given.json), ("--expect", given.expect)):
        if given.competition and value:
            raise Usage(f"--competition has an output and statuses of its own, without {option}")
    if given.vcd and any(is_same(given.vcd, name) for name in given.files):
        raise Usage(f"--vcd {visible(given.vcd)} would be written over a file that is read")


def is_same(name: str, other: str) -> bool:
    return os.path.exists(name) and os.path.exists(other) and os.path.samefile(name, other)


def check_mode(given: argparse.Namespace) -> None:
    """What is asked, where it can be."""
    if given.equal and given.mode in ("cover", "live"):
        raise Usage(f"--mode {given.mode} is not for --equal")
    if not given.verilog and given.mode == "cover":
        raise Usage("--mode cover is for Verilog files: an AIGER model has no covers")
    if given.cover_asserts and (given.equal or not given.verilog or given.mode == "live"):
        raise Usage("--cover-asserts is for assertions of one Verilog design")


def files_of(word: str, given: argparse.Namespace) -> List[str]:
    """The files of a word: one, those of a list, or with --equal several with commas between."""
    if word.startswith(MARK):
        return files_of_list(read_list(word[2:], word[1] == "F"), given)
    return [word] if not given.equal or os.path.exists(word) else word.split(",")


def files_of_list(found: FileList, given: argparse.Namespace) -> List[str]:
    """The files of a list; what else it has is as if it stood on the command line."""
    if given.equal and (found.include or found.defines):
        raise Usage("what a list has of +incdir+ and +define+ would be for both designs: give -I and -D")
    given.include += found.include
    given.defines += found.defines
    return found.files


def called_as(word: str) -> str:
    """What a design is called whose files are those of a word."""
    return word[2:] if word.startswith(MARK) else word


def two_designs(given: argparse.Namespace, words: List[List[str]]) -> List[Design]:
    """The two designs that are compared; one word is both where two tops are named."""
    tops, called = given.tops or [""], [called_as(word) for word in given.words]
    if not given.verilog:
        words = [[name] for name in called]
    if len(words) == 1 and len(tops) == 2:
        words, called = 2 * words, 2 * called
    if len(words) != 2 or len(tops) > 2:
        hint = "; of one with --top twice both are taken" if given.verilog and len(words) == 1 else ""
        raise Usage(f"--equal needs two designs, and {len(words)} {'is' if len(words) == 1 else 'are'} given{hint}")
    if called[0] == called[1]:
        called = list(tops) if len(set(tops)) == 2 else ["the first", "the second"]
    return [Design(*of) for of in zip(called, words, [tops[0], tops[-1]])]


def check_model_arguments(given: argparse.Namespace) -> None:
    """What is said of AIGER files."""
    if given.tops or given.defines or given.include or given.parameters or given.clocks:
        raise Usage(f"--top, -D, -I, -P and --clock are for Verilog and VHDL files: {SPELLED}")
    if any(word.startswith(MARK) for word in given.words):
        raise Usage(f"-f and -F are for lists of Verilog and VHDL files: {SPELLED}")
    if not given.equal and len(given.files) > 1:
        raise Usage(f"one AIGER model at a time; files of a design end in {SPELLED}")


#: of options that are repeated what each has, and in words
FORMS = (
    ("-D", "defines", r"[A-Za-z_][A-Za-z0-9_$]*(=[^\n\r]*)?", "NAME or NAME=VALUE"),
    ("-P", "parameters", r"[A-Za-z_][A-Za-z0-9_$]*=[^\n\r]+", "NAME=VALUE"),
    ("--clock", "clocks", r"[^\s;\"'#\\]+", "the name of a clock"),
)


def check_vhdl_arguments(given: argparse.Namespace, words: List[List[str]]) -> None:
    """What is said of VHDL files: a design has no others beside them."""
    designs = words if given.equal else [given.files]
    mixed = next((it for it in designs if any(map(is_vhdl, it)) and not all(map(is_vhdl, it))), None)
    if mixed is not None:
        raise Usage(f"one design in Verilog and VHDL is not taken: {visible(', '.join(mixed))}")
    if all(map(is_vhdl, given.files)) and (given.defines or given.include):
        raise Usage("-D and -I are for Verilog files; of a VHDL design -P sets a generic")


def check_verilog_arguments(given: argparse.Namespace) -> None:
    """What is said of files of a design."""
    if not given.tops:
        raise Usage("--top NAME is needed with Verilog and VHDL files")
    other = next((name for name in given.files if not is_verilog(name)), None)
    if other is not None:
        raise Usage(f"not a Verilog or VHDL file ({SPELLED}): {visible(other)}")
    for top in given.tops:
        if not re.fullmatch(r"[^\s;\"'#\\$][^\s;\"#]*", top):
            raise Usage(f"not the name of a module: {visible(top)}")
    for option, name, form, words in FORMS:
        for text in getattr(given, name):
            if not re.fullmatch(form, text):
                raise Usage(f"not {words}: {option} {visible(text)}")
