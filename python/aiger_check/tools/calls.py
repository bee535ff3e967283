"""The words of the program aiger as calls of its library: no process is started where a call cannot take long."""

import functools
import time
from pathlib import Path
from typing import Any, Dict, List, Optional, Sequence, Tuple

from aiger_check.tools.library import aigtools
from aiger_check.tools.processes import Finished

#: a call cannot be broken off, so that it is to end soon: the most bytes that are read of a model for all frames, and
#: of a refutation; and how much larger clauses are than their model
MODEL, REFUTATION, PRODUCT = 2_000_000, 400_000, 20_000_000_000
VALUES = ("--frames", "--bad", "--justice", "--justice-as-bad", "--invariant", "--refutation", "--answer")
FLAGS = ("--simplify", "--cnf", "--witness")


class Words:
    """The words behind a command: options and names."""

    def __init__(self, words: Sequence[str]) -> None:
        self.options: Dict[str, str] = {}
        self.names: List[str] = []
        rest = iter(words)
        for word in rest:
            if word in VALUES:
                self.options[word] = next(rest)
            elif word in FLAGS:
                self.options[word] = ""
            else:
                self.names.append(word)
        self.is_known = not any(name.startswith("-") for name in self.names)

    def number(self, name: str) -> Optional[int]:
        return int(self.options[name]) if name in self.options else None

    def data(self, name: str) -> bytes:
        return Path(self.options[name]).read_bytes()

    def property(self) -> Dict[str, Any]:
        """Of what is asked."""
        found = {name: self.number(f"--{name}") for name in ("bad", "justice")}
        return {**{name: it for name, it in found.items() if it is not None}, "simplify": "--simplify" in self.options}

    def is_short(self) -> bool:
        """Whether a call with these words ends soon."""
        sizes = [Path(name).stat().st_size for name in self.names[:1]]
        model = sum(sizes) * (self.number("--frames") or 1)
        if "--invariant" in self.options:
            model += Path(self.options["--invariant"]).stat().st_size
        proof = Path(self.options["--refutation"]).stat().st_size if "--refutation" in self.options else 0
        return model <= MODEL and proof <= REFUTATION and model * proof <= PRODUCT


def called(command: str, words: Words) -> Optional[Tuple[Optional[bytes], str]]:
    """What a call gives for the file that is written, and for the standard output; nothing if there is no such call."""
    model, tools = functools.partial(Path(words.names[0]).read_bytes), aigtools()
    options, of = words.options, words.property()
    if command == "aigsim" and "--witness" in options:
        step = tools.confirm(model(), Path(words.names[1]).read_bytes())
        return None, "not confirmed\n" if step is None else f"confirmed {step}\n"
    if command != "aigunroll":
        return None
    frames = words.number("--frames")
    if "--refutation" in options and frames is not None:
        tools.refute(model(), words.data("--refutation"), frames, **of)
        return None, f"none within {frames}\n"
    if "--refutation" in options:
        tools.never(model(), words.data("--invariant"), words.data("--refutation"), **of)
        return None, "never\n"
    if "--answer" in options:
        return tools.answer(model(), words.data("--answer"), frames, **of), ""
    if frames is None:
        return tools.invariant_clauses(model(), words.data("--invariant"), **of), ""
    return tools.clauses(model(), frames, **of), ""


def finished(command: str, arguments: Sequence[str]) -> Optional[Finished]:
    """How the program would end with these words; nothing where it is to be run."""
    words, begun = Words(arguments), time.monotonic()
    try:
        if not words.is_known or not words.is_short():
            return None
        made = called(command, words)
    except OSError:
        return None
    except aigtools().Refused as why:
        return Finished(1, "", f"aiger: {words.names[0]}: {why}\n", time.monotonic() - begun, False)
    if made is None:
        return None
    data, output = made
    if data is not None:
        Path(words.names[1]).write_bytes(data)
    return Finished(int(output == "not confirmed\n"), output, "", time.monotonic() - begun, False)
