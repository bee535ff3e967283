"""The program aiger, which alone gives answers, and its library."""

import re
import threading
from pathlib import Path
from typing import Any, Optional, Tuple

from aiger_check.tools.calls import finished
from aiger_check.tools.library import aigtools as aigtools
from aiger_check.tools.processes import Children, Finished


class Aiger:
    """The program aiger, and its library. What it says alone makes an answer."""

    def __init__(self, program: str, children: Children, limit: float) -> None:
        self.program, self.children, self.limit = program, children, limit
        self.lock = threading.Lock()
        #: whether the library is that of the program
        self.is_same: Optional[bool] = None

    def run(self, command: str, *arguments: Any, folder: Path, output: Optional[Path] = None) -> Finished:
        """Runs the program, or calls its library where that ends soon."""
        told = None if output else self.call(command, *arguments)
        return told or self.children.run([self.program, command, *map(str, arguments)], folder, self.limit, output)

    def call(self, command: str, *arguments: Any) -> Optional[Finished]:
        """Calls the library, where it has the command and that ends soon."""
        words = list(map(str, arguments))
        return finished(command, words) if command in CALLED and self.has_library() else None

    def has_library(self) -> bool:
        """Whether the library is as old as the program that the user named."""
        with self.lock:
            if self.is_same is None:
                told = self.children.run([self.program, "--version"], Path("/"), self.limit)
                self.is_same = (told.status, told.output) == (0, f"aiger {aigtools().version()}\n")
        return self.is_same

    def to_binary(self, source: Path, destination: Path) -> Optional[str]:
        """Writes a model in binary, or tells why not."""
        told = self.run("aigtoaig", source, destination, folder=destination.parent)
        if told.status == 0:
            return None
        words = told.errors.strip() or f"{self.program} ended with status {told.status}"
        return words.replace(f"aiger: {source}: ", "")

    def with_loop(self, model: Path, justice: int, destination: Path) -> Optional[str]:
        """Writes the circuit whose bad state is reached where a run is fair to a justice property, or tells why not."""
        words = ("--justice-as-bad", justice, model, destination)
        told = self.run("aigtoaig", *words, folder=destination.parent)
        return None if told.status == 0 else aiger_failure(told).replace(f"aiger: {model}: ", "")

    def miter(self, first: Path, second: Path, destination: Path, by_name: bool) -> Optional[Tuple[Path, str]]:
        """Writes the miter of two models, or tells of which one what is wrong."""
        told = self.run("aigmiter", *["--by-name"] * by_name, first, second, destination, folder=destination.parent)
        if told.status == 0:
            return None
        words = aiger_failure(told)
        which = first if words.startswith(f"aiger: {first}: ") else second
        return which, words.replace(f"aiger: {which}: ", "")

    def confirmed(self, model: Path, witness: Path) -> Optional[int]:
        """The step at which a witness reaches its bad state, or at which its loop begins."""
        told = self.run("aigsim", "--witness", model, witness, folder=witness.parent)
        match = re.fullmatch(r"confirmed (\d+)\n", told.output)
        return int(match[1]) if told.status == 0 and match else None


#: the commands that are calls too
CALLED = ("aigsim", "aigunroll")


def aiger_failure(told: Finished) -> str:
    """Why aiger gave no answer."""
    if told.late:
        return f"aiger gave no answer in {told.seconds:.0f} s"
    words = told.errors.strip().splitlines()
    return words[-1] if words else f"aiger ended with status {told.status}"
