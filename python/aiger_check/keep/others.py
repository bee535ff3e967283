"""What is kept of two designs, and of lassos."""

from pathlib import Path
from typing import List, Set

from aiger_check.answers import Assertion, Verdict
from aiger_check.equality.sides import Sides
from aiger_check.keep.keeper import Keeper
from aiger_check.keep.waves import of_two
from aiger_check.model.circuit import Model
from aiger_check.tools.aiger import Aiger


class KeeperOfTwo(Keeper):
    """Keeps two designs, and what shows whether they are equal."""

    called, shown = "miter", "the two models with these digests"

    def __init__(self, folder: Path, model: Path, aiger: Aiger, sides: Sides) -> None:
        super().__init__(folder, model, aiger)
        self.sides = sides
        self.digests.clear()
        self.two = [self.put_model("first", sides.first.path), self.put_model("second", sides.second.path)]
        self.again = ["--equal", *["--by-name"] * sides.by_name, *self.two]

    def asks(self, options: str) -> List[str]:
        by_name = "--by-name " * self.sides.by_name
        return [
            "aiger=${AIGER:-aiger}",
            f'answer=$("$aiger" aigmiter {by_name}{" ".join(self.two)} |',
            f'  "$aiger" aigunroll {options} -) || exit 1',
        ]

    def put_run(self, name: str, assertion: Assertion, verdict: Verdict, witness: Path) -> None:
        """Keeps the stimulus, and one waveform of both designs."""
        self.put(f"{name}.vcd", of_two(self.aiger, self.sides, witness))
        self.put(f"{name}.stimulus", witness.with_suffix(".stimulus").read_bytes())


class KeeperOfLassos(Keeper):
    """Keeps a model with its justice properties, and what shows whether a run is fair to them."""

    called = "live"

    def __init__(self, folder: Path, model: Model, aiger: Aiger, names: Set[str]) -> None:
        super().__init__(folder, model.path, aiger)
        self.names = names

    def put_run(self, name: str, assertion: Assertion, verdict: Verdict, witness: Path) -> None:
        super().put_run(name, assertion, verdict, witness)
        asks = f'answer=$("${{AIGER:-aiger}}" aigsim --witness {self.model} {name}.aiw) || exit 1'
        self.put_script(name, assertion, verdict, [asks, f'[ "$answer" = "confirmed {verdict.steps}" ]'])
