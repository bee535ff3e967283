"""What is asked."""

from dataclasses import dataclass, field
from pathlib import Path
from typing import List, Optional, Sequence

from aiger_check.answers import Assertion
from aiger_check.equality.sides import Sides
from aiger_check.front.replay import Replay
from aiger_check.front.second.beside import Second
from aiger_check.front.shown import WholeDesign
from aiger_check.front.unset import Unset
from aiger_check.model.circuit import Model, without_justice


@dataclass(frozen=True)
class Translation:
    """A design that Yosys translated: the folder of its sources, and what Yosys was told beside that; of VHDL what ghdl
    was told too."""

    folder: Path
    script: str
    ghdl: Sequence[str] = ()


@dataclass
class Question:
    """A model, and the assertions that are its bad states and justice properties."""

    model: Model
    assertions: List[Assertion]
    #: the model with its justice properties, if it has some
    live: Optional[Model] = None
    #: of a miter the two designs
    sides: Optional[Sides] = None
    #: what replays a counterexample on the design
    replay: Optional[Replay] = None
    #: of a design in Verilog what shows all of it
    whole: Optional[WholeDesign] = None
    #: the registers that may start at any value, where no reset was asked for
    unset: Optional[Unset] = None
    translations: Sequence[Translation] = ()
    #: the second front ends that are asked beside the search, one for each design
    seconds: List[Second] = field(default_factory=list)


def question_of(path: Path, assertions: List[Assertion]) -> Question:
    """What is asked of a model. Bad states are those of one without justice and fairness: a run into one has an end."""
    model = Model(path)
    if not model.circuit.justice_sizes and not model.circuit.fairness:
        return Question(model, assertions)
    finite = path.with_name("finite.aig")
    finite.write_bytes(without_justice(model.circuit).write())
    return Question(Model(finite), assertions, model if model.circuit.justice_sizes else None)
