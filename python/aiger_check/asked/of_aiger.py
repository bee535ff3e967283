"""AIGER files that are given."""

import os
import re
import stat
from pathlib import Path
from typing import Any, List, Optional

from aiger_check.answers import Assertion, Liveness
from aiger_check.asked.packed import unpacked
from aiger_check.asked.question import Question, question_of
from aiger_check.faults import Trouble, visible
from aiger_check.model.circuit import named_by_symbols
from aiger_check.session import Session
from aiger_check.tools.aiger import Aiger, aigtools


def copied(aiger: Aiger, name: str, path: Path) -> Any:
    """Writes a model that is given, compressed or not, in binary, and gives its circuit."""
    given = path.with_name(f"{path.stem}.given")
    if stat.S_ISCHR(os.stat(name).st_mode):
        raise Trouble(f"{visible(name)}: a device, which need not have an end")
    with open(name, "rb") as file:
        unpacked(name, file.read(), given, aiger.children)
    failure = aiger.to_binary(given, path)
    if failure:
        match = re.fullmatch(r"line (\d+): (.*)", failure, re.DOTALL)
        raise Trouble(visible(f"{name}:{match[1]}: {match[2]}" if match else f"{name}: {failure}"))
    return aigtools().read(path.read_bytes())


def of_aiger(session: Session, aiger: Aiger) -> Question:
    """What is asked of the model that is given."""
    name, path, notes = session.given.files[0], session.folder / "model.aig", session.notes
    circuit = copied(aiger, name, path)
    if circuit.fairness and not circuit.justice_sizes:
        notes.warn(f"{visible(name)}: fairness constraints are left out: there is no justice property")
    if not circuit.bad and not circuit.justice_sizes:
        hint = "; of outputs aiger aigtoaig --outputs-as-bad makes bad states" if circuit.outputs else ""
        notes.warn(f"{visible(name)}: there is neither a bad state nor a justice property{hint}")
    asked = [it for it in properties(name, circuit) if is_asked(it, session.given.mode)]
    return question_of(path, asked)


def is_asked(assertion: Assertion, mode: Optional[str]) -> bool:
    """Whether a mode asks for it."""
    return not mode or isinstance(assertion, Liveness) == (mode == "live")


def properties(name: str, circuit: Any) -> List[Assertion]:
    """The assertions of a model, by symbols or positions."""
    bad, live = (named_by_symbols(circuit, kind) for kind in "bj")
    found = [Assertion(bad.get(at, f"b{at}"), name, at) for at in range(len(circuit.bad))]
    justice = range(len(circuit.justice_sizes))
    return [*found, *(Liveness(live.get(at, f"j{at}"), name, 0, justice=at) for at in justice)]
