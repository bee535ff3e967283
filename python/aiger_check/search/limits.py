"""With what is searched, and how long."""

from dataclasses import dataclass
from pathlib import Path
from typing import Any, List, NamedTuple, Optional, Tuple

from aiger_check.tools.abc import Abc
from aiger_check.tools.aiger import Aiger
from aiger_check.tools.solvers import Solver


@dataclass(frozen=True)
class Limits:
    """What is asked for: steps of the bounded search, and seconds for an assertion."""

    frames: int
    time: float
    limit: float
    #: whether nothing is asked of runs of any length
    is_bounded: bool = False


@dataclass(frozen=True)
class Tools:
    """The programs that answer, and what they are asked for."""

    aiger: Aiger
    solver: Optional[Solver]
    abc: Optional[Abc]
    limits: Limits


def steps_up_to(most: int) -> List[int]:
    """1, 2, 4, .. and at last the most."""
    steps = [1]
    while steps[-1] < most:
        steps.append(min(2 * steps[-1], most))
    return steps


#: So many steps are searched before ABC is asked, since many bugs are near.
FEW = 4


class Target(NamedTuple):
    """A property of a file, or all bad states, of which something is asked."""

    path: Path
    option: Tuple[Any, ...] = ()
