"""Which of the assertions are asked, where some are named."""

import difflib
from fnmatch import fnmatchcase
from typing import List, Sequence, Set

from aiger_check.answers import Assertion, counted
from aiger_check.faults import Trouble, visible
from aiger_check.notes import Notes

#: how many names are offered where none fits
OFFERED = 5


def chosen(
    assertions: Sequence[Assertion], wanted: Sequence[str], has_positions: bool, notes: Notes
) -> List[Assertion]:
    """Those whose names are wanted, in their order; of a model b0 and j0 are names too. A name that fits none is
    refused."""
    names = [names_of(it, has_positions) for it in assertions]
    for pattern in wanted:
        if not any(fits(its, pattern) for its in names):
            found = offer(list(dict.fromkeys(visible(it.name) for it in assertions)), pattern)
            raise Trouble(f"--only {visible(pattern)}: nothing that is asked has such a name; {found}")
    are_wanted = [any(fits(its, pattern) for pattern in wanted) for its in names]
    units = [it.unit for it, is_wanted in zip(assertions, are_wanted) if not is_wanted]
    if units:
        notes.warn(f"left out by --only: {', '.join(counted(units.count(it), it) for it in dict.fromkeys(units))}")
    return [it for it, is_wanted in zip(assertions, are_wanted) if is_wanted]


def names_of(assertion: Assertion, has_position: bool) -> Set[str]:
    """By what an assertion may be named."""
    return {assertion.name, visible(assertion.name), *([assertion.position] if has_position else [])}


def fits(names: Set[str], pattern: str) -> bool:
    """Whether a name is one of a pattern, in which a bracket may also mean itself, as in names of generate blocks."""
    return any(fnmatchcase(name, it) for name in names for it in (pattern, pattern.replace("[", "[[]")))


def offer(names: Sequence[str], pattern: str) -> str:
    """The names that may have been meant."""
    within = [it for it in names if fnmatchcase(it.lower(), f"*{pattern.lower().replace('[', '[[]')}*")]
    near = list(dict.fromkeys([*within, *difflib.get_close_matches(pattern, names, OFFERED)]))
    shown, others = near or names, len(near or names) - OFFERED
    listed = ", ".join(shown[:OFFERED]) + (f" and {others} more" if others > 0 else "")
    return f"{'near it' if near else 'there'} is {listed}" if shown else "there is none at all"
