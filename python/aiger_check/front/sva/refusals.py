"""What is not taken of concurrent assertions, and what to write instead."""

from typing import NamedTuple

from aiger_check.faults import visible
from aiger_check.front.sva.tokens import Token

REGISTERS = "write it as registers and an immediate assert in an always block"
CHECK_IT = "write it as registers and a cover in an always block"
#: words and symbols that are not taken, each with what to write
HINTS = {
    "throughout": REGISTERS,
    "within": REGISTERS,
    "intersect": REGISTERS,
    "first_match": REGISTERS,
    "until": REGISTERS,
    "until_with": REGISTERS,
    "s_until": REGISTERS,
    "s_until_with": REGISTERS,
    "nexttime": "write ##1 in its place",
    "s_nexttime": "write ##1 in its place",
    "always": "leave it out: an assertion is asked in each step",
    "s_always": REGISTERS,
    "eventually": "write s_eventually, alone or behind |-> or |=>",
    "s_eventually": "it is taken alone, or behind |-> or |=>",
    "strong": "leave it out: what is not finished at the end of a run does not fail",
    "weak": "leave it out: it is what is meant",
    "accept_on": "write disable iff in front of the whole property",
    "reject_on": REGISTERS,
    "sync_accept_on": REGISTERS,
    "sync_reject_on": REGISTERS,
    "case": "write it as if and else",
    "dist": "write it as assumptions of inside",
    "[->": REGISTERS,
    "[=": REGISTERS,
    "#-#": REGISTERS,
    "#=#": REGISTERS,
}


class NotTaken(Exception):
    """A construct that is not taken, with its place and what to write."""

    def __init__(self, token: Token, construct: str, hint: str) -> None:
        super().__init__(construct)
        self.token, self.construct, self.hint = token, construct, hint


class Refused(NamedTuple):
    """A construct that is not taken, of a file."""

    file: str
    line: int
    construct: str
    hint: str

    def __str__(self) -> str:
        return visible(f"{self.file}:{self.line}: {self.construct} is not taken; {self.hint}")


def refuse_known(token: Token) -> None:
    """Refuses a word that is known not to be taken."""
    if token.text in HINTS and token.kind in ("word", "symbol"):
        raise NotTaken(token, token.text, HINTS[token.text])
