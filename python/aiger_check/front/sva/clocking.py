"""Clocks and conditions of assertions."""

from typing import List, NamedTuple, Optional, Sequence, Tuple

from aiger_check.front.sva.expressions import SAMPLES, expression, opens
from aiger_check.front.sva.named import Named
from aiger_check.front.sva.refusals import NotTaken
from aiger_check.front.sva.statements import text_at
from aiger_check.front.sva.tokens import Token, closing, spelled

AT_EACH = "write @(posedge clk) at each assertion"


class Specification(NamedTuple):
    """A property with its clock and its condition, where it has them."""

    clock: List[Token]
    disabled: List[Token]
    rest: List[Token]


def split(tokens: Sequence[Token]) -> Specification:
    """What stands in front of a property."""
    clock: List[Token] = []
    disabled: List[Token] = []
    at = 0
    if text_at(tokens, 0) == "@":
        at = closing(tokens, 1) if text_at(tokens, 1) == "(" else 2
        clock = list(tokens[1:at])
    if text_at(tokens, at) == "disable":
        if text_at(tokens, at + 1) != "iff" or text_at(tokens, at + 2) != "(":
            raise NotTaken(tokens[at], "this disable", "write disable iff (rst)")
        end = closing(tokens, at + 2)
        disabled, at = list(tokens[at + 2 : end]), end
    return Specification(clock, disabled, list(tokens[at:]))


def unfolded(given: Specification, named: Named) -> Specification:
    """A property by its name alone, with the clock and the condition that it has there."""
    while len(given.rest) == 1 and given.rest[0].text in named.bodies and given.rest[0].kind == "word":
        name = given.rest[0]
        inner, named = split(named.words(name)), named.deeper(name)
        if inner.clock and given.clock and spelled(inner.clock) != spelled(given.clock):
            raise NotTaken(name, "a second clock", "write the clock in one of both places")
        if inner.disabled and given.disabled:
            raise NotTaken(name, "a second disable iff", "write one condition, with ||")
        given = Specification(given.clock or inner.clock, given.disabled or inner.disabled, inner.rest)
    return given


def edge_of(words: Sequence[Token], place: Token) -> str:
    """The edge of a clock, of what stands behind @."""
    if words and words[0].text == "(":
        words = words[1:-1]
    texts = [it.text for it in words]
    if "iff" in texts:
        raise NotTaken(place, "a condition of the clock", "write it as the left side of |->")
    if "or" in texts or "," in texts:
        raise NotTaken(place, "an assertion of several clocks", "write one assertion for each")
    if any(text.startswith("$") for text in texts):
        raise NotTaken(place, "this clock", "write @(posedge clk) of a clock of the design")
    if not texts or texts[0] not in ("posedge", "negedge"):
        raise NotTaken(place, "a clock without posedge or negedge", "write @(posedge clk)")
    if not is_name(words[1:]):
        raise NotTaken(place, "a clock that is an expression", "give it a name by an assign")
    return f"{texts[0]} {spelled(words[1:])} "


def is_name(words: Sequence[Token]) -> bool:
    """Whether words are a name, maybe with a path and indexes."""
    at, wanted = 0, True
    while at < len(words):
        token = words[at]
        if wanted and token.kind in ("word", "escaped", "macro"):
            wanted, at = False, at + 1
        elif not wanted and token.text == ".":
            wanted, at = True, at + 1
        elif not wanted and token.text == "[" and opens(token):
            at = closing(words, at)
        else:
            return False
    return not wanted


def condition(words: Sequence[Token], named: Named) -> Optional[str]:
    """The text of a disable iff."""
    if not words:
        return None
    found = expression(words, named.bodies)
    for token in words:
        if token.kind == "system" and token.text in SAMPLES:
            raise NotTaken(token, f"{token.text} in disable iff", "write a register for it")
    return found


def clock_of_block(tokens: Sequence[Token]) -> Tuple[str, List[Token]]:
    """The name, if any, and the clock of a clocking block that has nothing else in it."""
    at = next(place for place, it in enumerate(tokens) if it.text == "clocking") + 1
    name = ""
    if text_at(tokens, at) != "@":
        name, at = text_at(tokens, at), at + 1
    if text_at(tokens, at) != "@":
        raise NotTaken(tokens[0], "a clocking block without a clock", AT_EACH)
    end = closing(tokens, at + 1) if text_at(tokens, at + 1) == "(" else at + 2
    if [text_at(tokens, end), text_at(tokens, end + 1)] != [";", "endclocking"]:
        raise NotTaken(tokens[0], "a clocking block with signals", AT_EACH)
    return name, list(tokens[at + 1 : end])
