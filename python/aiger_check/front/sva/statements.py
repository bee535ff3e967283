"""Where statements end, and which actions of an assertion can be left out."""

from typing import Sequence

from aiger_check.front.sva.expressions import ASSIGNMENTS, opens
from aiger_check.front.sva.refusals import NotTaken
from aiger_check.front.sva.tokens import Branches, Token, closing

ENDINGS = ("end", "endcase", "endmodule", "endinterface", "endprogram", "endpackage", "endgenerate", "endfunction")
OPENING = ("begin", "fork", "case", "casex", "casez", "randcase")
CLOSING = ("end", "join", "join_any", "join_none", "endcase")
MESSAGES = ("$error", "$fatal", "$warning", "$info", "$display", "$displayb", "$displayh", "$write", "$strobe")
ENDS = ("$stop", "$finish")


def text_at(tokens: Sequence[Token], at: int) -> str:
    """The text of a word, and none of a string or behind the end."""
    return tokens[at].text if 0 <= at < len(tokens) and tokens[at].kind != "string" else ""


def behind_semicolon(tokens: Sequence[Token], at: int) -> int:
    while at < len(tokens):
        text = text_at(tokens, at)
        if text == ";":
            return at + 1
        if text in ENDINGS:
            return at
        at = closing(tokens, at) if opens(tokens[at]) else at + 1
    return at


def behind_block(tokens: Sequence[Token], at: int) -> int:
    """Behind a block, and behind its name."""
    depth, branches = 0, Branches()
    while at < len(tokens):
        text = text_at(tokens, at)
        depth = branches.at(tokens[at].path, depth)
        if text in ("endmodule", "endinterface", "endprogram"):
            return at
        waits = text == "fork" and text_at(tokens, at - 1) in ("wait", "disable")
        depth += (text in OPENING and not waits) - (text in CLOSING)
        at += 1
        if depth <= 0 and text in CLOSING:
            break
    return at + 2 if text_at(tokens, at) == ":" else at


def behind_statement(tokens: Sequence[Token], at: int) -> int:
    """Behind a statement of a procedure."""
    while text_at(tokens, at) in ("@", "#", "##"):
        at = behind_event(tokens, at + 1)
    text = text_at(tokens, at)
    if text in OPENING:
        return behind_block(tokens, at)
    if text in ("unique", "unique0", "priority", "forever"):
        return behind_statement(tokens, at + 1)
    if text in ("for", "while", "repeat", "foreach", "wait"):
        return behind_statement(tokens, closing(tokens, at + 1))
    if text == "if":
        return behind_else(tokens, behind_statement(tokens, closing(tokens, at + 1)))
    if text_at(tokens, at + 1) == ":" and at < len(tokens) and tokens[at].kind in ("word", "escaped"):
        return behind_statement(tokens, at + 2)
    if text in ("assert", "assume", "cover"):
        return behind_assertion(tokens, at)
    if at < len(tokens) and tokens[at].kind == "macro":
        end = closing(tokens, at + 1) if text_at(tokens, at + 1) == "(" else at + 1
        return end + 1 if text_at(tokens, end) == ";" else end
    return behind_semicolon(tokens, at)


def behind_event(tokens: Sequence[Token], at: int) -> int:
    """Behind an event or a delay."""
    if text_at(tokens, at) == "(":
        return closing(tokens, at)
    at += 1
    while text_at(tokens, at) == ".":
        at += 2
    return at


def behind_else(tokens: Sequence[Token], at: int) -> int:
    return behind_statement(tokens, at + 1) if text_at(tokens, at) == "else" else at


def behind_assertion(tokens: Sequence[Token], at: int) -> int:
    """Behind an assertion whose keyword stands here, and behind its actions."""
    at = behind_property(tokens, at)
    if text_at(tokens, at) == ";":
        # an else behind it is that of an if around it
        return at + 1
    return behind_else(tokens, at if text_at(tokens, at) == "else" else behind_statement(tokens, at))


def behind_property(tokens: Sequence[Token], at: int) -> int:
    """Behind what is asserted, which stands in parentheses."""
    while at < len(tokens) and text_at(tokens, at) not in ("(", ";", *ENDINGS):
        at += 1
    return closing(tokens, at) if text_at(tokens, at) == "(" else at


def need_droppable(tokens: Sequence[Token]) -> None:
    """Refuses actions that do more than to say something."""
    at = 0
    if text_at(tokens, at) not in (";", "else"):
        at = droppable(tokens, at, MESSAGES)
    elif text_at(tokens, at) == ";":
        at += 1
    if text_at(tokens, at) == "else":
        at = droppable(tokens, at + 1, (*MESSAGES, *ENDS))
    if at < len(tokens):
        raise NotTaken(tokens[at], "this action", "leave out the action, or write $error")


def droppable(tokens: Sequence[Token], at: int, tasks: Sequence[str]) -> int:
    """Behind a statement that only says something."""
    text = text_at(tokens, at)
    if text == ";":
        return at + 1
    if text == "begin":
        at += 3 if text_at(tokens, at + 1) == ":" else 1
        while text_at(tokens, at) not in ("end", ""):
            at = droppable(tokens, at, tasks)
        return at + 3 if text_at(tokens, at + 1) == ":" else at + 1
    token = tokens[min(at, len(tokens) - 1)]
    if text not in tasks:
        raise NotTaken(token, f"the action {text}", "write $error, or set registers in an always block")
    end = closing(tokens, at + 1) if text_at(tokens, at + 1) == "(" else at + 1
    for place in range(at + 1, end):
        refuse_effect(tokens, place)
    if text_at(tokens, end) != ";":
        raise NotTaken(token, f"the action {text} without ;", "write ; behind it")
    return end + 1


def refuse_effect(tokens: Sequence[Token], at: int) -> None:
    """Refuses what an argument of a message may change."""
    token = tokens[at]
    is_call = token.kind in ("word", "escaped") and text_at(tokens, at + 1) == "("
    is_macro = token.kind == "macro" and token.text not in ("`__FILE__", "`__LINE__")
    if token.kind == "symbol" and token.text in ASSIGNMENTS or is_call or is_macro:
        raise NotTaken(token, f"{token.text} in an action", "write a message of signals alone")
