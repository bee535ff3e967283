"""Expressions inside of assertions: what of them Yosys takes."""

from typing import Container, List, Sequence

from aiger_check.front.sva.refusals import HINTS, REGISTERS, NotTaken, refuse_known
from aiger_check.front.sva.tokens import Token, closing, spelled

#: what makes a property or a sequence of expressions
OPERATORS = {"|->", "|=>", "##", "[*", "[->", "[=", "#-#", "#=#"}
WORDS = {"and", "or", "not", "iff", "implies", "if", "else"}
SAMPLES = {"$past": 2, "$rose": 1, "$fell": 1, "$stable": 1, "$changed": 1}
FUNCTIONS = {"$onehot", "$onehot0", "$countones", "$signed", "$unsigned", "$bits", "$clog2", *SAMPLES}
ASSIGNMENTS = {"=", "++", "--", "+=", "-=", "*=", "/=", "%=", "&=", "|=", "^=", "<<=", ">>=", "<<<=", ">>>="}
SPELLED = {
    "->": "write !a || b",
    "<->": "write !a == !b",
    "inside": "write comparisons with || between",
    "&&&": "write &&",
    ";": "write the variables as registers",
    "==?": "write a comparison under a mask",
    "!=?": "write a comparison under a mask",
    "tagged": "write a comparison",
    "$isunknown": "leave it out: nothing is x in a model, each x may be 0 or 1",
    "$sampled": "leave it out: each value is that before the edge",
}


def makes_property(token: Token) -> bool:
    """Whether a word belongs to properties and sequences alone."""
    if token.kind == "symbol":
        return token.text in OPERATORS
    return token.kind == "word" and (token.text in WORDS or token.text in HINTS)


def expression(tokens: Sequence[Token], named: Container[str]) -> str:
    """The text of an expression, if Yosys takes what it is made of."""
    for at, token in enumerate(tokens):
        refuse_word(token, at > 0 and tokens[at - 1].text == ".", named)
        if token.kind == "system":
            refuse_call(tokens, at)
        if token.text == "[" and [it.text for it in tokens[at + 1 : at + 3]] == ["+", "]"]:
            raise NotTaken(token, "[+]", REGISTERS)
    if tokens[0].text == "(" and closing(tokens, 0) == len(tokens):
        refuse_list(tokens[1:-1])
    return spelled(tokens)


def refuse_word(token: Token, is_member: bool, named: Container[str]) -> None:
    if is_member:
        if token.text in ("matched", "triggered"):
            raise NotTaken(token, f".{token.text}", REGISTERS)
        return
    refuse_known(token)
    if token.kind == "string":
        return
    if token.text in SPELLED and token.kind != "escaped":
        raise NotTaken(token, token.text, SPELLED[token.text])
    if token.kind == "symbol" and token.text in ASSIGNMENTS:
        raise NotTaken(token, f"an assignment ({token.text}) in an assertion", "write it in an always block")
    if token.text == "@":
        raise NotTaken(token, "a second clock", "write one assertion for each clock, and registers between")
    if token.kind == "symbol" and token.text in OPERATORS or token.kind == "word" and token.text in WORDS:
        raise NotTaken(token, f"{token.text} inside an expression", "put what is around it apart, with && or ||")
    if token.kind == "word" and token.text in named:
        raise NotTaken(token, f"{token.text} inside an expression", "a property or sequence stands for itself alone")


def refuse_call(tokens: Sequence[Token], at: int) -> None:
    """Refuses functions of the system that Yosys has not, and odd arguments of those of samples."""
    token = tokens[at]
    if token.text not in FUNCTIONS:
        raise NotTaken(token, token.text, "write what it gives as an expression")
    if token.text not in SAMPLES:
        return
    if at + 1 >= len(tokens) or tokens[at + 1].text != "(":
        raise NotTaken(token, f"{token.text} without arguments", "write what it is of")
    given = arguments(tokens[at + 2 : closing(tokens, at + 1) - 1])
    if not all(given) or len(given) > SAMPLES[token.text]:
        raise NotTaken(token, f"{token.text} with these arguments", "write no clock and no condition in it")
    inner = given[0]
    for place, it in enumerate(inner):
        is_call = it.kind in ("word", "escaped") and place + 1 < len(inner) and inner[place + 1].text == "("
        if is_call or it.kind == "system":
            raise NotTaken(it, f"{token.text} of {it.text}(..)", "give the value a name by an assign")
    if len(given) == 2 and spelled(given[1]).strip("0_") == "":
        raise NotTaken(token, f"{token.text} of no step", "write the value itself")


def refuse_list(tokens: Sequence[Token]) -> None:
    if len(arguments(tokens)) > 1:
        raise NotTaken(tokens[0], "a list in parentheses", "write assignments to variables in an always block")


def arguments(tokens: Sequence[Token]) -> List[List[Token]]:
    """What stands between commas outside of brackets."""
    found: List[List[Token]] = [[]]
    at = 0
    while at < len(tokens):
        if tokens[at].text == "," and tokens[at].kind == "symbol":
            found.append([])
            at += 1
            continue
        end = closing(tokens, at) if opens(tokens[at]) else at + 1
        found[-1] += tokens[at:end]
        at = end
    return found


def opens(token: Token) -> bool:
    return token.kind == "symbol" and (token.text in ("(", "{", "'{") or token.text.startswith("["))
