"""The properties that are taken, read by the precedence of the standard."""

import re
from typing import Sequence as Words

from aiger_check.front.sva.expressions import expression, makes_property, opens
from aiger_check.front.sva.named import Named
from aiger_check.front.sva.refusals import REGISTERS, NotTaken, refuse_known
from aiger_check.front.sva.terms import (
    NEXT,
    NOW,
    And,
    Antecedent,
    Both,
    Choice,
    Delay,
    Either,
    Eventually,
    Implication,
    Not,
    Or,
    Part,
    Property,
    Sequence,
    after,
)
from aiger_check.front.sva.tokens import Token, closing, spelled

#: the longest delay and the most repetitions
LONGEST = 4096
MOST = 64
NUMBER = re.compile(r"\d[\d_]*")


class Parser:
    """Reads the words of one property."""

    def __init__(self, tokens: Words[Token], named: Named, place: Token) -> None:
        self.tokens, self.named, self.place, self.at = tokens, named, place, 0

    def peek(self) -> str:
        return self.tokens[self.at].text if self.at < len(self.tokens) else ""

    def here(self) -> Token:
        return self.tokens[min(self.at, len(self.tokens) - 1)] if self.tokens else self.place

    def takes(self, *texts: str) -> bool:
        found = self.peek() in texts
        self.at += found
        return found

    def whole(self) -> Property:
        """The property of all words."""
        term = self.property()
        if self.at < len(self.tokens):
            raise NotTaken(self.here(), f"{self.peek()} here", REGISTERS)
        return term

    def property(self) -> Property:
        here = self.here()
        if self.takes("if"):
            return self.choice()
        if self.takes("s_eventually"):
            # what follows is one expression
            words, self.at = self.tokens[self.at :], len(self.tokens)
            if not words:
                raise NotTaken(here, "s_eventually of nothing", "write an expression behind it")
            return Eventually(expression(words, self.named.bodies), here)
        left = self.implied()
        operator = self.here()
        if not self.takes("|->", "|=>"):
            return left
        return Implication(antecedent(left, operator), operator.text == "|=>", self.property())

    def choice(self) -> Property:
        if self.peek() != "(":
            raise NotTaken(self.here(), "if without parentheses", "write if (a) b else c")
        end = closing(self.tokens, self.at)
        condition = expression(self.tokens[self.at : end], self.named.bodies)
        self.at = end
        chosen = self.property()
        return Choice(condition, chosen, self.property() if self.takes("else") else None)

    def implied(self) -> Property:
        left, here = self.alike(), self.here()
        return Or(Not(left, here), self.implied(), here) if self.takes("implies") else left

    def alike(self) -> Property:
        left, here = self.either(), self.here()
        return Both(left, self.alike(), here) if self.takes("iff") else left

    def either(self) -> Property:
        left, here = self.both(), self.here()
        while self.takes("or"):
            left = Or(left, self.both(), here)
            here = self.here()
        return left

    def both(self) -> Property:
        left = self.negated()
        while self.takes("and"):
            left = And(left, self.negated())
        return left

    def negated(self) -> Property:
        here = self.here()
        return Not(self.negated(), here) if self.takes("not") else self.sequence()

    def sequence(self) -> Property:
        """Expressions with delays between; or a property in parentheses."""
        here = self.here()
        if self.peek() != "##":
            first = self.repeated()
            if self.peek() != "##":
                return first
            parts = list(self.parts_of(first, here))
        else:
            parts = []
        while self.takes("##"):
            delay, here = self.delay(), self.here()
            more = self.parts_of(self.repeated(), here)
            parts += [Part(after(delay, more[0].delay), more[0].expression), *more[1:]]
        return Sequence(tuple(parts), here)

    def parts_of(self, term: Property, here: Token) -> Words[Part]:
        if not isinstance(term, Sequence):
            raise NotTaken(here, "a property inside a sequence", "write a sequence of expressions")
        return term.parts

    def delay(self) -> Delay:
        """What stands behind ##."""
        here, text = self.here(), self.peek()
        if here.text.startswith("["):
            end = closing(self.tokens, self.at)
            words, self.at = self.tokens[self.at : end], end
            return span(words, here)
        if here.kind == "symbol" and text == "(":
            end = closing(self.tokens, self.at)
            words, self.at = self.tokens[self.at : end], end
            count = expression(words, self.named.bodies)
            return Delay(count)
        if here.kind not in ("number", "word", "macro", "escaped"):
            raise NotTaken(here, "this delay", "write ##N, or ##[M:N] with numbers")
        self.at += 1
        if NUMBER.fullmatch(text):
            return Delay(number(here))
        while self.peek() == "::":
            text += "::" + self.tokens[self.at + 1].text if self.at + 1 < len(self.tokens) else ""
            self.at += 2
        return Delay(f"{text} ")

    def repeated(self) -> Property:
        """An expression, or what stands in parentheses, so many times."""
        here, term = self.here(), self.primary()
        if self.peek() != "[*":
            return term
        bracket, end = self.here(), closing(self.tokens, self.at)
        words, self.at = self.tokens[self.at + 1 : end - 1], end
        times = number(words[0]) if len(words) == 1 and NUMBER.fullmatch(words[0].text) else 0
        if not 1 <= times <= MOST:
            raise NotTaken(bracket, "this repetition", f"write [*N] with a number from 1 to {MOST}, or registers")
        parts = list(self.parts_of(term, here))
        again = [Part(after(NEXT, parts[0].delay), parts[0].expression), *parts[1:]]
        if times * len(parts) > 4 * MOST:
            raise NotTaken(bracket, "so long a repetition", "write a counter in an always block")
        return Sequence(tuple(parts + again * (times - 1)), here)

    def primary(self) -> Property:
        first = self.at
        while self.at < len(self.tokens) and not self.ends():
            refuse_known(self.tokens[self.at])
            self.at = closing(self.tokens, self.at) if opens(self.tokens[self.at]) else self.at + 1
        words = self.tokens[first : self.at]
        if not words:
            raise NotTaken(self.here(), f"{self.peek() or 'nothing'} in the place of an expression", REGISTERS)
        if words[0].text == "(" and closing(words, 0) == len(words):
            if any(makes_property(it) or self.is_named(it) for it in words):
                return Parser(words[1:-1], self.named, words[0]).whole()
        if len(words) == 1 and self.is_named(words[0]):
            return self.body(words[0])
        return Sequence((Part(NOW, expression(words, self.named.bodies)),), words[0])

    def ends(self) -> bool:
        token = self.tokens[self.at]
        return makes_property(token) and (token.text in ("##", "[*", "|->", "|=>") or token.text in ENDS)

    def is_named(self, token: Token) -> bool:
        return token.kind == "word" and token.text in self.named.bodies

    def body(self, token: Token) -> Property:
        """What a name stands for."""
        return Parser(self.named.words(token), self.named.deeper(token), token).whole()


ENDS = {"and", "or", "iff", "implies", "else"}


def number(token: Token) -> int:
    found = int(token.text.replace("_", ""))
    if found > LONGEST:
        raise NotTaken(token, f"a delay of {token.text} steps", "write a counter in an always block")
    return found


def span(words: Words[Token], here: Token) -> Delay:
    """The two numbers of a delay."""
    texts = [it.text for it in words]
    if len(words) == 5 and texts[2] == ":" and NUMBER.fullmatch(texts[1]) and NUMBER.fullmatch(texts[3]):
        low, high = number(words[1]), number(words[3])
        if low <= high <= MOST * 4:
            return Delay(low, high - low)
    raise NotTaken(here, f"##{spelled(words)}", f"write ##[M:N] with two numbers up to {MOST * 4}")


def antecedent(term: Property, operator: Token) -> Antecedent:
    """The left side of an implication."""
    if isinstance(term, Sequence):
        return term
    if isinstance(term, Or):
        return Either(antecedent(term.left, operator), antecedent(term.right, operator))
    if isinstance(term, And):
        left, right = antecedent(term.left, operator), antecedent(term.right, operator)
        if isinstance(left, Sequence) and isinstance(right, Sequence) and left.is_boolean and right.is_boolean:
            both = f"( {left.parts[0].expression} ) && ( {right.parts[0].expression} )"
            return Sequence((Part(NOW, both),), left.token)
    raise NotTaken(operator, f"a property on the left of {operator.text}", "write a sequence of expressions there")
