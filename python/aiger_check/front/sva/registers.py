"""The registers and expressions in which an assertion is written."""

import re
from typing import List, NamedTuple, Optional, Tuple

from aiger_check.front.sva.grammar import antecedent
from aiger_check.front.sva.refusals import CHECK_IT, REGISTERS, NotTaken
from aiger_check.front.sva.terms import (
    And,
    Antecedent,
    Both,
    Choice,
    Count,
    Delay,
    Either,
    Eventually,
    Implication,
    Not,
    Or,
    Property,
    Sequence,
    is_of_one_step,
)
from aiger_check.front.sva.tokens import Token


SAMPLED = re.compile(r"\$(?:past|rose|fell|stable|changed)\b|`")


class Statement(NamedTuple):
    """An assertion without what it is about: its word, its label, its clock's edge, and when it is disabled."""

    word: str
    label: Optional[str]
    edge: str
    disabled: Optional[str]
    token: Token


class Registers:
    """The registers of one assertion, and the values of one step that they take.

    A value is 1 in a step where some attempt of the assertion is at that point. Attempts that are at one point in one
    step have the same future, so one bit is enough for all of them.
    """

    def __init__(self, prefix: str, disabled: Optional[str]) -> None:
        self.prefix, self.count = prefix, 0
        self.values: List[Tuple[str, str]] = []
        self.declared: List[str] = []
        self.steps: List[str] = []
        self.start = "1'b1" if disabled is None else self.value(f"!( {disabled} )")

    def name(self) -> str:
        self.count += 1
        return f"{self.prefix}{self.count}"

    def value(self, text: str) -> str:
        """What is so in this step."""
        name = self.name()
        self.values.append((name, text))
        return name

    def written(self, edge: str) -> str:
        """Its text. What was before is known in an always block alone, so that values are variables of it where they
        ask for that, and wires elsewhere."""
        if any(SAMPLED.search(text) for _, text in self.values):
            self.declared += (f"reg {name};" for name, _ in self.values)
            self.steps = [*(f"{name} = {text};" for name, text in self.values), *self.steps]
        else:
            self.declared += (f"wire {name} = {text};" for name, text in self.values)
        return f"{' '.join(self.declared)} always @({edge}) begin {' '.join(self.steps)} end"

    def truth(self, expression: str) -> str:
        """Whether an expression is true, which may be wider than one bit."""
        return self.value(f"!(!( {expression} ))")

    def later(self, signal: str, count: Count) -> str:
        """The attempts that were at a point so many steps before, without those that were disabled since then."""
        if count == 0:
            return signal
        name, start = self.name(), self.start
        if isinstance(count, int):
            width, last, now = f"[{count - 1}:0] ", f"{name}[{count - 1}]", None
        else:
            # one bit more than is needed, since the constant may be 0
            width, now = f"[( {count} ):0] ", f"( {count} ) == 0"
            last = f"{name}[( {count} ) > 0 ? ( {count} ) - 1 : 0]"
        self.declared.append(f"reg {width}{name} = 0;")
        found = self.value(f"{last} && {start}" if now is None else f"{now} ? {signal} : {last} && {start}")
        self.steps.append(f"{name} <= {start} ? {{{name}, {signal}}} : 0;")
        return found

    def any_of(self, signals: List[str]) -> str:
        return signals[0] if len(signals) == 1 else self.value(" || ".join(signals))

    def delayed(self, signal: str, delay: Delay) -> str:
        """The attempts that may be behind a delay."""
        first = self.later(signal, delay.low)
        if delay.is_exact:
            return first
        found = [first]
        for _ in range(delay.more):
            found.append(self.later(found[-1], 1))
        return self.any_of(found)

    def matched(self, term: Antecedent, signal: str) -> str:
        """The attempts whose sequence matches in this step, of those that come to it by a signal."""
        if isinstance(term, Either):
            return self.any_of([self.matched(term.left, signal), self.matched(term.right, signal)])
        for part in term.parts:
            reached = self.delayed(signal, part.delay)
            signal = self.value(f"{reached} && {self.truth(part.expression)}")
        return signal

    def holds(self, term: Property) -> str:
        """Whether a property of one step is true."""
        if isinstance(term, Sequence):
            return self.truth(term.parts[0].expression)
        if isinstance(term, Not):
            return self.value(f"!{self.holds(term.inner)}")
        if isinstance(term, Choice):
            condition, chosen = self.truth(term.condition), self.holds(term.chosen)
            return self.value(f"{condition} ? {chosen} : {self.holds(term.other) if term.other else 1}")
        if isinstance(term, Implication):
            left = self.matched(term.left, "1'b1")
            return self.value(f"!{left} || {self.holds(term.right)}")
        if isinstance(term, Eventually):
            raise NotTaken(term.token, "s_eventually here", "write it alone, or behind |-> or |=>")
        left, right = self.holds(term.left), self.holds(term.right)
        operator = "&&" if isinstance(term, And) else "||" if isinstance(term, Or) else "=="
        return self.value(f"{left} {operator} {right}")

    def failed(self, term: Property, signal: str) -> List[str]:
        """Where attempts fail in this step, of those that come to a property by a signal."""
        if is_of_one_step(term):
            return [self.value(f"{signal} && !{self.holds(term)}")]
        if isinstance(term, Sequence):
            return self.missed(term, signal)
        if isinstance(term, Implication):
            reached = self.matched(term.left, signal)
            return self.failed(term.right, self.later(reached, 1) if term.is_next else reached)
        if isinstance(term, Not):
            return self.negated(term, signal)
        if isinstance(term, And):
            return self.failed(term.left, signal) + self.failed(term.right, signal)
        if isinstance(term, Choice):
            condition = self.truth(term.condition)
            found = self.failed(term.chosen, self.value(f"{signal} && {condition}"))
            other = self.value(f"{signal} && !{condition}")
            return found + (self.failed(term.other, other) if term.other else [])
        if isinstance(term, Or):
            now, then = (term.left, term.right) if is_of_one_step(term.left) else (term.right, term.left)
            if not is_of_one_step(now):
                raise NotTaken(term.token, f"{term.token.text} of two properties of several steps", REGISTERS)
            return self.failed(then, self.value(f"{signal} && !{self.holds(now)}"))
        if isinstance(term, Both):
            raise NotTaken(term.token, "iff of properties of several steps", REGISTERS)
        raise NotTaken(term.token, "s_eventually here", "write it alone, or behind |-> or |=>")

    def missed(self, term: Sequence, signal: str) -> List[str]:
        """Where a sequence can no longer match. A delay of several lengths may only be the last."""
        found = []
        for part in term.parts[:-1]:
            if not part.delay.is_exact:
                raise NotTaken(term.token, "##[M:N] in front of more", "write what follows as |-> or as registers")
            signal = self.later(signal, part.delay.low)
            truth = self.truth(part.expression)
            found.append(self.value(f"{signal} && !{truth}"))
            signal = self.value(f"{signal} && {truth}")
        last = term.parts[-1]
        waiting, truth = self.later(signal, last.delay.low), self.truth(last.expression)
        waiting = self.value(f"{waiting} && !{truth}")
        if not last.delay.is_exact:
            for _ in range(last.delay.more):
                waiting = self.value(f"{self.later(waiting, 1)} && !{truth}")
        return [*found, waiting]

    def negated(self, term: Not, signal: str) -> List[str]:
        """Where a sequence matches that must not."""
        inner = term.inner
        if isinstance(inner, Not):
            return self.failed(inner.inner, signal)
        if not isinstance(inner, Sequence) or not inner.is_exact:
            raise NotTaken(term.token, "not of a property of several steps", "write what must hold instead")
        return [self.matched(inner, signal)]

    def covered(self, term: Property, token: Token) -> str:
        """Where a property is met, and not by a left side that never matches."""
        signal = self.start
        while isinstance(term, Implication):
            reached = self.matched(term.left, signal)
            signal, term = self.later(reached, 1) if term.is_next else reached, term.right
        if isinstance(term, (And, Or, Sequence)):
            return self.matched(antecedent(term, token), signal)
        raise NotTaken(token, "a cover of this property", CHECK_IT)

    def pending(self, term: Property) -> str:
        """Whether what must come has come, for each attempt so far."""
        signal = self.start
        while isinstance(term, Implication):
            reached = self.matched(term.left, signal)
            signal, term = self.later(reached, 1) if term.is_next else reached, term.right
        if not isinstance(term, Eventually):
            raise AssertionError("the property ends with s_eventually")
        name = self.name()
        self.declared.append(f"reg {name} = 1'b0;")
        truth = self.truth(term.expression)
        found = self.value(f"({signal} || {name} && {self.start}) && !{truth}")
        self.steps.append(f"{name} <= {found};")
        return found


def ends_eventually(term: Property) -> bool:
    while isinstance(term, Implication):
        term = term.right
    return isinstance(term, Eventually)


def written(prefix: str, statement: Statement, term: Property) -> str:
    """The registers of an assertion, and what is asserted of the last one, on one line."""
    registers, word = Registers(prefix, statement.disabled), statement.word
    asked = f"{prefix}asked"
    if ends_eventually(term):
        if word not in ("assert", "assume"):
            raise NotTaken(statement.token, f"s_eventually of {word}", "write it of assert or assume")
        value, property_ = f"!{registers.pending(term)}", f"s_eventually {asked}"
    elif word == "cover":
        value, property_ = registers.covered(term, statement.token), asked
    else:
        value, property_ = f"!({' || '.join(registers.failed(term, registers.start))})", asked
    first = "1'b0" if word == "cover" else "1'b1"
    label = f"{statement.label}: " if statement.label else ""
    registers.declared.append(f"reg {asked} = {first};")
    registers.steps.append(f"{asked} <= {value};")
    return f"{registers.written(statement.edge)} {label}{word} property ({property_});"
