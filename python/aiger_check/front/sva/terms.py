"""What properties are made of."""

from dataclasses import dataclass
from typing import NamedTuple, Optional, Tuple, Union

from aiger_check.front.sva.tokens import Token

#: so many steps, or as many as a constant expression says
Count = Union[int, str]


class Delay(NamedTuple):
    """At least so many steps, and at most so many more."""

    low: Count
    more: int = 0

    @property
    def is_exact(self) -> bool:
        return self.more == 0


NOW = Delay(0)
NEXT = Delay(1)


def after(first: Delay, second: Delay) -> Delay:
    """One delay behind another."""
    return Delay(total(first.low, second.low), first.more + second.more)


def total(first: Count, second: Count) -> Count:
    if isinstance(first, int) and isinstance(second, int):
        return first + second
    if first == 0 or second == 0:
        return second if first == 0 else first
    return f"({first}) + ({second})"


class Part(NamedTuple):
    """A delay, then an expression that is true."""

    delay: Delay
    expression: str


@dataclass(frozen=True)
class Sequence:
    """Expressions, one behind the other."""

    parts: Tuple[Part, ...]
    token: Token

    @property
    def is_boolean(self) -> bool:
        return len(self.parts) == 1 and self.parts[0].delay == NOW

    @property
    def is_exact(self) -> bool:
        return all(part.delay.is_exact for part in self.parts)


@dataclass(frozen=True)
class Either:
    """One of two sequences, in front of an implication."""

    left: "Antecedent"
    right: "Antecedent"


Antecedent = Union[Sequence, Either]


@dataclass(frozen=True)
class Implication:
    """Whenever the left side matches, the right side holds, from the last step of the match or from the next one."""

    left: Antecedent
    is_next: bool
    right: "Property"


@dataclass(frozen=True)
class Not:
    inner: "Property"
    token: Token


@dataclass(frozen=True)
class And:
    left: "Property"
    right: "Property"


@dataclass(frozen=True)
class Or:
    left: "Property"
    right: "Property"
    token: Token


@dataclass(frozen=True)
class Choice:
    """One property where an expression is true, another or none where it is not."""

    condition: str
    chosen: "Property"
    other: Optional["Property"]


@dataclass(frozen=True)
class Both:
    """Two properties of one step, of which both hold or none."""

    left: "Property"
    right: "Property"
    token: Token


@dataclass(frozen=True)
class Eventually:
    """An expression that is true in this step or behind it."""

    expression: str
    token: Token


Property = Union[Sequence, Implication, Not, And, Or, Choice, Both, Eventually]


def is_of_one_step(term: Property) -> bool:
    """Whether a property is an expression of the step in which it is asked."""
    if isinstance(term, Sequence):
        return term.is_boolean
    if isinstance(term, Eventually):
        return False
    if isinstance(term, Not):
        return is_of_one_step(term.inner)
    if isinstance(term, Choice):
        return is_of_one_step(term.chosen) and (term.other is None or is_of_one_step(term.other))
    if isinstance(term, Implication):
        is_now = isinstance(term.left, Sequence) and term.left.is_boolean and not term.is_next
        return is_now and is_of_one_step(term.right)
    return is_of_one_step(term.left) and is_of_one_step(term.right)
