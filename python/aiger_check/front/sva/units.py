"""What the assertions of a module have in common: clocks, conditions and names that are declared there."""

import re
from typing import Dict, List, Mapping, NamedTuple, Optional, Sequence, Set, Tuple

from aiger_check.front.sva.clocking import AT_EACH, clock_of_block, condition, edge_of
from aiger_check.front.sva.expressions import makes_property
from aiger_check.front.sva.items import Item, Scope
from aiger_check.front.sva.named import Body, Named
from aiger_check.front.sva.refusals import NotTaken
from aiger_check.front.sva.statements import text_at
from aiger_check.front.sva.tokens import Path, Source, Token, closing

CLOCKS_AND_CONDITIONS = ("default clocking", "default disable")


class Default(NamedTuple):
    """A clock or a condition by default: the name by which assertions have it, and where it stands."""

    name: str
    path: Path
    token: Token


class Clocking(NamedTuple):
    """A clocking block: the words of its clock, and where it stands."""

    words: List[Token]
    path: Path


class Declaration(NamedTuple):
    """A property or a sequence."""

    name: str
    body: Body
    scope: Scope
    path: Path


class Unit:
    """What is declared in one module."""

    def __init__(self, prefix: str) -> None:
        self.prefix = prefix
        self.clocks: List[Default] = []
        self.conditions: List[Default] = []
        self.declared: Dict[str, List[Declaration]] = {}
        #: clocking blocks by their names
        self.blocks: Dict[str, List[Clocking]] = {}

    @property
    def has_defaults(self) -> bool:
        return bool(self.clocks or self.conditions)

    def declare(self, item: Item, tokens: Sequence[Token]) -> str:
        """Takes a declaration, and gives what stands in its place."""
        if item.kind in ("property", "sequence"):
            self.name(item, tokens)
            return ""
        if item.scope.kind != "module":
            raise NotTaken(tokens[0], f"{item.kind} here", "write it in the module, outside of its blocks")
        if item.kind == "default disable":
            return self.disable(item, tokens)
        return self.clocking(item, tokens)

    def name(self, item: Item, tokens: Sequence[Token]) -> None:
        name, at, why = text_at(tokens, 1), 2, ""
        if text_at(tokens, at) != ";":
            why = "which has arguments"
        ends = [place for place, it in enumerate(tokens) if it.text in ("endproperty", "endsequence")]
        if not ends:
            raise NotTaken(tokens[0], f"{item.kind} without its end", f"write end{item.kind}")
        words = list(tokens[at + 1 : ends[0]])
        if words and words[-1].text == ";":
            words = words[:-1]
        if any(it.text == ";" for it in words):
            why = why or "which has variables"
        if {it.path for it in tokens} != {item.path}:
            why = why or "which has parts under `ifdef"
        self.declared.setdefault(name, []).append(Declaration(name, Body(words, why), item.scope, item.path))

    def disable(self, item: Item, tokens: Sequence[Token]) -> str:
        if [text_at(tokens, 2), text_at(tokens, len(tokens) - 1)] != ["iff", ";"] or len(tokens) < 5:
            raise NotTaken(tokens[0], "this default disable", "write default disable iff (rst);")
        text = condition(tokens[3:-1], Named({}))
        name = f"{self.prefix}disabled{len(self.conditions)}"
        self.conditions.append(Default(name, item.path, tokens[0]))
        return f"wire {name} = !(!( {text} ));"

    def clocking(self, item: Item, tokens: Sequence[Token]) -> str:
        if item.kind == "global clocking":
            raise NotTaken(tokens[0], "global clocking", AT_EACH)
        if item.kind == "default clocking" and text_at(tokens, 3) == ";":
            if text_at(tokens, 2) not in self.blocks:
                raise NotTaken(tokens[0], "a default clocking that was not declared before", AT_EACH)
            name, clock = "", self.block(tokens[2], item)
        else:
            name, clock = clock_of_block(tokens)
        if name:
            self.blocks.setdefault(name, []).append(Clocking(clock, item.path))
        if item.kind != "default clocking":
            return ""
        edge, wire = edge_of(clock, tokens[0]), f"{self.prefix}clock{len(self.clocks)}"
        polarity, _, text = edge.partition(" ")
        self.clocks.append(Default(f"{polarity} {wire}", item.path, tokens[0]))
        return f"wire {wire} = {text};"

    def block(self, token: Token, item: Item) -> List[Token]:
        """The words of the clock of a clocking block, spoken of by its name in an item."""
        found = self.blocks[token.text]
        if len(found) > 1 or item.path[: len(found[0].path)] != found[0].path:
            raise NotTaken(token, f"{token.text}, which depends on `ifdef,", AT_EACH)
        return found[0].words

    def default(self, found: Sequence[Default], item: Item, token: Token) -> Optional[str]:
        """The one that is so by default where an item stands."""
        if not found:
            return None
        if len(found) > 1 or item.path[: len(found[0].path)] != found[0].path:
            construct = "an assertion whose default clocking or disable iff depends on `ifdef"
            raise NotTaken(token, construct, "write its clock and its condition at the assertion")
        return found[0].name

    def named(self, item: Item) -> Dict[str, Body]:
        """The properties and sequences that an item may speak of."""
        found = {}
        for name, declarations in self.declared.items():
            body = declarations[0].body
            if len(declarations) > 1:
                body = Body([], "which is declared twice")
            elif declarations[0].scope != item.scope:
                body = Body([], "which is declared outside of this block")
            elif item.path[: len(declarations[0].path)] != declarations[0].path:
                body = Body([], "which depends on `ifdef")
            found[name] = body
        return found


CONCURRENT = re.compile(r"\b(?:assert|assume|cover|restrict)\s*(?:property|sequence)\b")
#: what only properties have
PIECES = re.compile(
    r"@|\|->|\|=>|##|\b(?:disable|throughout|within|intersect|first_match|until|s_until|s_eventually|strong|weak)\b"
)
USED = re.compile(r"`([A-Za-z_][\w$]*)")


def asserting(macros: Mapping[str, str], is_by_default: bool) -> Set[str]:
    """The macros out of which assertions come that Yosys does not take; or all of which assertions come."""
    found: Set[str] = set()
    for name, body in macros.items():
        if re.search(r"\b(?:endproperty|endsequence|endclocking|default\s+disable)\b", body):
            found.add(name)
        if any(is_by_default or is_temporal(body[it.end() :]) for it in CONCURRENT.finditer(body)):
            found.add(name)
    return users(found, macros)


def is_temporal(text: str) -> bool:
    """Whether what stands behind the word of an assertion is more than an expression."""
    tokens = Source(text, "").tokens
    end = closing(tokens, 0)
    inner, behind = tokens[1 : end - 1], text_at(tokens, end)
    return is_more(inner) or behind == "else" or behind.startswith("$") or behind == "begin"


def is_more(tokens: Sequence[Token]) -> bool:
    return any(makes_property(it) or it.text in ("@", "disable") for it in tokens)


def pieces(macros: Mapping[str, str]) -> Set[str]:
    """The macros that are a piece of a property."""
    return users({name for name, body in macros.items() if PIECES.search(body)}, macros)


def users(found: Set[str], macros: Mapping[str, str]) -> Set[str]:
    """These macros and those that use them."""
    before = -1
    while len(found) != before:
        before = len(found)
        found.update(name for name, body in macros.items() if found.intersection(USED.findall(body)))
    return found


def unit_names(units: Mapping[int, Unit]) -> Set[Tuple[int, str]]:
    """The names that are declared, each with the number of its module."""
    return {(number, name) for number, unit in units.items() for name in unit.declared}
