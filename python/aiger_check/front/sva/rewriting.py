"""Concurrent assertions of one clock, rewritten to what Yosys takes: registers, and an assertion of the last one."""

import bisect
import re
import zlib
from typing import Callable, Dict, List, Mapping, NamedTuple, Optional, Tuple

from aiger_check.front.sva.clocking import condition, edge_of, split, unfolded
from aiger_check.front.sva.grammar import Parser
from aiger_check.front.sva.items import Item, Items
from aiger_check.front.sva.named import Named
from aiger_check.front.sva.refusals import NotTaken, Refused
from aiger_check.front.sva.registers import Statement, written
from aiger_check.front.sva.statements import behind_property, need_droppable, text_at
from aiger_check.front.sva.terms import is_of_one_step
from aiger_check.front.sva.tokens import Source, Token, spelled
from aiger_check.front.sva.units import Unit, asserting, is_more, pieces, unit_names

PREFIX = "aiger_check_sva_"
DIRECTIVE = re.compile(r"`(?:ifn?def|elsif|else|endif|define|undef|include|line)\b")
#: without one of these a source has nothing to rewrite
WORDS = re.compile(r"property|sequence|clocking|disable|assert|assume|cover|expect|restrict|checker")
DECLARATIONS = ("property", "sequence", "clocking", "default clocking", "global clocking", "default disable")
OUTSIDE = "write it outside of the always block, with its clock, as @(posedge clk)"


class Rewritten(NamedTuple):
    """An assertion that was rewritten: its line, its label, what it was, and how its registers are called."""

    line: int
    label: str
    word: str
    prefix: str
    #: it has a disable iff
    is_disabled: bool
    #: it is of several steps
    is_long: bool


class Rewriting(NamedTuple):
    """A source whose assertions Yosys takes. In front of what is not taken stands an unknown macro, so that Yosys
    refuses it where it is compiled."""

    text: str
    taken: List[Rewritten]
    refused: Dict[str, Refused]


class Edit(NamedTuple):
    start: int
    end: int
    text: str


class Rewriter:
    """Rewrites one source."""

    def __init__(self, text: str, name: str, macros: Mapping[str, str]) -> None:
        self.text, self.file = text, name
        source = Source(text, name)
        self.tokens, self.includes = source.tokens, source.includes
        self.items = Items(source.tokens)
        known = {name: macros.get(name, "") + source.macros.get(name, "") for name in {**macros, **source.macros}}
        self.asserting, self.asserting_by_default = asserting(known, False), asserting(known, True)
        self.pieces = pieces(known)
        digest = zlib.crc32(f"{name}\n{text}".encode(errors="surrogateescape"))
        self.prefix = f"{PREFIX}{digest:08x}_"
        self.count = 0
        self.units: Dict[int, Unit] = {}
        self.edits: List[Edit] = []
        self.taken: List[Rewritten] = []
        self.refused: Dict[str, Refused] = {}

    def rewriting(self) -> Rewriting:
        self.each(self.declared)
        self.each(self.looked_at)
        self.refuse_left_names()
        self.refuse_includes()
        at, parts = 0, []
        for start, end, text in sorted(self.edits):
            parts += [self.text[at:start], text, "\n" * self.text.count("\n", start, end)]
            at = end
        return Rewriting("".join([*parts, self.text[at:]]), self.taken, self.refused)

    def each(self, look: Callable[[Item, List[Token]], None]) -> None:
        for item in self.items.found:
            words = list(self.tokens[item.first : item.end])
            try:
                look(item, words)
            except NotTaken as it:
                self.refuse(it, words[0])

    def refuse(self, it: NotTaken, place: Token) -> None:
        """Has Yosys end where this is compiled."""
        self.count += 1
        marker = f"{self.prefix}{self.count}_not_taken"
        self.refused[marker] = Refused(self.file, it.token.line, it.construct, it.hint)
        self.edits.append(Edit(place.start, place.start, f"`{marker} "))

    def replace(self, words: List[Token], text: str) -> None:
        start, end = words[0].start, words[-1].end
        if DIRECTIVE.search(self.text, start, end):
            raise NotTaken(words[0], "a directive inside an assertion or a declaration", "write it around the whole")
        self.edits.append(Edit(start, end, text))

    def unit(self, item: Item) -> Unit:
        number = item.scope.unit().number
        return self.units.setdefault(number, Unit(f"{self.prefix}{number}_"))

    def declared(self, item: Item, words: List[Token]) -> None:
        if item.kind in DECLARATIONS:
            kind = item.scope.unit().kind
            if kind != "module":
                raise NotTaken(words[0], f"{item.kind} outside of a module", "write it in the module where it is used")
            self.replace(words, self.unit(item).declare(item, words))

    def looked_at(self, item: Item, words: List[Token]) -> None:
        if item.kind == "checker":
            raise NotTaken(words[0], "checker", "write it as a module")
        if item.kind == "macro":
            self.macro(item, words)
        if item.kind in ("assertion", "procedural"):
            self.assertion(item, words)

    def macro(self, item: Item, words: List[Token]) -> None:
        name, unit = words[0].text[1:], self.unit(item)
        hint = "write the assertion itself in its place"
        if name in self.asserting:
            raise NotTaken(words[0], f"`{name}, out of which an assertion comes,", hint)
        if name in self.asserting_by_default and unit.has_defaults:
            raise NotTaken(words[0], f"`{name} beside default clocking or default disable iff", hint)
        if name in self.asserting_by_default and is_more(words):
            raise NotTaken(words[0], f"`{name} of a property", hint)

    def assertion(self, item: Item, words: List[Token]) -> None:
        """One assertion: it is left as it is, or its actions are left out, or it is rewritten."""
        at = 2 if text_at(words, 1) == ":" else 0
        word = words[at].text
        kind = text_at(words, at + 1)
        end = behind_property(words, at)
        if word == "expect" or kind not in ("property", "(", "final"):
            spoken = "expect" if word == "expect" else f"{word} {'#0' if kind == '#' else kind}"
            raise NotTaken(words[at], spoken, f"write {'assert' if word == 'expect' else word} property (..)")
        if kind == "property":
            first = at + 2
            if text_at(words, first) != "(" or end >= len(words):
                raise NotTaken(words[at], f"this {word} property", f"write {word} property (..);")
            if self.is_concurrent(item, words[first + 1 : end - 1]):
                self.concurrent(item, words, at, end)
                return
        if words[end:] and text_at(words, end) != ";":
            need_droppable(words[end:])
            self.replace(words[end:], ";")

    def is_concurrent(self, item: Item, inner: List[Token]) -> bool:
        """Whether it is more than an expression that is asked in each step."""
        unit = self.unit(item)
        if text_at(inner, 0) in ("s_eventually", "eventually") and not unit.has_defaults:
            inner = inner[1:]
        return unit.has_defaults or is_more(inner) or any(it.text in unit.declared for it in inner)

    def concurrent(self, item: Item, words: List[Token], at: int, end: int) -> None:
        """Rewrites an assertion whose keyword stands at a place, and whose parentheses end at another."""
        scope = item.scope.unit()
        if item.kind == "procedural":
            raise NotTaken(words[at], "a concurrent assertion in a procedure", OUTSIDE)
        if scope.kind not in ("module", "file"):
            raise NotTaken(words[at], f"a concurrent assertion inside {scope.kind}", "write it in a module")
        if item.alone:
            raise NotTaken(words[at], "an assertion alone under if, else or for", "write begin and end around it")
        need_droppable(words[end:])
        label = words[0].text if at else ""
        # Yosys has one name for all that come out of a loop
        shown = f"{label} " if label and item.scope.kind == "module" else None
        self.count += 1
        prefix = f"{self.prefix}{self.count}_"
        edge, disabled, rest, named = self.specified(item, words[at + 3 : end - 1], words[at])
        self.refuse_pieces(words[at + 3 : end - 1])
        term = Parser(rest, named, words[at]).whole()
        if not edge:
            raise NotTaken(words[at], "an assertion without a clock", "write @(posedge clk) in it")
        statement = Statement(words[at].text, shown, edge, disabled, words[at])
        self.replace(words, written(prefix, statement, term))
        is_long = not is_of_one_step(term)
        self.taken.append(Rewritten(words[0].line, label, statement.word, prefix, disabled is not None, is_long))

    def refuse_pieces(self, words: List[Token]) -> None:
        for token in words:
            if token.kind == "macro" and token.text[1:] in self.pieces:
                raise NotTaken(token, f"{token.text} of a property", "write what it stands for in its place")

    def specified(
        self, item: Item, inner: List[Token], place: Token
    ) -> Tuple[Optional[str], Optional[str], List[Token], Named]:
        """The edge of the clock, the condition by which it is disabled, and the words of a property."""
        unit = self.unit(item)
        named = Named(unit.named(item))
        given = unfolded(split(inner), named)
        clock = given.clock
        if len(clock) == 1 or len(clock) == 3 and clock[0].text == "(":
            name = clock[len(clock) // 2]
            clock = unit.block(name, item) if name.text in unit.blocks else clock
        edge = edge_of(clock, place) if clock else unit.default(unit.clocks, item, place)
        disabled = condition(given.disabled, named) or unit.default(unit.conditions, item, place)
        return edge, disabled, given.rest, named._replace(clock=spelled(given.clock))

    def refuse_left_names(self) -> None:
        """Refuses names of properties that stand where no assertion was taken."""
        names = unit_names(self.units)
        edits = sorted(self.edits)
        starts = [it.start for it in edits]
        for at, token in enumerate(self.tokens):
            if (self.items.unit_at(at), token.text) not in names or text_at(self.tokens, at - 1) == ".":
                continue
            edit = edits[bisect.bisect(starts, token.start) - 1]
            if not edit.start <= token.start < max(edit.end, edit.start + 1):
                why = NotTaken(token, f"{token.text} here", "speak of a property in assert property (..) alone")
                self.refuse(why, token)

    def refuse_includes(self) -> None:
        """Refuses to include files where assertions have a default that these would not have."""
        for token in self.includes:
            at = bisect.bisect([it.start for it in self.tokens], token.start)
            unit = self.units.get(self.items.unit_at(at - 1))
            if unit and unit.has_defaults:
                self.refuse(
                    NotTaken(token, "`include beside default clocking or default disable iff", "write it elsewhere"),
                    token,
                )


def rewritten(text: str, name: str, macros: Optional[Mapping[str, str]] = None) -> Rewriting:
    """The text of a source with its assertions rewritten; lines stay where they are. The macros are those of other
    files, by their names, as `macros_of` gives them."""
    others = macros or {}
    if not WORDS.search(text) and not any(WORDS.search(it) for it in others.values()):
        return Rewriting(text, [], {})
    return Rewriter(text, name, others).rewriting()


def macros_of(text: str) -> Dict[str, str]:
    """The macros that a source defines, with what they are."""
    return Source(text, "").macros if "`define" in text else {}
