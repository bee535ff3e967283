"""The items of a source: what stands in which module, and where assertions are."""

import bisect
from typing import List, NamedTuple, Optional, Sequence

from aiger_check.front.sva.expressions import opens
from aiger_check.front.sva.statements import behind_assertion, behind_semicolon, behind_statement, text_at
from aiger_check.front.sva.tokens import Branches, Path, Token, closing

ALWAYS = ("always", "always_ff", "always_comb", "always_latch", "initial", "final")
UNITS = ("module", "macromodule", "interface", "program", "package")
UNIT_ENDS = ("endmodule", "endinterface", "endprogram", "endpackage")
#: what has no items of its own, up to its end
WHOLE = {
    "function": "endfunction",
    "task": "endtask",
    "class": "endclass",
    "checker": "endchecker",
    "covergroup": "endgroup",
    "specify": "endspecify",
    "primitive": "endprimitive",
    "config": "endconfig",
    "property": "endproperty",
    "sequence": "endsequence",
    "clocking": "endclocking",
}
#: of these some are looked at
KINDS = ("checker", "property", "sequence", "clocking")
ASSERTING = ("assert", "assume", "cover", "restrict", "expect")
#: where items may be
HOLDERS = ("begin", "case")


class Scope(NamedTuple):
    """A module, a block of it, or the file; a block of a loop stands there many times."""

    kind: str
    parent: "Optional[Scope]"
    number: int

    def unit(self) -> "Scope":
        """The module around, or the file."""
        return self.parent.unit() if self.kind in HOLDERS and self.parent else self


class Item(NamedTuple):
    """Something that is looked at: from a word to behind another."""

    kind: str
    first: int
    end: int
    scope: Scope
    path: Path
    #: it stands alone under an if, else or for
    alone: bool


class Items:
    """Walks through the words of a source, and finds what is looked at."""

    def __init__(self, tokens: Sequence[Token]) -> None:
        self.tokens = tokens
        self.found: List[Item] = []
        self.numbers = 0
        #: where modules begin and end, and which
        self.places: List[int] = [0]
        self.units: List[int] = [0]
        self.scope, self.branches = Scope("file", None, 0), Branches()
        self.at, self.alone, self.was_alone = 0, False, False
        while self.at < len(tokens):
            self.was_alone, self.alone, before = self.alone, False, self.at
            self.scope = self.branches.at(tokens[self.at].path, self.scope)
            self.item()
            # odd text must not hold it up
            self.at = max(self.at, before + 1)

    def text(self, more: int = 0) -> str:
        return text_at(self.tokens, self.at + more)

    def add(self, kind: str, first: int, end: int) -> None:
        self.found.append(Item(kind, first, end, self.scope, self.tokens[first].path, self.was_alone))
        self.at = end

    def push(self, kind: str) -> None:
        self.numbers += 1
        self.scope = Scope(kind, self.scope, self.numbers)
        self.note_unit()

    def note_unit(self) -> None:
        self.places.append(self.at)
        self.units.append(self.scope.unit().number)

    def unit_at(self, at: int) -> int:
        """The number of the module in which a word stands."""
        return self.units[bisect.bisect(self.places, at) - 1]

    def pop(self, kinds: Sequence[str]) -> None:
        """Leaves the innermost scope of these kinds, if there is one."""
        scope: Optional[Scope] = self.scope
        while scope and scope.kind not in kinds:
            scope = scope.parent
        if scope and scope.parent:
            self.scope = scope.parent
        self.note_unit()

    def item(self) -> None:
        """One item at this place."""
        token, text = self.tokens[self.at], self.text()
        if self.scope.kind == "case" and not self.was_alone and text not in ("endcase", *UNITS, *UNIT_ENDS):
            self.case_label()
        elif token.kind == "macro":
            end = closing(self.tokens, self.at + 1) if self.text(1) == "(" else self.at + 1
            self.add("macro", self.at, end)
        elif token.kind == "word":
            if not (self.opened(text) or self.closed(text) or self.looked_at(text)):
                self.at = behind_semicolon(self.tokens, self.at)
        elif token.kind == "symbol" and not opens(token):
            self.at += 1
        elif token.kind == "symbol":
            # an attribute
            self.at = closing(self.tokens, self.at)
            self.alone = self.was_alone
        else:
            self.at = behind_semicolon(self.tokens, self.at)

    def case_label(self) -> None:
        while self.at < len(self.tokens) and self.text() not in (":", "begin", "endcase"):
            self.at = closing(self.tokens, self.at) if opens(self.tokens[self.at]) else self.at + 1
        self.at += self.text() == ":"
        self.alone = True

    def opened(self, text: str) -> bool:
        """Whether a scope begins here, or the head of a statement was taken."""
        if text in UNITS:
            while self.scope.parent:
                self.scope = self.scope.parent
            self.push(text)
            self.at = behind_semicolon(self.tokens, self.at)
        elif text == "begin":
            self.push("begin")
            self.at += 3 if self.text(1) == ":" else 1
        elif text in ("if", "for", "case", "casex", "casez") and self.text(1) == "(":
            self.at = closing(self.tokens, self.at + 1)
            if text in ("if", "for"):
                self.alone = True
            else:
                self.push("case")
        elif text in ("else", "generate", "endgenerate"):
            self.at += 1
            self.alone = text == "else"
        else:
            return False
        return True

    def closed(self, text: str) -> bool:
        """Whether a scope ends here."""
        if text in UNIT_ENDS:
            self.pop(UNITS)
        elif text == "end":
            self.pop(("begin",))
        elif text == "endcase":
            self.pop(("case",))
        else:
            return False
        self.at += 3 if self.text(1) == ":" else 1
        return True

    def looked_at(self, text: str) -> bool:
        """Whether an item is looked at, or known to have none."""
        first = self.at
        if text in ALWAYS:
            self.procedure(first, behind_statement(self.tokens, first + 1))
        elif text in WHOLE:
            self.whole(text, first)
        elif text in ("default", "global") and self.text(1) == "clocking":
            self.at += 1
            end = self.end_of("endclocking")
            # one that was declared before
            end = self.at + 3 if self.text(2) == ";" else end
            self.add(f"{text} clocking", first, end)
        elif text == "default" and self.text(1) == "disable":
            self.add("default disable", first, behind_semicolon(self.tokens, first))
        elif text in ASSERTING:
            self.add("assertion", first, behind_assertion(self.tokens, first))
        elif self.text(1) == ":" and self.text(2) in ASSERTING:
            self.add("assertion", first, behind_assertion(self.tokens, first + 2))
        else:
            return False
        return True

    def whole(self, text: str, first: int) -> None:
        end = self.end_of(WHOLE[text])
        if text in KINDS:
            self.add(text, first, end)
        else:
            self.procedure(first, end)

    def end_of(self, word: str) -> int:
        """Behind a word that ends something, and behind the name that may follow."""
        at = self.at
        while at < len(self.tokens) and text_at(self.tokens, at) not in (word, *UNIT_ENDS):
            at += 1
        if text_at(self.tokens, at) != word:
            return at
        return at + 3 if text_at(self.tokens, at + 1) == ":" else at + 1

    def procedure(self, first: int, end: int) -> None:
        """What is done in steps, with the assertions in it."""
        at, end = first, min(end, len(self.tokens))
        while at < end:
            token = self.tokens[at]
            if token.kind == "word" and token.text in ASSERTING and text_at(self.tokens, at - 1) != ".":
                labelled = text_at(self.tokens, at - 1) == ":" and self.tokens[at - 2].kind in ("word", "escaped")
                behind = behind_assertion(self.tokens, at)
                self.add("procedural", at - 2 if labelled else at, behind)
                at = max(at + 1, behind)
            elif token.kind == "macro":
                self.add("macro", at, at + 1)
                at += 1
            else:
                at += 1
        self.at = end
