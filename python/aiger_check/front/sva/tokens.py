"""The words of a SystemVerilog source, with their places and the conditions under which they are compiled."""

import re
from typing import Any, Dict, List, NamedTuple, Sequence, Tuple

#: the branches of `ifdef in which a word stands, each by the number of its `ifdef and of its branch
Path = Tuple[Tuple[int, int], ...]
SYMBOLS = (
    "<<<= >>>= |-> |=> <<< >>> === !== ==? !=? <-> ->> #-# #=# [-> &&& <<= >>= [* [= ## -> => *> && || == != <= >= << "
    ">> ** ++ -- += -= *= /= %= &= |= ^= :: := :/ ~& ~| ~^ ^~ +: -: '{ .*"
).split()
WORD = re.compile(
    r"(?P<blank>\s+|//[^\n]*|/\*.*?\*/)"
    r'|(?P<string>"(?:\\.|[^"\\])*")'
    r"|(?P<escaped>\\\S+)"
    r"|(?P<directive>`[A-Za-z_][\w$]*)"
    r"|(?P<system>\$[A-Za-z_][\w$]*)"
    r"|(?P<word>[A-Za-z_][\w$]*)"
    r"|(?P<number>(?:\d[\d_]*)?\s*'[sS]?[bBoOdDhH]\s*[0-9a-fA-FxXzZ?_]+|'[01xXzZ]|\d[\d_]*(?:\.\d+)?(?:[eE][+-]?\d+)?)"
    r"|(?P<symbol>" + "|".join(map(re.escape, SYMBOLS)) + r"|.)",
    re.DOTALL,
)
CONDITIONS = ("`ifdef", "`ifndef", "`elsif")
#: directives that reach to the end of their line
WHOLE_LINES = ("`include", "`timescale", "`default_nettype", "`undef", "`line", "`pragma", "`begin_keywords")
ALONE = ("`resetall", "`celldefine", "`endcelldefine", "`end_keywords", "`undefineall", "`nounconnected_drive")
LOGICAL_LINE = re.compile(r"(?:\\\r?\n|/\*.*?\*/|[^\n])*", re.DOTALL)
DEFINITION = re.compile(r"\s*([A-Za-z_][\w$]*)(.*)", re.DOTALL)


class Token(NamedTuple):
    """A word: what it is, its text, where it stands, and the branches around it."""

    kind: str
    text: str
    start: int
    end: int
    line: int
    path: Path


class Source:
    """The text of a source, its words, and the macros that it defines."""

    def __init__(self, text: str, name: str) -> None:
        self.text, self.name = text, name
        self.tokens: List[Token] = []
        self.macros: Dict[str, str] = {}
        #: where files are included
        self.includes: List[Token] = []
        self.path: List[Tuple[int, int]] = []
        self.conditions = 0
        self.read()

    def read(self) -> None:
        at, line = 0, 1
        while at < len(self.text):
            match = WORD.match(self.text, at)
            if not match:
                raise AssertionError("each character is a word at least")
            kind, end = str(match.lastgroup), match.end()
            if kind == "directive":
                end = self.directive(match[0], at, end, line)
            elif kind != "blank":
                self.add(kind, at, end, line)
            line += self.text.count("\n", at, end)
            at = end

    def add(self, kind: str, at: int, end: int, line: int) -> None:
        self.tokens.append(Token(kind, self.text[at:end], at, end, line, tuple(self.path)))

    def directive(self, name: str, at: int, end: int, line: int) -> int:
        """Takes a directive, or the use of a macro, and gives where it ends."""
        if name in CONDITIONS:
            end = self.condition(name, end)
        elif name == "`else":
            self.next_branch()
        elif name == "`endif":
            self.path = self.path[:-1]
        elif name in ("`define", *WHOLE_LINES):
            rest = LOGICAL_LINE.match(self.text, end)
            stop = rest.end() if rest else end
            if name == "`define":
                self.define(self.text[end:stop])
            elif name == "`include":
                self.includes.append(Token("directive", name, at, stop, line, tuple(self.path)))
            return stop
        elif name not in ALONE:
            self.add("macro", at, end, line)
        return end

    def condition(self, name: str, end: int) -> int:
        """Begins a branch, behind the macro on which it depends."""
        if name == "`elsif":
            self.next_branch()
        else:
            self.conditions += 1
            self.path.append((self.conditions, 0))
        macro = re.compile(r"[ \t]*[A-Za-z_][\w$]*").match(self.text, end)
        return macro.end() if macro else end

    def next_branch(self) -> None:
        if self.path:
            condition, branch = self.path[-1]
            self.path[-1] = (condition, branch + 1)

    def define(self, words: str) -> None:
        match = DEFINITION.match(re.sub(r"\\\r?\n", " ", words))
        if match:
            self.macros[match[1]] = self.macros.get(match[1], "") + match[2]


class Branches:
    """Something that is the same in front of each branch of an `ifdef, as how deep a word stands."""

    def __init__(self) -> None:
        self.before: Dict[int, Tuple[int, Any]] = {}

    def at(self, path: Path, now: Any) -> Any:
        """What is so at a word, of what is so by the words before it."""
        for condition, branch in path:
            known = self.before.setdefault(condition, (branch, now))
            if known[0] != branch:
                now = known[1]
                self.before[condition] = (branch, now)
        return now


def spelled(tokens: Sequence[Token]) -> str:
    """The words on one line, with a blank where there was one, or a line, or a comment."""
    parts: List[str] = []
    for at, token in enumerate(tokens):
        if at and tokens[at - 1].end != token.start:
            parts.append(" ")
        parts.append(re.sub(r"\s", "", token.text) if token.kind == "number" else token.text)
    return "".join(parts)


def closing(tokens: Sequence[Token], at: int) -> int:
    """Behind what closes the bracket at this place; the end if nothing does."""
    depth = 0
    for place in range(at, len(tokens)):
        text = tokens[place].text
        if tokens[place].kind != "symbol":
            continue
        if text in ("(", "{", "'{") or text.startswith("["):
            depth += 1
        elif text in (")", "]", "}"):
            depth -= 1
        if depth <= 0:
            return place + 1
    return len(tokens)
