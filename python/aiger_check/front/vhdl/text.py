"""What stands in a VHDL source: its assertions, and what ghdl loses without a word."""

import re
from typing import Dict, Iterator, List, NamedTuple, Set, Tuple

from aiger_check.faults import Trouble, visible

WORD = re.compile(
    r"""(?P<comment>--[^\n]*|/\*.*?(?:\*/|\Z))
    |(?P<string>"(?:[^"\n]|"")*")
    |(?P<extended>\\[^\\\n]*\\)
    |(?P<name>[A-Za-z\x80-\xff][\w\x80-\xff]*)
    |(?P<tick>'(?=\('[^\n]'\)))
    |(?P<character>'[^\n]')
    |(?P<number>[0-9][\w.\#]*)
    |(?P<blank>\s+)
    |(?P<sign>.)""",
    re.DOTALL | re.VERBOSE,
)
#: how a comment begins that is PSL
PSL = re.compile(r"--\s*psl\b", re.IGNORECASE)
#: an operator of PSL that says that something comes at last
STRONG = re.compile(r"\b(?:eventually|next(?:_event)?(?:_[ae])?|until_?|before_?)\s*!|\}\s*!", re.IGNORECASE)
#: what is refused, and what to write
REFUSED = {
    "rotate_left": "join slices by &",
    "rotate_right": "join slices by &",
    "rol": "join slices by &",
    "ror": "join slices by &",
    "sla": "write shift_left",
    "sra": "write shift_right",
}


class Word(NamedTuple):
    """A word, in lower case, and where it stands."""

    text: str
    line: int
    column: int


def words_of(text: str) -> List[Word]:
    """All words of a source but comments, of which those that are PSL count."""
    found: List[Word] = []
    line, start = 1, 0
    for match in WORD.finditer(PSL.sub(lambda it: " " * len(it[0]), text)):
        kind, its = match.lastgroup, match[0]
        if kind not in ("comment", "blank"):
            found.append(Word(its.lower() if kind == "name" else its, line, match.start() - start + 1))
        if "\n" in its:
            line += its.count("\n")
            start = match.start() + its.rindex("\n") + 1
    return found


class Asserted(NamedTuple):
    """An assertion of the source: where it begins, with its label, and whether a subprogram has it."""

    line: int
    column: int
    is_in_subprogram: bool


class Text:
    """A source as far as it is looked at here."""

    def __init__(self, text: str, name: str) -> None:
        self.name, self.words = name, words_of(text)
        self.refuse(text)
        self.subprograms = list(self.bodies())
        self.asserted = list(self.assertions())

    def word_at(self, line: int, column: int) -> str:
        return next((it.text for it in self.words if (it.line, it.column) == (line, column)), "")

    def refuse(self, text: str) -> None:
        for word in self.words:
            if word.text.startswith("\\"):
                self.fail(word.line, f"the name {word.text} between backslashes is not taken")
            if word.text in REFUSED:
                self.fail(word.line, f"{word.text} is not taken, as ghdl gets it wrong: {REFUSED[word.text]}")
        strong = STRONG.search(text)
        if strong:
            words = "a strong operator of PSL, with a !, is not taken, as ghdl never lets it fail"
            self.fail(text.count("\n", 0, strong.start()) + 1, words)

    def fail(self, line: int, words: str) -> None:
        raise Trouble(visible(f"{self.name}:{line}: {words}"))

    def bodies(self) -> Iterator[Tuple[int, int]]:
        """From which word to which one a subprogram has its body."""
        at = 0
        while at < len(self.words):
            if self.words[at].text in ("function", "procedure") and self.before(at) != "end":
                begin = self.body(at)
                if begin:
                    last = self.end(begin)
                    yield at, last
                    at = last
            at += 1

    def before(self, at: int) -> str:
        return self.words[at - 1].text if at else ""

    def body(self, at: int) -> int:
        """Where the body of a subprogram begins, if it has one."""
        depth = 0
        for here in range(at + 1, len(self.words)):
            text = self.words[here].text
            depth += (text == "(") - (text == ")")
            if depth == 0 and text == ";":
                return 0
            if depth == 0 and text == "is":
                return 0 if self.words[here + 1 : here + 2] and self.words[here + 1].text == "new" else here
        return 0

    def end(self, begin: int) -> int:
        """The word that ends a body: what has an end within is opened there."""
        depth = 0
        for here in range(begin + 1, len(self.words)):
            text, before = self.words[here].text, self.before(here)
            if text == "end":
                depth -= 1
                if depth < 0:
                    return here
            elif before != "end" and (text in ("if", "case", "loop", "record", "protected", "units")):
                depth += 1
            elif before != "end" and text in ("function", "procedure") and self.body(here):
                depth += 1
        return len(self.words) - 1

    def assertions(self) -> Iterator[Asserted]:
        for at, word in enumerate(self.words):
            if word.text != "assert":
                continue
            first = at - (self.before(at) == "postponed")
            if first >= 2 and self.words[first - 1].text == ":":
                first -= 2
            inside = any(begin < at < last for begin, last in self.subprograms)
            yield Asserted(self.words[first].line, self.words[first].column, inside)

    def reports(self) -> Iterator[int]:
        """The lines of reports that are no part of an assertion, and say that something is wrong."""
        for at, word in enumerate(self.words):
            if word.text == "report" and self.before(at) in ("then", "else", ";", "begin", "loop", "is", "=", ">", ":"):
                if self.is_severe(at):
                    yield word.line

    def is_severe(self, at: int) -> bool:
        while at + 1 < len(self.words) and self.words[at].text != ";":
            if self.words[at].text == "severity":
                return self.words[at + 1].text in ("error", "failure")
            at += 1
        return False


def lost(texts: Dict[str, Text], found: Set[Tuple[str, int, int]]) -> Iterator[str]:
    """Notes of assertions of which nothing comes."""
    asserted = ((name, it) for name, text in texts.items() for it in text.asserted)
    places = [f"{name}:{it.line}" for name, it in asserted if (name, it.line, it.column) not in found]
    if places:
        are = "no assertions come of these" if len(places) > 1 else "no assertion comes of this"
        why = "it is constant, in a subprogram or a branch that is never taken, or nowhere below the top"
        yield f"{', '.join(places)}: {are}: {why}"
    for name, text in texts.items():
        for line in text.reports():
            yield f"{name}:{line}: a report is no assertion, and is left out: write assert false"
