"""What Yosys has read: the words behind its preprocessor, each with its place."""

import functools
import re
from typing import Dict, Iterator, List, NamedTuple, Optional, Tuple

from aiger_check.front.sources import Sources

PIECE = re.compile(
    r"""`file_push\ "(?P<push>[^\n]*)"
    |`file_pop[^\n]*\n(?P<pop>)
    |(?P<comment>//[^\n]*|/\*.*?(?:\*/|\Z))
    |(?P<string>"(?:[^"\\]|\\.)*(?:"|\Z))
    |(?P<escaped>\\[!-~]+)
    |(?P<word>[`$]?\w[\w$]*)
    |(?P<line>\n)
    |(?P<other>[^\s\w])""",
    re.DOTALL | re.VERBOSE,
)
BEGIN, END = "-- Verilog code after preprocessor --\n", "-- END OF DUMP --\n"


class Word(NamedTuple):
    """A word, a string or a character of the source. The file is that of a copy."""

    text: str
    file: str
    line: int
    column: int
    #: where it stands in the text behind the preprocessor
    offset: int


def words(text: str) -> Iterator[Word]:
    """The words of a text behind the preprocessor."""
    file, line, start, above = "", 1, 0, []
    for piece in PIECE.finditer(text):
        kind, its = piece.lastgroup, piece[0]
        if kind == "push":
            above.append((file, line))
            file, line = piece["push"], 0
        elif kind == "pop":
            file, line = above.pop()
            start = piece.end()
        elif kind not in ("comment", "line"):
            yield Word(its, file, line, piece.start() - start + 1, piece.start())
        if kind in ("comment", "line", "string") and "\n" in its:
            line += its.count("\n")
            start = piece.start() + its.rindex("\n") + 1


class Part(NamedTuple):
    """A module as it stands in the source, and its words."""

    name: Word
    words: List[Word]


def parts(found: List[Word]) -> Iterator[Part]:
    """The modules of the source."""
    begin: Optional[int] = None
    for at, word in enumerate(found):
        if word.text in ("module", "macromodule", "interface") and begin is None:
            begin = at
        elif word.text in ("endmodule", "endinterface") and begin is not None:
            name = begin + 1 + (found[begin + 1].text in ("automatic", "static"))
            yield Part(found[name], found[begin:at])
            begin = None


class Source:
    """All words that Yosys has read of the user's files."""

    def __init__(self, sources: Sources, dumps: List[str]) -> None:
        self.sources = sources
        texts = [text_of_dump(sources, name) for name in dumps]
        #: of each file its text and its words
        self.dumps = [(text, list(words(text))) for text in texts]
        self.words = [word for _, its in self.dumps for word in its]
        self.parts = list(parts(self.words))
        self.properties: Dict[str, List[Word]] = {}
        for word in self.words:
            if word.text in ("assert", "assume", "cover", "restrict"):
                self.properties.setdefault(word.file, []).append(word)

    def place(self, word: Word) -> str:
        return self.sources.shown(word.file, word.line)

    @functools.cached_property
    def at_place(self) -> Dict[Tuple[str, int, int], str]:
        """What stands where."""
        return {(word.file, word.line, word.column): word.text for word in self.words}

    def first(self, *texts: str) -> Optional[Word]:
        return next((word for word in self.words if word.text in texts), None)


def text_of_dump(sources: Sources, name: str) -> str:
    """What Yosys says of its preprocessor's work."""
    text = (sources.folder / name).read_text(encoding="latin-1")
    return text.partition(BEGIN)[2].rpartition(END)[0]
