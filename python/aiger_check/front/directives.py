"""What of a source is changed before it is read: how it names included files, and what Yosys takes in a way of its own.
Each line stays where it is."""

import os
import re
from typing import Callable, List, Match, Set

from aiger_check.faults import Trouble, visible

#: what Yosys's own preprocessor takes for one word, and the words that are changed
WORD = re.compile(
    r"""(?P<comment>//[^\n]*|/\*.*?(?:\*/|\Z))
    |(?P<string>"(?:[^"\\]|\\.)*(?:"|\Z))
    |(?P<escaped>\\[!-~]*)
    |`include\b[ \t]*(?P<include>"[^"\n]*"|[^\s"]*)
    |(?P<line>`line[ \t]+\S+[ \t]+"[^"\n]*"(?:[ \t]+\d+)?)
    |(?P<inner>`file_(?:push|pop|notfound)\b)
    |(?P<parallel>\bparallel_case\b)
    |(?<![`$\w.])(?P<unique>unique0?)(?![$\w])
    |(?P<word>[`$]?\w[\w$]*)""",
    re.DOTALL | re.VERBOSE,
)


def named(text: str) -> str:
    """The name of a file, of a text that has a character for each byte."""
    return os.fsdecode(text.encode("latin-1"))


#: comments of old that Yosys takes for attributes
LEGACY = re.compile(r"((?:synopsys|synthesis)\b.*?)\bparallel_case\b", re.DOTALL)


class Changes:
    """The changes of one source: its text then, what strings it has, and whether it reads words of memories from
    files. `included` tells the other name of a file that is included in a line.

    Of a case the first item that matches is taken, whatever it promises of the others: by `unique` and `parallel_case`
    Yosys would take two at once.
    """

    def __init__(self, text: str, name: str, included: Callable[[str, int], str]) -> None:
        self.given, self.name, self.included = text, name, included
        self.strings: Set[str] = set()
        self.reads_words = False
        #: where a case promises that no two items match
        self.parallel: List[int] = []
        self.text = WORD.sub(self.changed, text)

    def line(self, word: Match[str]) -> int:
        return self.given.count("\n", 0, word.start()) + 1

    def changed(self, word: Match[str]) -> str:
        """What stands in the place of a word."""
        kind, text = word.lastgroup, word[0]
        if kind == "include":
            return f'`include "{self.included(named(word["include"].strip(chr(34))), self.line(word))}"'
        if kind == "inner":
            own = f"{text} is Yosys's own, and no directive of Verilog"
            raise Trouble(f"{visible(self.name)}:{self.line(word)}: {own}")
        if kind == "line":
            # places are those of the file that was given
            return " " * len(text)
        if kind in ("parallel", "unique") or kind == "comment" and LEGACY.search(text):
            self.parallel.append(self.line(word))
            plain = {"unique": "priority", "unique0": " " * len(text), "parallel_case": "parallel_cas_"}
            return plain.get(text) or LEGACY.sub(r"\1parallel_cas_", text)
        if kind == "string":
            self.strings.add(named(text[1:-1]))
        self.reads_words = self.reads_words or text in ("$readmemh", "$readmemb")
        return text
