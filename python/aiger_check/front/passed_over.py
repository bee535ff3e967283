"""What Yosys reads and takes in a way of its own, of which it says nothing."""

import re
from typing import Iterator, Sequence

from aiger_check.faults import Trouble, visible
from aiger_check.front.processes import tokens_of_dump, word_at
from aiger_check.front.second.statements import Process, Walk
from aiger_check.front.second.tokens import Token, closing
from aiger_check.front.words import Source, Word

#: attributes by which Yosys gives a net or its bits another meaning
OWN = ("init", "defaultvalue", "force_downto", "force_upto")
#: names that stand before a delay; behind any other one parameters follow
BEFORE_DELAY = {"assign", "always", "initial", "begin", "end", "else", "forever", "wire", "tri", "wand", "wor"}
BEFORE_DELAY |= {"and", "or", "nand", "nor", "xor", "xnor", "not", "buf", "bufif0", "bufif1", "notif0", "notif1"}
PROMISES = ("unique", "unique0", "parallel_case")


class PassedOver:
    """Looks at the words of one file behind the preprocessor."""

    def __init__(self, source: Source, dump: str, words: Sequence[Word]) -> None:
        self.source, self.words = source, words
        self.tokens = tokens_of_dump(dump)
        self.processes = Walk(self.tokens).all().processes if "#" in dump else []

    def refused(self, at: int, why: str) -> Trouble:
        return Trouble(visible(f"{self.place(at)}: {why}"))

    def place(self, at: int) -> str:
        return self.source.place(word_at(self.words, self.tokens[at].start))

    def text(self, at: int) -> str:
        return self.tokens[at].text if 0 <= at < len(self.tokens) else ""

    def delays(self) -> Iterator[int]:
        """Refuses what has a result of its own by a delay, and gives the other delays."""
        for at, token in enumerate(self.tokens):
            if token.text != "#" or "#" in (self.text(at - 1), self.text(at + 1)):
                continue
            before = self.tokens[at - 1]
            if before.kind in ("name", "escaped") and before.text not in BEFORE_DELAY:
                continue
            process = next((it for it in self.processes if it.first <= at <= it.last), None)
            if process and not self.is_late(process, at):
                instead = "give first values at once, and let clocks be inputs"
                raise self.refused(at, f"a delay in a process is not followed by Yosys: {instead}")
            yield at

    def is_late(self, process: Process, at: int) -> bool:
        """Whether this is the delay of a register behind the edge that it takes its value at."""
        return process.is_clocked and self.text(at - 2) + self.text(at - 1) == "<="

    def refuse(self) -> None:
        """Refuses attributes of Yosys's own, promises that a macro makes, and negative values of enums."""
        for at, token in enumerate(self.tokens):
            if token.kind == "attribute" and token.text == "(*":
                self.refuse_attribute(at)
            elif token.text in PROMISES:
                raise self.refused(at, f"a macro makes {token.text} of this: write it as it is")
            elif token.text == "notif0":
                raise self.refused(at, "notif0 is taken for notif1 by Yosys: write bufif0 of the negation")
            elif token.text == "enum":
                self.refuse_negative(at)
            elif token.text == "(" and self.text(at + 1) == ".":
                self.refuse_twice(at)

    def refuse_attribute(self, at: int) -> None:
        while at < len(self.tokens) and self.text(at) != "*)":
            if self.text(at) in OWN and self.text(at - 1) in ("(*", ","):
                raise self.refused(at, f"the attribute {self.text(at)} changes values in Yosys alone: leave it out")
            if self.text(at) in PROMISES:
                raise self.refused(at, f"a macro makes {self.text(at)} of this: write it as it is")
            at += 1

    def refuse_negative(self, at: int) -> None:
        """Yosys takes what an enum of integers has for unsigned."""
        while at < len(self.tokens) and self.text(at) not in ("{", ";"):
            at += 1
        for here in range(at, closing(self.tokens, at) if self.text(at) == "{" else at):
            if self.text(here) == "=" and self.text(here + 1) == "-":
                instead = "use a localparam"
                raise self.refused(here, f"a negative value of an enum is taken for a large one by Yosys: {instead}")

    def refuse_twice(self, at: int) -> None:
        """Yosys takes the last of two connections of one port."""
        found, here, last = set(), at + 1, closing(self.tokens, at)
        while here < last:
            if self.text(here) == "." and self.text(here - 1) in ("(", ","):
                name = self.text(here + 1)
                if name in found:
                    raise self.refused(here, f"{name} is connected twice")
                found.add(name)
            here = closing(self.tokens, here) + 1


def notes(source: Source) -> Iterator[str]:
    """Refuses what would have another meaning, and says which delays are left out."""
    places = []
    for dump, words in source.dumps:
        if not re.search(r"#|\(\*|enum|notif0|unique|parallel_case|\(\s*\.", dump):
            continue
        its = PassedOver(source, dump, words)
        its.refuse()
        places += [its.place(at) for at in its.delays()]
    if places:
        more = f", and {len(places) - 1} more" if len(places) > 1 else ""
        yield f"{places[0]}: this delay is left out{more}"
