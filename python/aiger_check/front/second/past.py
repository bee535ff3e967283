"""Registers in the place of what a clocked block is told of the step before."""

import re
from typing import List, Optional, Tuple

from aiger_check.front.second.quiet import OF_PAST
from aiger_check.front.second.statements import Process, Walk
from aiger_check.front.second.tokens import Edits, Token, closing, tokens_of

#: how far back one may look
DEEPEST = 64
NAME = "second_past_"


class Past:
    """A text whose processes have registers for it, innermost calls first."""

    def __init__(self, text: str) -> None:
        self.text, self.made = text, 0

    def with_registers(self) -> str:
        while any(name in self.text for name in OF_PAST) and self.step():
            pass
        return self.text

    def step(self) -> bool:
        """Takes the innermost calls."""
        tokens = tokens_of(self.text)
        edits, before = Edits(self.text), self.made
        for process in Walk(tokens).all().processes:
            if process.is_clocked:
                self.take(tokens, process, edits)
        self.text = edits.applied()
        return self.made > before

    def take(self, tokens: List[Token], process: Process, edits: Edits) -> None:
        event = self.text[tokens[process.event[0]].start : tokens[process.event[1]].end]
        declared = []
        for at in range(process.first, process.last + 1):
            call = self.call(tokens, at)
            if call:
                last, inner, depth = call
                name = f"{NAME}{self.made}_"
                self.made += 1
                declared.append(registers(name, inner, depth, event))
                edits.put(tokens[at].start, tokens[last].end, told(tokens[at].text, f"{name}{depth}", inner))
        if declared:
            start, end = tokens[process.first].start, tokens[min(process.last, len(tokens) - 1)].end
            edits.put(start, start, ("begin " if process.is_alone else "") + " ".join(declared) + " ")
            if process.is_alone:
                edits.put(end, end, " end")

    def call(self, tokens: List[Token], at: int) -> Optional[Tuple[int, str, int]]:
        """Of a call that has no other in it its last word, what it asks of, and how many steps back."""
        if tokens[at].text not in OF_PAST or at + 1 >= len(tokens) or tokens[at + 1].text != "(":
            return None
        last = closing(tokens, at + 1)
        commas, here = [], at + 2
        while here < last:
            if tokens[here].text in OF_PAST:
                return None
            if tokens[here].text == ",":
                commas.append(here)
            here = closing(tokens, here) + 1
        end = commas[0] if commas else last
        depth = self.text[tokens[commas[0]].end : tokens[last].start].strip() if commas else "1"
        if not re.fullmatch(r"\d+", depth) or not 1 <= int(depth) <= DEEPEST:
            return None
        return last, re.sub(r"\s+", " ", self.text[tokens[at + 2].start : tokens[end].start]), int(depth)


def registers(name: str, inner: str, depth: int, event: str) -> str:
    """Declares registers, each a step behind the one before."""
    names = ", ".join(f"{name}{at + 1}" for at in range(depth))
    sources = [f"({inner})", *(f"{name}{at + 1}" for at in range(depth - 1))]
    moves = " ".join(f"{name}{at + 1} <= {source};" for at, source in enumerate(sources))
    return f"reg [$bits({inner})-1:0] {names}; always {event} begin {moves} end"


def told(word: str, name: str, inner: str) -> str:
    """What a call is worth, by the value before."""
    return {
        "$past": name,
        "$stable": f"({name} == ({inner}))",
        "$changed": f"({name} != ({inner}))",
        "$rose": f"(!({name} & 1'b1) && (({inner}) & 1'b1))",
        "$fell": f"(({name} & 1'b1) && !(({inner}) & 1'b1))",
    }[word]
