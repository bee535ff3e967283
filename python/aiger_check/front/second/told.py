"""Assertions as statements that tell their value."""

import re
from dataclasses import dataclass
from typing import List, NamedTuple, Optional, Tuple

from aiger_check.front.second.faults import Unable
from aiger_check.front.second.statements import Found, Process, Walk
from aiger_check.front.second.tokens import MARK, Edits, Places, tokens_of

#: words of properties that are more than a value in a step
TEMPORAL = {"disable", "throughout", "until", "eventually", "s_eventually", "nexttime", "s_nexttime", "always"}
TEMPORAL |= {"within", "intersect", "first_match", "s_until", "s_always", "@", "##", "#", "strong", "weak", "not"}


@dataclass
class Statement:
    """An assertion of the text that tells its value: what it is, its label, and where it stands."""

    word: str
    label: str
    file: int
    line: int
    #: of which process it is, if it is of one
    process: Optional[int]
    is_clocked: bool
    is_initial: bool
    #: whether more than one edge has it looked at
    is_mixed: bool


class Telling:
    """A text whose assertions tell their values behind a mark that no design knows."""

    def __init__(self, text: str, mark: str) -> None:
        self.text, self.mark = text, mark
        self.tokens, self.places = tokens_of(text), Places(text)
        self.walk = Walk(self.tokens).all()
        self.numbers = {it.first: at for at, it in enumerate(self.walk.processes)}
        self.edits = Edits(text)
        self.statements: List[Statement] = []
        #: how many are more than a value in a step
        self.temporal = 0

    def telling(self) -> str:
        for found in self.walk.found:
            self.tell(found)
        for number in sorted({it.process for it in self.statements if it.process is not None}):
            self.begin(number)
        for target, last in self.walk.bound:
            self.bind(target, last)
        self.marked = self.edits.applied()
        return MARK.sub("", self.marked)

    def place_of_line(self, line: int) -> Tuple[int, int]:
        """The number of the user's file, and the line there, of a line of the text that tells."""
        start = sum(len(it) + 1 for it in self.marked.split("\n")[: line - 1])
        found = Places(self.marked).of(start + 40)
        return found or (0, line)

    def tell(self, found: Found) -> None:
        tokens = self.tokens
        opened, closed = found.condition
        start, end = tokens[found.first].start, tokens[min(found.last, len(tokens) - 1)].end
        if found.word == "cover":
            return self.edits.put(start, end, ";" if found.process else "")
        condition = self.text[tokens[opened].start : tokens[closed].end]
        words = {it.text for it in tokens[opened:closed]}
        # what an initial block looks at under a condition is looked at too late
        process = found.process
        is_later = process is not None and process.word == "initial" and self.has_branches(process)
        if is_later or words & TEMPORAL or re.search(r"\|\s*[-=]>", condition):
            self.temporal += 1
            return self.edits.put(start, end, "begin end" if process else "")
        self.edits.put(start, end, self.statement(found, MARK.sub("", condition)))

    def has_branches(self, process: Process) -> bool:
        return any(it.text in ("if", "case", "for", "while") for it in self.tokens[process.first : process.last])

    def statement(self, found: Found, condition: str) -> str:
        process, number = found.process, len(self.statements)
        word = "assume" if found.word == "restrict" else found.word
        file, line = self.places.of(self.tokens[found.first].start + 1) or (0, 0)
        which = self.numbers[process.first] if process else None
        is_initial = process is not None and process.word == "initial"
        is_clocked, is_mixed = process is not None and process.is_clocked, process is not None and process.is_mixed
        self.statements.append(Statement(word, found.label, file, line, which, is_clocked, is_initial, is_mixed))
        text = f'$display("{self.mark} {number} %0d %b %m", second_tb.at, !(!{condition}));'
        if not process:
            return f"always @(second_tb.sample) {text}"
        if is_initial and process:
            # at the end of the first step, when all has its first value
            self.beside(process, f"initial begin @(second_tb.sample); {text} end")
            return "begin end"
        return text

    def beside(self, process: Process, item: str) -> None:
        """Puts an item before a process, in the same scope."""
        start, end = self.tokens[process.first].start, self.tokens[min(process.last, len(self.tokens) - 1)].end
        if process.is_alone:
            self.edits.put(start, start, "begin ")
            self.edits.put(end, end, " end")
        self.edits.put(start, start, f"{item} ")

    def begin(self, number: int) -> None:
        """A process tells that it begins again, as then what it told before is no more so."""
        process = self.walk.processes[number]
        if process.is_clocked or process.word == "initial":
            return
        start, end = self.tokens[process.body].start, self.tokens[min(process.last, len(self.tokens) - 1)].end
        self.edits.put(start, start, f'begin $display("{self.mark} p{number} %0d 1 %m", second_tb.at); ')
        self.edits.put(end, end, " end")

    def bind(self, target: int, last: int) -> None:
        """Puts the instance of a bind into the module that it names."""
        name, tokens = self.tokens[target].text, self.tokens
        ends = [end for module, end in self.walk.ends if module == name]
        if len(ends) != 1 or tokens[target + 1].kind not in ("name", "escaped"):
            raise Unable("the target of a bind is not the name of one module")
        instance = self.text[tokens[target + 1].start : tokens[last].end]
        at = tokens[ends[0]].start
        self.edits.put(at, at, " ".join(MARK.sub("", instance).split()) + "\n")
        self.edits.put(tokens[target - 1].start, tokens[last].end, "")


TOLD = re.compile(r"(p?\d+) (-?\d+) ([01xz]) (.*)")


class Said(NamedTuple):
    """What was told once: by which statement, or p and the number of a process that begins; where, when, and the value."""

    who: str
    scope: str
    moment: int
    value: str


def all_said(output: str, mark: str) -> List[Said]:
    """What was told, in its order. The design itself says nothing, and does not know the mark."""
    found = []
    for line in output.split("\n"):
        match = TOLD.match(line[len(mark) + 1 :]) if line.startswith(mark) else None
        if match:
            value = "x" if match[3] == "z" else match[3]
            found.append(Said(match[1], match[4].strip(), int(match[2]), value))
    return found
