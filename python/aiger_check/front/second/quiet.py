"""What a simulation of a design may not do, and what Yosys passes over, is taken out of its text."""

import os
import re
from pathlib import Path

from aiger_check.faults import Trouble
from aiger_check.front.files import content
from aiger_check.front.second.faults import Unable
from aiger_check.front.second.statements import Walk
from aiger_check.front.second.texts import Texts
from aiger_check.front.second.tokens import Edits, Places, Token, closing, tokens_of

#: functions of values alone
FUNCTIONS = {"signed", "unsigned", "clog2", "bits", "size", "left", "right", "low", "high", "increment", "dimensions"}
FUNCTIONS |= {"countones", "onehot", "onehot0", "isunknown", "rtoi", "itor", "ln", "log10", "exp", "sqrt", "pow"}
FUNCTIONS |= {"floor", "ceil", "sin", "cos", "tan", "asin", "acos", "atan", "atan2", "hypot", "unpacked_dimensions"}
#: what a clocked block is told of the step before
OF_PAST = {"$past", "$rose", "$fell", "$stable", "$changed"}
FREE = {"$anyconst", "$anyseq", "$allconst", "$allseq"}
#: tasks that Yosys passes over, as what they do is no matter of values
TASK = re.compile(
    r"\$(f?(display|write|strobe|monitor)[bho]?|finish|stop|exit|fatal|error|warning|info|dump\w*|timeformat"
    r"|printtimescale|assert\w*|fclose|fflush|monitoron|monitoroff)"
)
MEMORY = {"$readmemh", "$readmemb"}
#: what stands before a delay, and not before parameters
BEFORE_DELAY = {"=", "assign", ";", "begin", ")", "else", ":", "always", "initial", "forever", "end", "*/"}
BEFORE_DELAY |= {"]", "wire", "tri", "and", "or", "not", "buf", "xor", "nand", "nor", "xnor"}


#: what Yosys does not read
LEFT_OUT = re.compile(
    r"(//|/\*)[ \t]*(synopsys|synthesis)[ \t]+translate_off\b.*?"
    r"((//|/\*)[ \t]*(synopsys|synthesis)[ \t]+translate_on\b[^\n*]*(\*/)?|\Z)",
    re.S,
)


class Quiet:
    """A text without what would act on anything but values."""

    def __init__(self, text: str, folder: Path, texts: Texts) -> None:
        text = LEFT_OUT.sub(lambda match: "\n" * match[0].count("\n"), text)
        self.text, self.folder, self.texts, self.places = text, folder, texts, Places(text)
        self.tokens = tokens_of(text)
        self.edits = Edits(text)
        self.memories = 0

    def quieted(self) -> str:
        for at, token in enumerate(self.tokens):
            if token.kind == "system":
                self.system(at, token)
            elif token.text == "(*" and token.kind == "attribute":
                self.attribute(at)
            elif token.text == "#":
                self.delay(at)
            elif token.text in ("`timescale", "timeunit", "timeprecision"):
                self.scale(at, token)
            elif token.text == "import" and self.word(at + 1)[:1] == '"':
                raise Unable("functions of another language are not simulated")
        for process in Walk(self.tokens).all().processes:
            first, last = process.event
            if (
                process.word == "always"
                and last > first
                and {"*", "(*"} & {it.text for it in self.tokens[first : last + 1]}
            ):
                # a simulator does not begin with always @*
                self.edits.put(self.tokens[process.first].start, self.tokens[last].end, "always_comb")
        return self.edits.applied()

    def word(self, at: int) -> str:
        return self.tokens[at].text if 0 <= at < len(self.tokens) else ""

    def cut(self, first: int, last: int, new: str = "") -> None:
        """Takes words out, from one to another, and leaves their lines."""
        start, end = self.tokens[first].start, self.tokens[min(last, len(self.tokens) - 1)].end
        self.edits.put(start, end, new)

    def system(self, at: int, token: Token) -> None:
        name = token.text
        if name[1:] in FUNCTIONS or name in OF_PAST:
            return
        if name in FREE:
            self.free(at)
        elif name == "$initstate":
            self.cut(at, at, "second_tb.is_first")
        elif name in MEMORY:
            self.words_of(at)
        elif TASK.fullmatch(name) and self.word(at - 1) not in ("=", "(", ","):
            last = closing(self.tokens, at + 1) if self.word(at + 1) == "(" else at
            # as a statement, and else as an item of a module
            self.cut(at, last, "" if self.word(last + 1) == ";" else "begin end")
        else:
            raise Unable(f"{name} is not simulated")

    def free(self, at: int) -> None:
        """A net with what may be anything is one that nobody drives, and the testbench does."""
        name, sign = self.word(at - 2), self.word(at - 1)
        if sign == "=" and self.word(at + 1) == ";":
            if self.word(at - 3) == "assign":
                return self.cut(at - 3, at + 1)
            if re.fullmatch(r"[A-Za-z_]\w*", name) and self.word(at - 3) not in (";", "begin", ")", "else"):
                return self.cut(at - 1, at)
        raise Unable(f"{self.word(at)} stands in an expression")

    def attribute(self, at: int) -> None:
        last = at
        while last < len(self.tokens) and self.word(last) != "*)":
            last += 1
        names = {it.text for it in self.tokens[at:last]}
        if "gclk" in names:
            raise Unable("the global clock is used")
        self.cut(at, last)

    def delay(self, at: int) -> None:
        """Yosys passes over delays."""
        if self.word(at - 1) in BEFORE_DELAY:
            self.cut(at, closing(self.tokens, at + 1))

    def scale(self, at: int, token: Token) -> None:
        if token.kind == "directive":
            end = self.text.find("\n", token.start)
            self.edits.put(token.start, len(self.text) if end < 0 else end, "")
            return
        last = at
        while last < len(self.tokens) and self.word(last) != ";":
            last += 1
        self.cut(at, last)

    def words_of(self, at: int) -> None:
        """The file of a memory's words is copied to a plain name."""
        name = self.word(at + 2)
        if self.word(at + 1) != "(" or name[:1] != '"':
            raise Unable(f"the file of {self.word(at)} is not named by a text")
        (self.folder / f"memory{self.memories}.words").write_bytes(self.content(name[1:-1], self.tokens[at].start))
        self.cut(at + 2, at + 2, f'"memory{self.memories}.words"')
        self.memories += 1

    def content(self, name: str, start: int) -> bytes:
        """What stands in a file of words, which the first front end has copied beside the source."""
        number = (self.places.of(start) or (0, 0))[0]
        beside = os.path.dirname(self.texts.sources.folder / self.texts.places[number])
        try:
            return content(os.path.normpath(os.path.join(beside, name)))
        except Trouble as why:
            raise Unable("a file of words is not there") from why
