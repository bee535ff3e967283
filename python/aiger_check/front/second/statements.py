"""Where the processes and the assertions of a Verilog text stand."""

from dataclasses import dataclass, field
from typing import Callable, List, Optional, Sequence, Tuple

from aiger_check.front.second.tokens import Token, closing

ASSERTS = ("assert", "assume", "cover", "restrict")
PROCESSES = ("always", "always_comb", "always_ff", "always_latch", "initial", "final")
#: what has an end of its own in which there is no process
CLOSED = {
    "function": "endfunction",
    "task": "endtask",
    "property": "endproperty",
    "sequence": "endsequence",
    "clocking": "endclocking",
    "covergroup": "endgroup",
    "class": "endclass",
    "specify": "endspecify",
    "primitive": "endprimitive",
    "table": "endtable",
}
MODULES = ("module", "macromodule", "interface", "package", "program")
LOOPS = ("for", "while", "repeat", "foreach", "wait")


@dataclass
class Process:
    """An always or initial: its words from one to another, and by what it is started."""

    word: str
    first: int
    last: int = 0
    #: the words of its event control
    event: Tuple[int, int] = (0, 0)
    body: int = 0
    is_clocked: bool = False
    #: whether more than one edge starts it
    is_mixed: bool = False
    #: whether it stands alone behind a generate's if or for
    is_alone: bool = False


@dataclass
class Found:
    """An assertion: its words from its label to its semicolon, those of its condition, and its process."""

    word: str
    label: str
    first: int
    condition: Tuple[int, int]
    last: int
    is_concurrent: bool
    process: Optional[Process]


@dataclass
class Walk:
    """Goes through the words of a text."""

    tokens: Sequence[Token]
    processes: List[Process] = field(default_factory=list)
    found: List[Found] = field(default_factory=list)
    #: of each module the word that ends it
    ends: List[Tuple[str, int]] = field(default_factory=list)
    #: of each bind its target, and its words from the instance on
    bound: List[Tuple[int, int]] = field(default_factory=list)
    process: Optional[Process] = None

    def all(self) -> "Walk":
        at = 0
        while at < len(self.tokens):
            at = max(self.item(at), at + 1)
        return self

    def text(self, at: int) -> str:
        return self.tokens[at].text if at < len(self.tokens) else ""

    def items(self, at: int, end: str) -> int:
        """What stands in a module or a generate block, up to its end; gives what follows."""
        while at < len(self.tokens) and self.text(at) != end:
            at = max(self.item(at), at + 1)
        return at + 1

    def item(self, at: int, is_alone: bool = False) -> int:
        """One of those; gives what follows."""
        word = self.text(at)
        if word == "(*":
            return self.item(self.behind(at, "*)"), is_alone)
        if word in MODULES:
            return self.module(at)
        if word in PROCESSES:
            return self.always(at, is_alone)
        if self.assertion_at(at) is not None:
            return self.assertion(at)
        if word in CLOSED and not (word == "property" and self.text(at - 1) in ASSERTS):
            return self.behind(at, CLOSED[word])
        if word == "begin":
            return self.tail(self.items(self.name(at + 1), "end"))
        if word in ("if", "for"):
            at = self.item(closing(self.tokens, at + 1) + 1, True)
            return self.item(at + 1, True) if word == "if" and self.text(at) == "else" else at
        if word == "case":
            return self.cases(closing(self.tokens, at + 1) + 1, self.item)
        if word == "bind":
            last = self.simple(at)
            self.bound.append((at + 1, last - 1))
            return last
        if word in ("generate", "endgenerate", ";"):
            return at + 1
        return self.simple(at)

    def module(self, at: int) -> int:
        word, name = self.text(at), self.text(at + 1)
        name = self.text(at + 2) if name in ("automatic", "static") else name
        last = self.items(self.simple(at), {"macromodule": "endmodule"}.get(word, f"end{word}"))
        self.ends.append((name, last - 1))
        return self.tail(last)

    def always(self, at: int, is_alone: bool) -> int:
        process = Process(self.text(at), at, is_alone=is_alone)
        self.processes.append(process)
        here = at + 1
        if self.text(here) == "@":
            last = closing(self.tokens, here + 1) if self.text(here + 1) == "(" else here + 1
            process.event = here, last
            here = last + 1
        words = [self.text(it) for it in range(*process.event)]
        edges = words.count("posedge") + words.count("negedge")
        process.is_clocked, process.is_mixed, process.body = edges > 0, edges > 1, here
        self.process = process
        process.last = self.statement(here) - 1
        self.process = None
        return process.last + 1

    def statement(self, at: int) -> int:
        word = self.text(at)
        if word == "(*":
            return self.statement(self.behind(at, "*)"))
        if word in ("unique", "unique0", "priority"):
            return self.statement(at + 1)
        if self.assertion_at(at) is not None:
            return self.assertion(at)
        if word in ("begin", "fork"):
            return self.block(self.name(at + 1))
        if word == "if":
            at = self.statement(closing(self.tokens, at + 1) + 1)
            return self.statement(at + 1) if self.text(at) == "else" else at
        if word in ("case", "casez", "casex"):
            return self.cases(closing(self.tokens, at + 1) + 1, self.statement)
        if word in LOOPS:
            return self.statement(closing(self.tokens, at + 1) + 1)
        if word in ("forever", "do"):
            return self.statement(at + 1)
        if word in ("@", "#"):
            last = closing(self.tokens, at + 1) if self.text(at + 1) == "(" else at + 1
            return self.statement(last + 1)
        return self.simple(at)

    def block(self, at: int) -> int:
        while at < len(self.tokens) and self.text(at) not in ("end", "join", "join_any", "join_none"):
            at = max(self.statement(at), at + 1)
        return self.tail(at + 1)

    def cases(self, at: int, each: Callable[[int], int]) -> int:
        """The branches of a case, each behind its colon."""
        while at < len(self.tokens) and self.text(at) != "endcase":
            while at < len(self.tokens) and self.text(at) not in (":", "default", "endcase"):
                at = closing(self.tokens, at) + 1
            if self.text(at) == "endcase":
                break
            at += 1 + (self.text(at) == "default" and self.text(at + 1) == ":")
            at = max(each(at), at + 1)
        return at + 1

    def simple(self, at: int) -> int:
        """What goes up to a semicolon; gives what follows."""
        while at < len(self.tokens) and self.text(at) != ";":
            if self.text(at) in ("end", "endmodule", "endgenerate"):
                return at
            at = closing(self.tokens, at) + 1
        return at + 1

    def behind(self, at: int, end: str) -> int:
        """What follows behind the next such word."""
        while at < len(self.tokens) and self.text(at) != end:
            at += 1
        return at + 1

    def name(self, at: int) -> int:
        """What follows behind the name of a block, if it has one."""
        return at + 2 if self.text(at) == ":" else at

    tail = name

    def assertion_at(self, at: int) -> Optional[int]:
        """Where the word of an assertion stands that begins here, perhaps with its label."""
        word = at + 2 if self.text(at + 1) == ":" and self.tokens[at].kind in ("name", "escaped") else at
        return word if self.text(word) in ASSERTS else None

    def assertion(self, at: int) -> int:
        word = self.assertion_at(at) or at
        label = self.text(at).lstrip("\\") if word != at else ""
        opened = word + 1
        is_concurrent = self.text(opened) in ("property", "sequence")
        while opened < len(self.tokens) and self.text(opened) not in ("(", ";"):
            opened += 1
        closed = closing(self.tokens, opened)
        last = closed + 2 if self.text(closed + 1) == ";" else self.actions(closed + 1)
        kind = self.text(word)
        self.found.append(Found(kind, label, at, (opened, closed), last - 1, is_concurrent, self.process))
        return last

    def actions(self, at: int) -> int:
        """What is done where an assertion holds, or else."""
        if self.text(at) != "else":
            at = self.statement(at)
        return self.statement(at + 1) if self.text(at) == "else" else at
