"""Processes that a simulation may take in another way than Yosys: they read what their list does not name, or what
another one assigns at the same edge."""

import re
from typing import Any, Dict, Iterator, List, NamedTuple, Sequence, Set, Tuple

from aiger_check.front.arrays import Arrays, widths_of
from aiger_check.front.second.statements import Process, Walk
from aiger_check.front.second.tokens import Token, closing, tokens_of
from aiger_check.front.words import Source, Word
from aiger_check.front.yosys import bare

#: a name behind one of these begins an assignment, if it is one
BEFORE = (";", "begin", "end", ")", "else", ":", "fork", "*")


class Doubt(NamedTuple):
    """A reason, and the names of the nets of a module on which it bears."""

    reason: str
    module: str
    nets: Set[str]


class Body:
    """What a process reads, and assigns at once or behind all others."""

    def __init__(self, tokens: Sequence[Token], process: Process) -> None:
        self.process = process
        self.reads: Set[str] = set()
        self.at_once: Set[str] = set()
        self.behind: Set[str] = set()
        targets: Set[int] = set()
        # what follows the last word is looked at too
        for at in range(process.body, min(process.last + 1, len(tokens) - 3)):
            targets |= self.assigned(tokens, at)
            its = tokens[at]
            if its.kind in ("name", "escaped") and at not in targets and tokens[at - 1].text != ".":
                self.reads.add(bare(its.text))

    def assigned(self, tokens: Sequence[Token], at: int) -> Set[int]:
        """Takes the targets of an assignment that begins here, and gives where they stand."""
        before = tokens[at - 1].text in BEFORE or at == self.process.body
        if not before and not (tokens[at - 1].text == "(" and tokens[at - 2].text == "for"):
            return set()
        last = closing(tokens, at) if tokens[at].text == "{" else at
        names = {it for it in range(at, last + 1) if tokens[it].kind in ("name", "escaped")}
        while last + 2 < len(tokens) and tokens[last + 1].text in ("[", "."):
            last = closing(tokens, last + 1) if tokens[last + 1].text == "[" else last + 2
        sign = "".join(it.text for it in tokens[last + 1 : last + 3])
        if not names or sign == "==" or "=" not in sign and sign not in ("++", "--"):
            return set()
        where = self.behind if sign == "<=" else self.at_once
        where.update(bare(tokens[it].text) for it in names)
        return names


def tokens_of_dump(dump: str) -> List[Token]:
    """The words of what Yosys has read, without its directives."""
    plain = re.sub(r"`(?:file_push[^\n]*|file_pop|default_nettype\s+\w+|\w+)", lambda it: " " * len(it[0]), dump)
    # of @(*) the end would be taken for that of an attribute
    return tokens_of(re.sub(r"@\s*\(\s*\*\s*\)", lambda it: "@*".ljust(len(it[0])), plain))


class Processes:
    """The processes of one file."""

    def __init__(self, dump: str, nets: Dict[str, Set[str]]) -> None:
        self.tokens, self.nets = tokens_of_dump(dump), nets
        self.walk = Walk(self.tokens).all()
        self.bodies = [Body(self.tokens, it) for it in self.walk.processes]

    def module(self, process: Process) -> str:
        return next((bare(name) for name, end in self.walk.ends if end > process.last), "")

    def offset(self, process: Process) -> int:
        return self.tokens[process.first].start

    def doubts(self) -> Iterator[Tuple[int, Doubt]]:
        """Each with where its process begins."""
        for body in self.bodies:
            module = self.module(body.process)
            nets = self.nets.get(module, set())
            missing = sorted(self.unnamed(body) & nets)
            if missing:
                reason = f"this process is not started by {missing[0]}, which it reads: write always @*"
                yield self.offset(body.process), Doubt(reason, module, body.at_once | body.behind)
            raced = sorted(self.raced(body, module) & nets)
            if raced:
                reason = f"{raced[0]} is assigned at once at an edge at which another process reads it: write <="
                yield self.offset(body.process), Doubt(reason, module, set(raced))

    def unnamed(self, body: Body) -> Set[str]:
        """What a process without an edge reads and its list does not name as a whole."""
        first, last = body.process.event
        event = self.tokens[first : last + 1]
        words = [it.text for it in event]
        is_listed = last > first and not body.process.is_clocked and body.process.word == "always"
        if not is_listed or any(it in ("*", "(*") or it[0] == "$" for it in words):
            return set()
        whole = {bare(it.text) for it, behind in zip(event, words[1:] + [""]) if behind not in ("[", ".")}
        return body.reads - whole - body.at_once - body.behind

    def raced(self, body: Body, module: str) -> Set[str]:
        """What a clocked process assigns at once and another one of its module reads."""
        if not body.process.is_clocked:
            return set()
        others = (it for it in self.bodies if it is not body and it.process.is_clocked)
        read = (it.reads - it.at_once - it.behind for it in others if self.module(it.process) == module)
        return body.at_once & set().union(*read)


def of_files(source: Source, modules: Dict[str, Any]) -> List[Processes]:
    """The processes of all files."""
    nets: Dict[str, Set[str]] = {}
    for name, module in modules.items():
        its = nets.setdefault(bare(module["attributes"].get("hdlname", name)), set())
        its.update(re.split(r"\.", bare(it))[-1] for it in module["netnames"])
    return [Processes(dump, nets) for dump, _ in source.dumps]


def at_once(source: Source, files: Sequence[Processes]) -> Dict[str, Dict[str, str]]:
    """What clocked processes assign at once: by modules and names, each with the place of its process."""
    found: Dict[str, Dict[str, str]] = {}
    for (_, words), processes in zip(source.dumps, files):
        for body in processes.bodies:
            if body.process.is_clocked and body.at_once:
                place = source.place(word_at(words, processes.offset(body.process)))
                found.setdefault(processes.module(body.process), {}).update(dict.fromkeys(sorted(body.at_once), place))
    return found


def doubts(source: Source, modules: Dict[str, Any], files: Sequence[Processes]) -> Iterator[Doubt]:
    """The doubts of all files, each with its place."""
    widths = widths_of(list(modules.values()))
    for (_, words), processes in zip(source.dumps, files):
        for offset, doubt in (*processes.doubts(), *of_arrays(processes.tokens, widths)):
            place = source.place(word_at(words, offset))
            yield doubt._replace(reason=f"{place}: {doubt.reason}")


def of_arrays(tokens: Sequence[Token], widths: Dict[str, int]) -> Iterator[Tuple[int, Doubt]]:
    for offset, name in Arrays(tokens, widths).doubtful():
        reason = f"an index of {name} may be out of range, where Yosys takes another word"
        yield offset, Doubt(reason, "", {name})


def word_at(words: Sequence[Word], offset: int) -> Word:
    return next(word for word in words if word.offset == offset)
