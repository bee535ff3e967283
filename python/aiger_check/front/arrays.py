"""Arrays of several dimensions, of which Yosys makes one: an index out of range is then another word of it."""

import re
from typing import Any, Dict, Iterator, List, Sequence, Set, Tuple

from aiger_check.front.second.tokens import Token, closing
from aiger_check.front.yosys import bare

KINDS = ("reg", "logic", "bit", "wire", "integer", "int", "byte", "shortint", "longint")


class Arrays:
    """The arrays of several dimensions that a file declares, and where an index of one may be out of range."""

    def __init__(self, tokens: Sequence[Token], widths: Dict[str, int]) -> None:
        self.tokens, self.widths = tokens, widths
        #: of each the sizes of its dimensions, or 0 where that is no plain number
        self.sizes: Dict[str, List[int]] = {}
        self.declared: Set[int] = set()
        for at, token in enumerate(tokens):
            if token.text in KINDS and token.kind == "name":
                self.declare(at + 1)

    def brackets(self, at: int) -> List[Tuple[int, int]]:
        """The pairs of brackets that follow one another."""
        found: List[Tuple[int, int]] = []
        while at < len(self.tokens) and self.tokens[at].text == "[":
            found.append((at, closing(self.tokens, at)))
            at = found[-1][1] + 1
        return found

    def words(self, pair: Tuple[int, int]) -> str:
        return "".join(it.text for it in self.tokens[pair[0] + 1 : pair[1]])

    def declare(self, at: int) -> None:
        """Takes the names of a declaration, up to its end."""
        while at < len(self.tokens) and self.tokens[at].text not in (";", ")", "="):
            pairs = self.brackets(at)
            if not pairs and self.tokens[at].kind in ("name", "escaped"):
                behind = self.brackets(at + 1)
                if len(behind) > 1:
                    self.sizes[bare(self.tokens[at].text)] = [size_of(self.words(it)) for it in behind]
                    self.declared.add(at)
            at = pairs[-1][1] + 1 if pairs else at + 1

    def doubtful(self) -> Iterator[Tuple[int, str]]:
        """Each access by an index that may be out of range: where it stands in the text, and the array."""
        for at, token in enumerate(self.tokens):
            name = bare(token.text)
            if name in self.sizes and at not in self.declared:
                pairs = self.brackets(at + 1)[: len(self.sizes[name])]
                if not all(self.is_within(self.words(it), size) for it, size in zip(pairs, self.sizes[name])):
                    yield token.start, name

    def is_within(self, index: str, size: int) -> bool:
        """Whether an index is a number, or a name that is no net, or has no more values than there are words."""
        if re.fullmatch(r"\d+", index):
            return not size or int(index) < size
        width = self.widths.get(index, 0) if re.fullmatch(r"[A-Za-z_]\w*", index) else 64
        return width == 0 or 0 < (1 << width) <= size


def size_of(range_: str) -> int:
    """How many words a range from or to 0 has."""
    if re.fullmatch(r"\d+", range_):
        return int(range_)
    ends = re.fullmatch(r"(\d+):(\d+)", range_)
    return abs(int(ends[1]) - int(ends[2])) + 1 if ends and "0" in ends.groups() else 0


def widths_of(modules: Sequence[Dict[str, Any]]) -> Dict[str, int]:
    """How wide each name is at most; a name that is constant, as that of a loop, counts as none."""
    found: Dict[str, int] = {}
    for module in modules:
        for name, net in module["netnames"].items():
            varies = any(not isinstance(bit, str) for bit in net["bits"])
            last = bare(name).split(".")[-1]
            found[last] = max(found.get(last, 0), len(net["bits"]) if varies else 0)
    return found
