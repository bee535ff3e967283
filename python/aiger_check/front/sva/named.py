"""Properties and sequences that are spoken of by their names."""

from typing import Dict, List, NamedTuple

from aiger_check.front.sva.refusals import REGISTERS, NotTaken
from aiger_check.front.sva.tokens import Token, closing, spelled

DEEPEST = 20


class Body(NamedTuple):
    """What a name stands for, or why it cannot be spoken of here."""

    words: List[Token]
    refused: str = ""


class Named(NamedTuple):
    """The names that an assertion sees, and its clock."""

    bodies: Dict[str, Body]
    clock: str = ""
    depth: int = 0

    def words(self, token: Token) -> List[Token]:
        """The words of a name, without the clock where that is the assertion's own."""
        body = self.bodies[token.text]
        if body.refused:
            raise NotTaken(token, f"{token.text}, {body.refused},", "write what it stands for in its place")
        words = body.words
        if words and words[0].text == "@":
            end = closing(words, 1)
            if self.clock and spelled(words[1:end]) == self.clock:
                return words[end:]
        return words

    def deeper(self, token: Token) -> "Named":
        if self.depth > DEEPEST:
            raise NotTaken(token, "a property of itself", REGISTERS)
        return self._replace(depth=self.depth + 1)
