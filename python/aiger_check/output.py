"""What goes to the standard output: a line for each answer, an object, or what the competition's checkers read."""

import argparse
import json
import sys
from typing import List, Sequence, Tuple

from aiger_check import colours, competition
from aiger_check.order import by_answer
from aiger_check.report import show
from aiger_check.statuses import status_of_one
from aiger_check.tallies import Answered, Tally


class Output:
    """Says each answer as it comes, or all at the end, where these are sorted by what they are."""

    def __init__(self, given: argparse.Namespace) -> None:
        self.given, self.has_colours = given, colours.are_wanted(given.color, sys.stdout)
        #: what is said at the end
        self.held: List[Tuple[Answered, str]] = []

    def add(self, it: Answered) -> None:
        """Takes an answer. What it was come by may be gone soon."""
        if self.given.sort == "answer":
            self.held.append((it, self.text(it)))
        elif not self.given.json:
            show(self.text(it))

    def text(self, it: Answered) -> str:
        if self.given.competition:
            return competition.block(*it)
        said = it.assertion.said(it.verdict)
        return f"{it.assertion}: {colours.coloured(said, status_of_one(*it)) if self.has_colours else said}"

    def end(self, tally: Tally, notes: Sequence[str]) -> None:
        """Says what is left, and what all answers come to."""
        if self.given.sort == "answer":
            self.held.sort(key=lambda held: by_answer(*held[0]))
            tally.answered.sort(key=lambda it: by_answer(*it))
        if self.given.json:
            show(json.dumps({**tally.records(), "notes": notes}))
            return
        for _, text in self.held:
            show(text)
        if not self.given.competition:
            show(tally.summary())
