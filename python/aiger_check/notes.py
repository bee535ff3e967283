"""What is said beside the answers."""

from typing import List

from aiger_check.report import Progress, say


class Notes:
    """Notes on standard error, each once, and all of them for --json."""

    def __init__(self, is_quiet: bool, progress: Progress) -> None:
        self.is_quiet, self.progress = is_quiet, progress
        self.all: List[str] = []

    def tell(self, words: str) -> None:
        """A note that changes no answer: --quiet drops it."""
        self.add(words, not self.is_quiet)

    def warn(self, words: str) -> None:
        """A note that changes what an answer means, or says why there is none: it is always said."""
        self.add(words, True)

    def add(self, words: str, is_said: bool) -> None:
        if words in self.all:
            return
        self.all.append(words)
        if is_said:
            self.progress.clear()
            say(words)
