"""What ends a comparison."""


class Unable(Exception):
    """There is nothing to compare, in words for the user."""


class Refused(Exception):
    """A simulator refuses the design: for a reason of its own, or for one of the design."""

    def __init__(self, words: str, is_limit: bool) -> None:
        super().__init__(words)
        self.is_limit = is_limit
