"""What ends a run without an answer, and how texts are shown."""


class Trouble(Exception):
    """What ends the run without an answer, in words for the user."""


class Stopped(Exception):
    """The run was asked to end."""


class Late(Exception):
    """The time for the whole is over, and the run does not end."""


def visible(text: str) -> str:
    """The text on one line: what cannot be printed is escaped."""
    return "".join(c if c.isprintable() else c.encode("unicode_escape").decode() for c in text)


class Usage(Exception):
    """The command line is refused."""
