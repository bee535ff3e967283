"""Colours of answers, at terminals."""

import os
import re
from typing import Any, Mapping

from aiger_check.statuses import Status

GREEN, RED, YELLOW, PLAIN = ("\033[32m", "\033[31m", "\033[33m", "\033[0m")
OF_STATUS = {Status.KEPT: GREEN, Status.BROKEN: RED}


def are_wanted(choice: str, stream: Any, settings: Mapping[str, str] = os.environ) -> bool:
    """Whether what goes to a stream is to have colours."""
    if choice != "auto":
        return choice == "always"
    is_dumb = settings.get("TERM", "dumb") == "dumb"
    return not settings.get("NO_COLOR") and not is_dumb and bool(stream) and bool(stream.isatty())


def coloured(said: str, status: Status) -> str:
    """The words of an answer in the colour of its status, without its reason or its file."""
    return re.sub(r"^[^:,]+", lambda match: f"{OF_STATUS.get(status, YELLOW)}{match[0]}{PLAIN}", said)
