"""What is said: answers, notes, progress."""

import errno
import os
import shutil
import sys
import threading
import time

from aiger_check import PROGRAM
from aiger_check.answers import Assertion
from aiger_check.faults import Trouble


class Progress:
    """Which assertion is looked at, and how: on standard error, where that is a terminal."""

    def __init__(self, shown: bool) -> None:
        self.shown, self.lock, self.begun, self.width = shown, threading.Lock(), time.monotonic(), 0

    def tell(self, assertion: Assertion, what: str) -> None:
        if self.shown:
            self.put(f"{assertion}: {what}, {time.monotonic() - self.begun:.0f} s")

    def put(self, line: str) -> None:
        with self.lock:
            line = line[: shutil.get_terminal_size().columns - 1]
            sys.stderr.write("\r" + line.ljust(self.width))
            sys.stderr.flush()
            self.width = len(line)

    def clear(self) -> None:
        if self.width:
            self.put("")
            self.put("")


def say(words: str) -> None:
    print(f"{PROGRAM}: {words}", file=sys.stderr, flush=True)


def show(line: str) -> None:
    """Writes a line to the standard output; if that fails, nobody has the answers."""
    try:
        if not sys.stdout:
            raise OSError(errno.EBADF, os.strerror(errno.EBADF))
        print(line, flush=True)
    except OSError as why:
        sys.stdout = open(os.devnull, "w")
        raise Trouble(f"standard output: {why.strerror}") from why
