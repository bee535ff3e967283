"""What all parts of a run share."""

import argparse
import sys
import threading
import time
from pathlib import Path
from typing import Callable, List, TypeVar

from aiger_check.doubts import Doubts
from aiger_check.faults import Stopped
from aiger_check.notes import Notes
from aiger_check.report import Progress
from aiger_check.tools.processes import Children, Ran

Result = TypeVar("Result")
#: how long what is made in memory may take once the time for the whole is over
GRACE = 20.0


class Session:
    """The command line of a run, its folder and its programs, what it notes, and why an answer may be none."""

    def __init__(self, given: argparse.Namespace, folder: Path, children: Children) -> None:
        self.given, self.folder, self.begun = given, folder, time.monotonic()
        #: the programs that translate and search, which are ended where the time for the whole is over; and those that
        #: keep what was found
        self.children, self.keeping = children.part(), children
        self.progress = Progress(sys.stderr.isatty() and not given.quiet)
        self.notes = Notes(given.quiet, self.progress)
        self.doubts = Doubts()

    def start(self) -> None:
        """From here on the time for the whole runs."""
        if self.given.timeout:
            timer = threading.Timer(self.given.timeout, self.children.stop)
            timer.daemon = True
            timer.start()

    def in_time(self, ask: Callable[[], Result], otherwise: Result) -> Result:
        """What comes of this, or something else where the time for the whole is over meanwhile."""
        try:
            return ask()
        except Stopped:
            if not self.is_late:
                raise
            return otherwise

    def ran(self) -> List[Ran]:
        """The programs that ran and have ended."""
        return [*self.children.ran, *self.keeping.ran]

    @property
    def is_overdue(self) -> bool:
        """Whether it is over for so long that what goes on does not end by itself."""
        return self.is_late and time.monotonic() > self.begun + self.given.timeout + GRACE

    @property
    def is_late(self) -> bool:
        """Whether the time for the whole is over."""
        return self.children.stopped and not self.keeping.stopped
