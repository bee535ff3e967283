"""How a run ends: by itself, or by a signal."""

import argparse
import contextlib
import os
import shutil
import signal
import sys
import tempfile
import threading
import time
from concurrent.futures import Future, wait
from pathlib import Path
from typing import Any, NoReturn, Optional

from aiger_check import PROGRAM
from aiger_check.faults import Late
from aiger_check.run import Run
from aiger_check.statuses import Status
from aiger_check.tools.processes import Children, SIGNALS


class Ended(BaseException):
    """A signal asked the run to end."""

    def __init__(self, number: int) -> None:
        super().__init__(number)
        self.number = number


def end_by(number: int, _: Any) -> None:
    raise Ended(number)


class Asked:
    """The signal that asked the run to end, if one did. It is only noted, so that it breaks nothing off."""

    def __init__(self) -> None:
        self.number: Optional[int] = None

    def note(self, number: int, _: Any) -> None:
        self.number = self.number or number


class Working(threading.Thread):
    """A run in a thread. The program does not wait for it at its end: it may be held where no signal reaches it, as
    where it opens a pipe into which nobody writes."""

    #: for how long it is waited for once all programs have been ended
    GRACE = 5.0

    def __init__(self, run: Run) -> None:
        super().__init__(daemon=True)
        self.asked = run
        self.result: "Future[Status]" = Future()

    def run(self) -> None:
        try:
            self.result.set_result(self.asked.status())
        except BaseException as why:  # pylint: disable=broad-except
            self.result.set_exception(why)

    def status(self, asked: Asked) -> Status:
        """Waits bit by bit, and looks in between whether a signal came."""
        while not wait([self.result], timeout=0.1).done:
            if asked.number:
                raise Ended(asked.number)
            if self.asked.is_overdue:
                raise Late("no time left, and what is made in memory does not end")
        return self.result.result()


def remove(folder: Path) -> None:
    """Removes a folder. A program that was killed may still write as it goes, so it is tried again for a while."""
    for _ in range(100):
        shutil.rmtree(folder, ignore_errors=True)
        if not folder.exists():
            return
        time.sleep(0.02)


def work(given: argparse.Namespace) -> Status:
    """Runs in a thread of its own, so that a signal ends nothing but the wait for it, and leaves nothing."""
    children, asked = Children(), Asked()
    signal.pthread_sigmask(signal.SIG_BLOCK, SIGNALS)
    for number in SIGNALS:
        if signal.getsignal(number) is end_by:
            signal.signal(number, asked.note)
    folder = Path(tempfile.mkdtemp(prefix=f"{PROGRAM}-")).resolve()
    working = Working(Run(given, folder, children))
    try:
        working.start()
        signal.pthread_sigmask(signal.SIG_UNBLOCK, SIGNALS)
        return working.status(asked)
    finally:
        children.stop()
        working.join(working.GRACE)
        remove(folder)
        # as the interpreter ends it lets signals end it, whatever the status is to be
        signal.pthread_sigmask(signal.SIG_BLOCK, SIGNALS)


def leave(status: int) -> NoReturn:
    """Ends the program, whatever threads there are: what they wait for may never come."""
    for stream in (sys.stdout, sys.stderr):
        with contextlib.suppress(OSError, ValueError):
            if stream:
                stream.flush()
    os._exit(status)


def open_descriptors() -> None:
    """Opens the null device for what is closed of the first three, so that no other file takes its place."""
    while True:
        descriptor = os.open(os.devnull, os.O_RDWR)
        if descriptor > 2:
            os.close(descriptor)
            return
