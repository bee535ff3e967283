"""The programs that run, and how they end."""

import contextlib
import os
import shutil
import signal
import subprocess
import threading
import time
from dataclasses import dataclass
from pathlib import Path
from typing import Any, List, NamedTuple, Optional, Sequence, Set

from aiger_check.faults import Stopped, Trouble

#: what asks a run to end: all signals that end a program unless it takes them, but those of its own faults
SIGNALS = tuple(
    getattr(signal, f"SIG{name}")
    for name in "INT TERM HUP QUIT ALRM VTALRM PROF USR1 USR2 XCPU POLL PWR STKFLT".split()
    if hasattr(signal, f"SIG{name}")
)


@dataclass(frozen=True)
class Finished:
    """How a program ended."""

    status: int
    output: str
    errors: str
    seconds: float
    late: bool


class Ran(NamedTuple):
    """A program that ran, and how it ended."""

    words: Sequence[str]
    folder: Path
    status: int
    seconds: float


class Children:
    """The programs that run. Each leads a group of processes, which is ended as a whole."""

    def __init__(self) -> None:
        self.lock = threading.Lock()
        self.running: Set["subprocess.Popen[bytes]"] = set()
        self.parts: List["Children"] = []
        #: what ran, in the order in which it ended
        self.ran: List[Ran] = []
        self.stopped = False

    def part(self) -> "Children":
        """Others, which are stopped with these, or before."""
        self.parts.append(Children())
        return self.parts[-1]

    def start(self, arguments: Sequence[str], **others: Any) -> "subprocess.Popen[bytes]":
        with self.lock:
            if self.stopped:
                raise Stopped
            try:
                child = subprocess.Popen(arguments, start_new_session=True, **others)
            except OSError as why:
                raise Trouble(f"cannot run {arguments[0]}: {why.strerror}") from why
            self.running.add(child)
            return child

    def end(self, child: "subprocess.Popen[bytes]") -> None:
        """Ends the group of a program, and waits for it."""
        with contextlib.suppress(ProcessLookupError, PermissionError):
            os.killpg(child.pid, signal.SIGKILL)
        child.wait()
        with self.lock:
            self.running.discard(child)

    def stop(self) -> None:
        """Ends all, and lets none start."""
        for part in self.parts:
            part.stop()
        with self.lock:
            self.stopped = True
            for child in self.running:
                with contextlib.suppress(ProcessLookupError, PermissionError):
                    os.killpg(child.pid, signal.SIGKILL)

    def run(
        self, arguments: Sequence[str], folder: Path, limit: Optional[float] = None, output: Optional[Path] = None
    ) -> Finished:
        """Runs a program in a folder, for so many seconds at most; its standard output may go to a file."""
        begun = time.monotonic()
        with contextlib.ExitStack() as stack:
            sink = stack.enter_context(open(output, "wb")) if output else subprocess.PIPE
            try:
                child = self.start(arguments, cwd=folder, stdin=subprocess.DEVNULL, stdout=sink, stderr=subprocess.PIPE)
            except Trouble as why:
                return Finished(127, "", str(why), 0.0, False)
            late = False
            try:
                told, errors = child.communicate(timeout=limit)
            except subprocess.TimeoutExpired:
                late, told, errors = True, b"", b""
            finally:
                self.end(child)
                for pipe in (child.stdout, child.stderr):
                    if pipe:
                        pipe.close()
        if self.stopped:
            raise Stopped
        words = [(text or b"").decode(errors="replace") for text in (told, errors)]
        seconds = time.monotonic() - begun
        self.ran.append(Ran(arguments, folder, child.returncode, seconds))
        return Finished(child.returncode, words[0], words[1], seconds, late)


def path_of(*names: str) -> Optional[str]:
    """The path of the first of these programs that there is."""
    for name in names:
        path = shutil.which(name)
        if path:
            return os.path.abspath(path)
    return None


def discard(path: Path) -> None:
    """Removes what a program has made there, whatever it is."""
    if path.is_dir() and not path.is_symlink():
        shutil.rmtree(path, ignore_errors=True)
    else:
        path.unlink(missing_ok=True)


def bytes_of(path: Path) -> bytes:
    """What a program has written there, if it is a file."""
    try:
        return path.read_bytes()
    except OSError:
        return b""
