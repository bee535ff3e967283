"""What a soak calls, and what holds of each answer."""
import collections
import dataclasses
import os
import re
import subprocess
from pathlib import Path

from lib import refusals

# how long a run may take, in seconds
PATIENCE = 20
# a binary file may have this many inputs without a line for them; with more it is read with a limit, and from the
# second number on there is no memory for them
WIDE, TOO_WIDE = 100_000, 2**29


@dataclasses.dataclass
class Call:
    """The words of a command line, its standard input, and the files that are there by name."""

    words: list
    given: bytes = b""
    files: dict = dataclasses.field(default_factory=dict)


class Failed(Exception):
    """What should hold, the call that shows that it does not, what was wanted and what came."""

    def __init__(self, what, call, wanted, came):
        super().__init__(what)
        self.what, self.call, self.wanted, self.came = what, call, wanted, came


class Round:
    """A round: its source of chance, the room in which its calls run, and the text that it is about."""

    def __init__(self, program, room, chance):
        self.program, self.room, self.chance = program, room, chance
        self.source, self.last, self.came = b"", Call([]), collections.Counter()

    def files(self):
        return {entry.name: Path(entry).read_bytes() for entry in os.scandir(self.room)}

    def left(self, name):
        """The bytes of a file that is there after the last call, if it is."""
        return self.files().get(name)

    def ask(self, call):
        """Standard output, standard error and the status. What holds of every run is looked at."""
        self.last = call
        for entry in os.scandir(self.room):
            os.unlink(entry)
        for name, text in call.files.items():
            (self.room / name).write_bytes(text)
        given = {"input": call.given, "capture_output": True, "cwd": self.room, "timeout": PATIENCE, "check": False}
        try:
            done = subprocess.run([self.program, *call.words], **given)
        except subprocess.TimeoutExpired:
            raise Failed("there is an answer in time", call, f"an answer within {PATIENCE} s", "none") from None
        came = done.stdout, done.stderr, done.returncode
        self.came[refusals.kind_of(came[1]) if came[1] else "answered"] += 1
        wrong = wrong_form(call, *came)
        if wrong:
            raise Failed("each run has the form of an answer", call, wrong, came)
        if done.returncode and self.files() != call.files:
            raise Failed("a refusal leaves the files as they were", call, call.files, self.files())
        return came

    def expect(self, what, call, *wanted):
        """Asks, and wants this output, and these errors and this status if they are not those of success."""
        wanted = (*wanted, b"", 0) if len(wanted) == 1 else wanted
        came = self.ask(call)
        if came != wanted:
            raise Failed(what, call, wanted, came)

    def accepted(self, source, *words):
        """What is written of a source that must be accepted."""
        call = Call(list(words), source)
        came = self.ask(call)
        if came[1:] != (b"", 0):
            raise Failed("the text is accepted", call, "status 0", came)
        return came[0]

    def converted(self, source, *words):
        return self.accepted(source, "aigtoaig", *words)

    def converts(self, what, wanted, source, *words):
        self.expect(what, Call(["aigtoaig", *words], source), wanted)


def is_denial(output):
    """Whether this is what is written for a witness that is not confirmed."""
    return output == b"not confirmed\n" or output.startswith(b"$comment not confirmed $end\n$version ")


def wrong_form(call, output, errors, status):
    """What should hold of any answer and does not hold of this one, if there is such a thing."""
    if status not in (0, 1, 2):
        return "status 0, 1 or 2"
    if status == 0:
        return "nothing on standard error" if errors else None
    if status == 1 and not errors and is_denial(output) and "--witness" in call.words:
        return None
    # where there is no command, help is told
    if status == 2 and errors.startswith((b"error: ", b"Tools for circuits in the AIGER format\n")):
        return "no output" if output else None
    if not refusals.kind_of(errors):
        return "one line 'aiger: ..' of a kind that is known on standard error"
    if errors == b"aiger: out of memory\n" and not may_lack_memory(call):
        return "memory is enough"
    may_write = call.words[0] == "aigsim" and "--batch" not in call.words and errors.endswith(b": bad stimulus line\n")
    return "no output" if output and not may_write else None


def inputs_without_lines(text):
    """How many inputs the header of a binary file has, or 0."""
    found = re.match(rb"aig +0*\d{1,10} +0*(\d{1,10})(?!\d)", text)
    return int(found[1]) if found else 0


def may_lack_memory(call):
    return any(inputs_without_lines(text) > WIDE for text in [call.given, *call.files.values()])
