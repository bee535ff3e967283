#!/usr/bin/env python3
"""Lets each read and each write of the program fail in turn, over the rows of rows/small.py.

    tests/run/failed_calls.py PROGRAM [NAME]     all rows, or those that have NAME in their names

Each row is run with its Nth read failing, N from 1 until no read fails, and so with its writes: with reads and
writes of one byte, so that a device fails behind each byte, and with large ones; by an error of the device, by
an interruption, and for a write by taking no byte. Then each row is run into a full device, into a pipe that
nobody reads, over a folder in the place of each file, and into a file that may have N bytes, N from 0 to as
many as there are. A failed read sends nothing, and of a simulation the lines before it; a failed write leaves a
beginning of the output. Both are told by their line, with status 1. Standard input that is cut before any of its
bytes is answered alike by small and by large reads.

The last line is 'N passed, M failed', and counts runs.
"""
import collections
import itertools
import os
import re
import resource
import sys
from pathlib import Path

sys.dont_write_bytecode = True
sys.path[0] = str(Path(__file__).resolve().parent.parent)
from lib import runs
from rows import small

PIECES = [1, 3, 0]
DEVICE_ERROR, INTERRUPTED, NO_BYTES = "5", "4", "0"
FULL, FOLDER = "/dev/full", "/"


class Calls:
    """A row, and the runs over it; what each is to answer, and what was otherwise."""

    def __init__(self, program, preload, under, number):
        self.row, self.preload, self.runner = small.ROWS[number], preload, runs.Runner(program, under)
        self.words, self.came, self.wrong = self.row.words.split(), collections.Counter(), []
        for name, text in self.row.files.items():
            self.runner.put(name, text)

    def judge(self, kind, wanted, came, of):
        self.came[kind] += 1
        if came != wanted:
            self.wrong.append(f"{self.row.name}, {kind}, {of}: wanted {wanted!r}, came {came!r}")

    def whole(self):
        return self.row.output, b"", small.status_of(self.row)

    def failing(self, piece, **variables):
        """Whether a call failed, and what came."""
        environment = {"LD_PRELOAD": self.preload, "FAILED": "failed", "PIECE": str(piece), **variables}
        came = self.runner.run(self.words, self.row.given, environment)
        failed = os.path.exists("failed")
        if failed:
            os.unlink("failed")
        return failed, came

    def read_in_order(self):
        """The names and the texts of what is read: the model, and then the stimulus."""
        texts = {**self.row.files, "-": self.row.given}
        named = [name for name in self.words if name in texts]
        return [(name, texts[name]) for name in (named if "-" in named else [*named, "-"])]

    def is_traced_line_by_line(self):
        return self.words[0] == "aigsim" and not {"--batch", "--witness"} & set(self.words)

    def parts(self):
        """The output by what a line of the trace adds to it: to a dump a frame, the head with the first. Its last time
        comes behind all of these."""
        if "--vcd" in self.words:
            return re.split(rb"(?<=\n)(?=#[1-9])", self.row.output)
        return self.row.output.splitlines(True)

    def sent(self, piece):
        """The writes of the row. A simulation sends the lines of all steps that have come before it reads again."""
        counts, lines = [], self.parts()
        if self.is_traced_line_by_line():
            _, steps = self.read_in_order()[-1]
            size = piece or len(steps)
            counts = [steps[:end].count(b"\n") for end in range(size, len(steps) + size, size)]
        # the last time of a dump is sent alone, but for that of a witness
        counts += [len(lines) - 1] * ("--vcd" in self.words and "--witness" not in self.words)
        texts = [b"".join(lines[first:last]) for first, last in itertools.pairwise([0, *counts, len(lines)])]
        size = piece or len(self.row.output)
        return [text[at : at + size] for text in texts for at in range(0, len(text), size)]

    def after_failed_read(self, number, piece, error):
        """What is wanted where this read fails. Of a file the program says why, in the words of the C library."""
        for name, text in self.read_in_order():
            # the last read of a file tells that it has ended
            count = 1 + (-(-len(text) // piece) if piece else 1)
            if number <= count:
                break
            number -= count
        before = text[: (number - 1) * piece] if piece else text if number > 1 else b""
        is_sent = self.is_traced_line_by_line() and name == self.read_in_order()[-1][0]
        lines = self.parts()[: before.count(b"\n")] if is_sent else []
        why = "" if name == "-" else f": {os.strerror(int(error))}"
        return b"".join(lines), f"aiger: {name}: cannot read{why}\n".encode(), 1

    def reads(self, piece, error):
        for number in range(1, 10**6):
            failed, came = self.failing(piece, FAIL_READ=str(number), ERROR=error)
            if not failed:
                break
            self.judge("failed reads", self.after_failed_read(number, piece, error), came, f"read {number} by {piece}")
        self.judge("runs in pieces", self.whole(), came, f"by {piece}")

    def writes(self, piece, error):
        for number in range(1, 10**6):
            failed, came = self.failing(piece, FAIL_WRITE=str(number), ERROR=error)
            if not failed:
                break
            wanted = b"".join(self.sent(piece)[: number - 1]), b"aiger: -: cannot write\n", 1
            self.judge("failed writes", wanted, came, f"write {number} by {piece}")
        self.judge("runs in pieces", self.whole(), came, f"by {piece}")

    def refused_output(self, kind, output):
        """The row with this output, a name or a descriptor, which takes nothing."""
        _, errors, status = self.runner.run(self.words, self.row.given, output=output)
        self.judge(kind, (b"aiger: -: cannot write\n", 1), (errors, status), "")

    def cuts(self):
        """Standard input cut before each byte, by reads of one byte and by large ones: it is answered alike."""
        for place in range(len(self.row.given)):
            slow, fast = (
                self.runner.run(self.words, self.row.given[:place], {"LD_PRELOAD": self.preload, "PIECE": piece})
                for piece in ("1", "0")
            )
            self.judge("cut files in pieces", fast, slow, f"before byte {place}")

    def streams(self):
        self.refused_output("full devices", FULL)
        reader, writer = os.pipe()
        os.close(reader)
        self.refused_output("closed pipes", writer)
        os.close(writer)
        for most in range(len(self.row.output)):
            # the limit is that of this process too, which writes nothing while it stands
            self.runner.put("given", self.row.given)
            resource.setrlimit(resource.RLIMIT_FSIZE, (most, resource.RLIM_INFINITY))
            came = self.runner.run(self.words, None)
            resource.setrlimit(resource.RLIMIT_FSIZE, (resource.RLIM_INFINITY, resource.RLIM_INFINITY))
            self.judge("limited files", (self.row.output[:most], b"aiger: -: cannot write\n", 1), came, f"{most} bytes")

    def folders(self):
        """A folder in the place of each file that is read."""
        for place, name in enumerate(self.words):
            if name in self.row.files:
                words = [*self.words[:place], FOLDER, *self.words[place + 1 :]]
                came = self.runner.run(words, self.row.given)
                self.judge("folders", (b"", b"aiger: /: cannot read: Is a directory\n", 1), came, name)
        came = self.runner.run(self.words, None, source=FOLDER)
        self.judge("folders", (b"", b"aiger: -: cannot read\n", 1), came, "standard input")


def judged(program, preload, under, number):
    it = Calls(program, preload, under, number)
    for piece in PIECES:
        for error in (DEVICE_ERROR, INTERRUPTED):
            it.reads(piece, error)
        for error in (DEVICE_ERROR, INTERRUPTED, NO_BYTES):
            it.writes(piece, error)
    it.cuts()
    it.streams()
    it.folders()
    return it.came, it.wrong


if __name__ == "__main__":
    runs.judge_rows(judged, *sys.argv[1:])
