#!/usr/bin/env python3
"""Runs the rows of rows/small.py with little memory: from as much as lets the program begin to as much as it needs.

    tests/run/little_memory.py PROGRAM [--static] [NAME]     all rows, or those that have NAME in their names

fail_call.c tells whether the program began, or whether the loader could not make it ready before that. A static program
takes no such library: there it is the system that ends what it cannot load, by a signal, and does so no more from the
least limit on with which it can. A program that began answers as it would with ample memory, or that it is out of
memory, with status 1, and then it has sent nothing. The limit (`ulimit -v`) goes up in steps of a page until the row
was answered some times.

It is the system that lets a stack grow, at any call, and if there is no memory for that it ends the program by a
signal, which no program can answer. But 128 KB of it are there before a program begins (Linux gives them when it
loads it), so each row is also run with no more stack than these, arguments and environment among them, and must
be answered: then the stack never grows.

The last line is 'N passed, M failed', and counts runs.
"""
import collections
import functools
import os
import signal
import sys
from pathlib import Path

sys.dont_write_bytecode = True
sys.path[0] = str(Path(__file__).resolve().parent.parent)
from lib import runs
from rows import small

# in kilobytes: where the search for the beginning starts, its steps, those of the sweep, and the most there may be
FIRST, FAR, NEAR, MOST = 1024, 64, 4, 16384
# how often a row is to be answered
ANSWERS = 8
# how many kilobytes of stack there are before a program begins
STACK = 128
LIMITED = ["-c", 'ulimit -v "$0" && LD_PRELOAD=$PRELOAD exec "$@"']
WITH_STACK = ["-c", 'ulimit -s "$0" && exec "$@"']
# how the system ends a static program that it cannot load
UNLOADED = -signal.SIGSEGV


class Sweep:
    """A row, and what came of it with little memory."""

    def __init__(self, is_static, program, preload, under, number):
        self.row, self.came, self.wrong = small.ROWS[number], collections.Counter(), []
        self.is_static = is_static
        self.runner = runs.Runner("/bin/sh", under)
        self.environment = {"PRELOAD": preload, "STARTED": "started"}
        self.words = [program, *self.row.words.split()]
        for name, text in self.row.files.items():
            self.runner.put(name, text)

    def within(self, limit):
        """Whether the program began with so many kilobytes, and what came."""
        came = self.runner.run([*LIMITED, str(limit), *self.words], self.row.given, self.environment)
        if self.is_static:
            return came[2] != UNLOADED, came
        has_begun = os.path.exists("started")
        if has_begun:
            os.unlink("started")
        return has_begun, came

    def least(self):
        """A limit near the least with which the program begins."""
        return next((limit - FAR for limit in range(FIRST, MOST, FAR) if self.within(limit)[0]), MOST)

    def with_stack(self):
        """The row with so much stack and no more."""
        came = self.runner.run([*WITH_STACK, str(STACK), *self.words], self.row.given)
        self.came[f"answered with {STACK} KB of stack"] += 1
        if came != (self.row.output, b"", small.status_of(self.row)):
            self.wrong.append(f"{self.row.name}, {STACK} KB of stack: came {came!r}")

    def sweep(self):
        answers = {(b"", b"aiger: out of memory\n", 1): "out of memory"}
        answers[self.row.output, b"", small.status_of(self.row)] = "answered"
        was_loaded = False
        for limit in range(self.least(), MOST, NEAR):
            has_begun, came = self.within(limit)
            has_begun = has_begun or was_loaded
            was_loaded = self.is_static and has_begun
            kind = answers.get(came) if has_begun else "not begun" if came[2] and not came[0] else None
            self.came[kind or "wrong"] += 1
            if not kind:
                self.wrong.append(f"{self.row.name}, {limit} KB: came {came!r}")
            if self.came["answered"] == ANSWERS or len(self.wrong) > ANSWERS:
                return
        self.wrong.append(f"{self.row.name}: not answered with {MOST} KB")


def judged(is_static, *of_row):
    it = Sweep(is_static, *of_row)
    it.with_stack()
    it.sweep()
    return it.came, it.wrong


if __name__ == "__main__":
    program, *words = sys.argv[1:]
    is_static = words[:1] == ["--static"]
    runs.judge_rows(functools.partial(judged, is_static), program, *words[is_static:])
