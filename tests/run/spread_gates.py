#!/usr/bin/env python3
"""A circuit of 1,000,000 gates in any order, with variables spread up to the largest, against the same in order.

    tests/run/spread_gates.py PROGRAM

What is in any order may take at most eight times the time of a processor: as ASCII, as binary, with a map, and back
by that map; and compared with itself, with variables up to nearly half of the largest. The least of some runs counts.
Each output is judged too: ASCII text is the file itself, and so is what comes back by the map; the image is its own
image; and a miter in binary is the image of that in ASCII.

The last line is 'N passed, M failed'.
"""
import os
import random
import sys
import tempfile
from pathlib import Path

sys.dont_write_bytecode = True
TESTS = Path(__file__).resolve().parent.parent
sys.path[:1] = [str(TESTS), str(TESTS.parent / "bench")]
import generate
from lib import counts

GATES = 1_000_000
TIMES = 8
RUNS = 2
# in the place of a file's name
GIVEN = "{}"
CONVERSIONS = {
    "to ASCII": (["aigtoaig", "--ascii"], "source"),
    "to binary": (["aigtoaig"], "source"),
    "with the map": (["aigtoaig", "--keep-map"], "source"),
    "by the map": (["aigtoaig", "--undo-map", "--ascii"], "with the map"),
}
COMPARISONS = {
    "a miter in ASCII": (["aigmiter", "--ascii", "-", GIVEN], "source"),
    "a miter in binary": (["aigmiter", "-", GIVEN], "source"),
}
SAME = [("source", "to ASCII"), ("source", "by the map"), ("to binary", "again")]
# what is made of a source, its largest variable, what is made an image again, and what is to be the same
CHECKS = [
    (CONVERSIONS, generate.LARGEST, "to binary", SAME),
    (COMPARISONS, generate.LARGEST // 2 - GATES, "a miter in ASCII", [("a miter in binary", "again")]),
]


def times_of(program, kinds, source):
    """The least time of each of these kinds, in seconds. What it gives is a file named by the source and the kind."""
    found = {}
    for kind, (words, of) in kinds.items():
        given = source if of == "source" else f"{source} {of}"
        found[kind] = min(time_of(program, words, given, f"{source} {kind}") for _ in range(RUNS))
    return found


def time_of(program, words, given, output):
    actions = [(os.POSIX_SPAWN_OPEN, 0, given, os.O_RDONLY, 0)]
    actions.append((os.POSIX_SPAWN_OPEN, 1, output, os.O_WRONLY | os.O_CREAT | os.O_TRUNC, 0o600))
    words = [given if it == GIVEN else it for it in words]
    _, ended, used = os.wait4(os.posix_spawn(program, [program, *words], {}, file_actions=actions), 0)
    if ended:
        counts.finish([f"{words} of {given} ended with {ended}"], 0)
    return used.ru_utime + used.ru_stime


def judged(program, folder, kinds, largest, again, alike):
    """Of each output, and of each time, what is wrong, if anything is."""
    lines = list(generate.lines(generate.far_gates(GATES), largest))
    shuffled, times = lines[:-GATES] + random.Random(1).sample(lines[-GATES:], GATES), {}
    for name, text in (("in order", lines), ("in any order", shuffled)):
        source = f"{folder}/{name}"
        Path(source).write_text("".join(text), encoding="ascii")
        times[name] = times_of(program, kinds, source)
        time_of(program, ["aigtoaig"], f"{source} {again}", f"{source} again")
        for of in alike:
            first, second = (Path(source if it == "source" else f"{source} {it}").read_bytes() for it in of)
            yield first != second and f"{of[1]}, {name}: wanted the same as {of[0]}"
    for kind, slow in times["in any order"].items():
        fast = times["in order"][kind]
        print(f"{kind}: {fast:.2f} s in order, {slow:.2f} s in any order, {slow / fast:.1f} times")
        yield slow > TIMES * fast and f"{kind}: wanted {TIMES} times at most"


def main(program):
    program, said = counts.need_program(program), []
    for check in CHECKS:
        with tempfile.TemporaryDirectory() as folder:
            said += judged(program, folder, *check)
    wrong = [it for it in said if it]
    counts.finish(wrong, len(said) - len(wrong))


if __name__ == "__main__":
    main(*sys.argv[1:])
