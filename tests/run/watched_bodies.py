#!/usr/bin/env python3
"""Sees that tests fail with each wrong body tests/watched_bodies/CRATE/NAME.edit.

    tests/run/watched_bodies.py [CRATE ..]  tries those of the crates named, or of all: puts each into a copy of the sources
                                            and runs the tests there, a minute each, and two for those of the program
    tests/run/watched_bodies.py --places    sees that each of their old texts stands once, and runs nothing

No contract refuses these: none says which call of the runtime a device makes, that a file is synced, or what `main` hands
on. The tests are those of crates/test_failures, over a runtime in memory that watches its calls. With a body of the
program itself, it is proved and linked in a copy that takes over the work that earlier checks kept, and the tests are the
rows of end_to_end.sh on words. The edits have the form of those of wrong_bodies.py.

The last line is 'N passed, M failed'. The variable RT names another rt than the one on the PATH.
"""
import itertools
import os
import re
import shutil
import subprocess
import sys
import tempfile
from pathlib import Path

sys.dont_write_bytecode = True
sys.path[0] = str(Path(__file__).resolve().parent.parent)
from lib.bodies import RT, TOP, Unfit, WrongBody, crates, tell

BODIES = TOP / "tests" / "watched_bodies"
TESTS, PROGRAM = "test_failures", "aiger"
RESULT = re.compile(r"^test result: .* (\d+) passed; (\d+) failed", re.M)
ROWS_RESULT = re.compile(r"^(\d+) passed, (\d+) failed", re.M)
HOW = {"stdin": subprocess.DEVNULL, "stdout": subprocess.PIPE, "stderr": subprocess.STDOUT, "errors": "replace"}


def found(names):
    """The wrong bodies of these crates, or of all, by their crates, and why others cannot be tried."""
    bodies, unfit = [], []
    for path in sorted(BODIES.glob("*/*.edit")):
        if names and path.parent.name not in names:
            continue
        try:
            bodies.append((path.parent.name, WrongBody(path.parent.name, path)))
        except Unfit as why:
            unfit.append(f"{path.relative_to(TOP)}: {why}")
    return bodies, unfit


def counts_of(words, counts, folder, **variables):
    """How many tests passed and failed, by what these words say; None where they did not come to an end."""
    ran = subprocess.run(words, cwd=folder, env={**os.environ, **variables}, check=False, **HOW)
    ends = counts.findall(ran.stdout)
    return tuple(map(int, ends[-1])) if ends else print("\n".join(ran.stdout.splitlines()[-5:]))


def run_tests(room):
    """The tests of the crate for them, in the copy."""
    return counts_of([RT, "try", "--test", "--seconds", "300"], RESULT, room / TESTS)


def run_rows(room):
    """The rows on words, over the program that is proved and linked in the copy."""
    program = room / PROGRAM / "out" / PROGRAM
    for made in program, program.with_suffix(".stamp"):
        made.unlink(missing_ok=True)
    # (a wrong body may answer this by any status)
    ran = subprocess.run([RT, "run", "--", "--version"], cwd=room / PROGRAM, check=False, **HOW)
    if not program.exists():
        return print("\n".join(ran.stdout.splitlines()[-5:]))
    return counts_of([TOP / "tests" / "run" / "end_to_end.sh", "rows", "word"], ROWS_RESULT, TOP, AIGER=str(program))


def put_in(room, crate, body):
    """Puts the body in, and answers how to take it out again."""
    were = {room / crate / it.file: (room / crate / it.file).read_text(encoding="utf-8") for it in body.changes}
    for it in body.changes:
        path = room / crate / it.file
        path.write_text(it.made(path.read_text(encoding="utf-8")), encoding="utf-8")
    return lambda: [path.write_text(text, encoding="utf-8") for path, text in were.items()]


def why_wrong(room, run, crate, body):
    """Why these tests do not refuse a body, if they do not."""
    take_out = put_in(room, crate, body)
    counts = run(room)
    take_out()
    if counts is None:
        return f"{body.label}: the tests did not come to an end"
    print(f"{body.label}: {counts[1]} of {sum(counts)} tests fail", flush=True)
    return None if counts[1] else f"{body.label}: NO TEST FAILS"


def try_all(bodies, run, parts):
    """Why the bodies are not refused that are not, by these tests in a copy of these parts of each crate."""
    if not bodies:
        return []
    with tempfile.TemporaryDirectory(prefix="watched-bodies-") as folder:
        room = Path(folder) / "crates"
        shutil.copy2(TOP / "crates.txt", folder)
        for crate, part in itertools.product(crates(), parts):
            if (TOP / "crates" / crate / part).is_dir():
                shutil.copytree(TOP / "crates" / crate / part, room / crate / part)
        counts = run(room)
        if not counts or counts[1]:
            return [f"{body.label}: not tried, since the tests do not pass as they are" for _, body in bodies]
        return [why for why in (why_wrong(room, run, *it) for it in bodies) if why]


def main(words):
    bodies, unfit = found([it for it in words if it != "--places"])
    failures = unfit
    if "--places" not in words and not unfit:
        of_program = [it for it in bodies if it[0] == PROGRAM]
        failures = try_all([it for it in bodies if it not in of_program], run_tests, ["src"])
        failures += try_all(of_program, run_rows, ["src", "specs", "proofs", "out"])
    tell(failures)
    print(f"{max(len(bodies) + len(unfit) - len(failures), 0)} passed, {len(failures)} failed")
    return 1 if failures or not bodies else 0


if __name__ == "__main__":
    sys.exit(main(sys.argv[1:]))
