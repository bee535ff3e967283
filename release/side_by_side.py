#!/usr/bin/env python3
"""Proves the program's crates side by side and links the program, for ./prove.

    release/side_by_side.py RT     in a copy of the sources; RT is the kit's command rt

`rt ci` over all crates gives each of them one processor while any other is ready, so it takes no less than the longest
chain of crates that stand on one another. Here each crate has a call of its own, `rt ci CRATE`, once those that it
stands on are proved: first those with the longest chains above them, which get two processors where no other crate
waits for the second. The last call is `rt ci`: it finds all others kept, proves the program's own crate and links it.
A kit before 13f takes no names of crates, and keeps nothing; there `rt ci` is the only call, and takes longer.
Prints what these calls say, a crate at a time. Ends with the worst status, or with that of the last call.
"""

import os
import re
import subprocess
import sys
from concurrent.futures import FIRST_COMPLETED, ThreadPoolExecutor, wait
from functools import cache
from pathlib import Path

PROCESSORS = len(os.sched_getaffinity(0))
PROGRAM = "aiger"
# rt takes a call with a name for no gate, and refuses it where this variable says that it runs as one.
ENVIRONMENT = {name: value for name, value in os.environ.items() if name != "CI"}

below = {}
for line in Path("crates.txt").read_text().splitlines():
    head, _, libraries = line.partition("#")[0].partition(":")
    if head.strip():
        below[head.split()[0]] = libraries.replace(",", " ").split()
below = {name: [it for it in libraries if it in below] for name, libraries in below.items()}


@cache
def chain(crate):
    """How many lines have the crate and the longest chain of crates above it."""
    files = [it for it in Path("crates", crate).rglob("*") if it.suffix in (".rt", ".antt")]
    lines = sum(it.read_bytes().count(b"\n") for it in files)
    return lines + max((chain(it) for it in below if crate in below[it]), default=0)


def call(rt, crates, processors):
    """Runs rt over these crates, or over all, and returns its status and what it said."""
    environment = ENVIRONMENT | ({"RT_JOBS": "1"} if processors == 1 else {})
    ended = subprocess.run(
        [rt, "ci", *crates], env=environment, stdin=subprocess.DEVNULL, stdout=subprocess.PIPE,
        stderr=subprocess.STDOUT, text=True, errors="replace")
    status = ended.returncode
    return status if status >= 0 else 128 - status, ended.stdout


def tell(said, known):
    """Prints what rt said, but for what is known: that these crates are kept, and that such a call is not the gate."""
    for line in said.splitlines():
        kept = re.match(r"rt: (\w+) is kept: ", line)
        if not (kept and kept[1] in known or re.search("not the gate", line)):
            print(line, flush=True)


class TakesNoNames(Exception):
    """This kit's `rt ci` takes no names of crates."""


def prove_libraries(rt):
    """Proves all crates but the program's own. Returns the worst status of these calls."""
    waiting = sorted(set(below) - {PROGRAM}, key=chain, reverse=True)
    idle, worst = PROCESSORS, 0
    proved, running = set(), {}
    with ThreadPoolExecutor(PROCESSORS) as pool:
        while True:
            # beside a crate that is not proved others go on; where rt ends otherwise, nothing more begins
            ready = [it for it in waiting if proved.issuperset(below[it])] if worst in (0, 1) else []
            for begun, crate in enumerate(ready[:idle]):
                share = 2 if idle > len(ready) - begun else 1
                waiting.remove(crate)
                idle -= share
                running[pool.submit(call, rt, [crate], share)] = crate, share
            if not running:
                return worst
            for ended in wait(running, return_when=FIRST_COMPLETED).done:
                crate, share = running.pop(ended)
                idle += share
                status, said = ended.result()
                if status == 2 and said.startswith("usage: rt "):
                    raise TakesNoNames
                if worst in (0, 1):
                    tell(said, proved)
                if status == 0:
                    proved.add(crate)
                worst = max(worst, status)


def main():
    if len(sys.argv) != 2:
        sys.exit(__doc__)
    try:
        status = prove_libraries(sys.argv[1])
    except TakesNoNames:
        sys.exit(subprocess.run([sys.argv[1], "ci"], env=ENVIRONMENT, stdin=subprocess.DEVNULL).returncode)
    if status == 0:
        status, said = call(sys.argv[1], [], PROCESSORS)
        tell(said, set(below) - {PROGRAM})
    sys.exit(status)


main()
