#!/usr/bin/env python3
"""A soak: circuits made by chance, and hostile edits of them, through every tool, for as long as you like.

    tests/run/soak.py PROGRAM [--seconds N] [--seed S] [--round R] [--keep FOLDER]

Rounds are numbered from 0, and round R of the seed S is always the same one, so that it can be run again alone.
Without a seed there is a fresh one. A good round has a circuit of images.py or its like, as ASCII or binary, spelled
in one of the ways that are accepted, and looks at what must hold between the answers: there and back, traces alike,
the unrolled row is the trace, a witness is confirmed exactly where the trace says so. In a hostile round the bytes of
a good file are edited. If every tool refuses it in the same words, that is well; if it is accepted, all of a good
round must hold for it. Other rounds have circuits with cycles or with wrong definitions, images with edited maps, two
circuits with their miter, and sizes that are too large. In each run the status is 0, 1 or 2, there is one message at a
refusal and none otherwise, and a refusal leaves nothing behind.

The first failure ends the soak, and leaves a folder with what is needed to run the command again: under FOLDER, or
where temporary files are. At the end stands how often each kind of refusal came, counted in runs. The last line is
'N passed, M failed', and counts rounds.
"""
import argparse
import collections
import concurrent.futures
import itertools
import random
import resource
import shlex
import sys
import tempfile
import threading
import time
import traceback
from pathlib import Path

sys.dont_write_bytecode = True
sys.path[0] = str(Path(__file__).resolve().parent.parent)
from lib import counts, refusals
from lib.soak.calls import Failed, Round
from lib.soak.rounds import KINDS

AT_ONCE = 4
SECONDS = 60
# how much a run may have of addresses
MEMORY = 2**31
AGAIN = """#!/bin/sh
# Runs the command once more, over copies of its files: again.sh [PROGRAM]
program=${1:-%s}
cd "$(dirname "$0")" || exit
rm -rf again && cp -r files again && cd again || exit
ulimit -v %d
"$program" %s < ../input
status=$?
echo "status $status" >&2
exit "$status"
"""


def run_round(program, seed, number):
    """How often which answers came; and nothing, or how this round failed, and the text that it is about."""
    chance, found = random.Random(f"{seed} {number}"), None
    with tempfile.TemporaryDirectory() as folder:
        here = Round(program, Path(folder), chance)
        try:
            chance.choice(KINDS)(here)
        except Failed as failed:
            found = failed, here.source
        except Exception:
            # an answer that makes no sense to what is evaluated here
            failed = Failed("an answer can be understood", here.last, "no exception", traceback.format_exc())
            found = failed, here.source
    return here.came, found


def as_bytes(it):
    return it if isinstance(it, bytes) else f"{it}\n".encode(errors="surrogateescape")


def keep(program, failed, text, under, again):
    """The folder with what is needed to run the command again, and the round by these words."""
    folder = Path(tempfile.mkdtemp(prefix="aiger-soak-", dir=under))
    call = failed.call
    (folder / "files").mkdir()
    for name, content in call.files.items():
        (folder / "files" / name).write_bytes(content)
    kept = {"source": text, "input": call.given, "words": "\n".join(call.words), "what": f"{failed.what}\n{again}"}
    for name, answer in (("wanted", failed.wanted), ("came", failed.came)):
        if isinstance(answer, tuple):
            kept.update({f"{name}.{part}": it for part, it in zip(("output", "errors", "status"), answer)})
        else:
            kept[name] = answer
    for name, content in kept.items():
        (folder / name).write_bytes(as_bytes(content))
    script = folder / "again.sh"
    script.write_bytes(as_bytes(AGAIN % (shlex.quote(program), MEMORY // 1024, shlex.join(call.words))))
    script.chmod(0o755)
    return folder


def soak(program, seed, numbers, seconds):
    """How many rounds passed, how often which answers came, and the first failure with its number and its text, if
    there is one."""
    ends, lock, passed, wrong = time.monotonic() + seconds, threading.Lock(), [], []
    total = collections.Counter()

    def work():
        while not wrong and (not passed or time.monotonic() < ends):
            with lock:
                number = next(numbers, None)
            if number is None:
                return
            came, found = run_round(program, seed, number)
            with lock:
                total.update(came)
            (wrong if found else passed).append((number, found))

    with concurrent.futures.ThreadPoolExecutor(AT_ONCE) as pool:
        for asked in [pool.submit(work) for _ in range(AT_ONCE)]:
            asked.result()
    return len(passed), total, min(wrong, key=lambda it: it[0], default=None)


def tell(total):
    """How often which answers came, in runs, and which refusals never came."""
    for kind in refusals.ALL:
        if total[kind]:
            print(f"{total[kind]:7} {kind}")
    never = [kind for kind in refusals.ALL if not total[kind]]
    print(f"{total.total()} runs, {total['answered']} answered; never came: {'; '.join(never) or 'none'}")


def arguments():
    parser = argparse.ArgumentParser(description="Random circuits and hostile edits of them through every tool.")
    parser.add_argument("program")
    parser.add_argument("--seconds", type=float, default=SECONDS)
    parser.add_argument("--seed", default=None)
    parser.add_argument("--round", type=int, default=None)
    parser.add_argument("--keep", default=None)
    return parser.parse_args()


def main():
    asked = arguments()
    _, most = resource.getrlimit(resource.RLIMIT_AS)
    memory = MEMORY if most == resource.RLIM_INFINITY else min(most, MEMORY)
    # the limit is that of this process, and each run has it from here
    resource.setrlimit(resource.RLIMIT_AS, (memory, most))
    seed = asked.seed or str(random.SystemRandom().randrange(10**9))
    program = counts.need_program(asked.program)
    numbers = itertools.count() if asked.round is None else iter([asked.round])
    passed, total, wrong = soak(program, seed, numbers, asked.seconds)
    tell(total)
    said = []
    if wrong:
        number, (failed, text) = wrong
        again = f"tests/run/soak.py {shlex.quote(asked.program)} --seed {shlex.quote(seed)} --round {number}"
        folder = keep(program, failed, text, asked.keep, again)
        said = [f"round {number}: {failed.what}; see {folder}\n    again: {again}"]
    counts.finish(said, passed)


if __name__ == "__main__":
    main()
