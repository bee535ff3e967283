#!/usr/bin/env python3
"""Compares what the program makes of circuits, stimuli and witnesses made by chance with plain evaluations.

    tests/run/by_chance.py PROGRAM [KIND [NUMBER]]     all of it, or one kind, or one circuit of it
    tests/run/by_chance.py PROGRAM KIND --circuits N   one kind, over so many circuits in place of its own number
    tests/run/by_chance.py PROGRAM --part K N          of each kind every Nth circuit from number K on

A kind is a module of tests/lib: see its head for what is compared. Its circuits have numbers from 0 on, and a circuit of
one number is always the same one.

The last line is 'N passed, M failed', with ', K skipped' behind it if something is not there that a kind compares with.
"""
import concurrent.futures
import os
import sys
import tempfile
from pathlib import Path

sys.dont_write_bytecode = True
sys.path[0] = str(Path(__file__).resolve().parent.parent)
from lib import answers, batches, counts, images, invariants, liveness, miters, refutations, simplified, traces, unrolled
from lib import parts, waves, witnesses

MODULES = images, traces, batches, unrolled, witnesses, waves, answers, refutations, invariants, miters, liveness
MODULES += simplified, parts
KINDS = {it.__name__.rpartition(".")[2]: it for it in MODULES}


def cases(program, folder, kinds, is_asked):
    """Each case whose number is asked for: its name, the function that judges it, and what that is called with."""
    for kind in kinds:
        # kinds run side by side, and their files have the same names
        own = Path(folder) / kind
        own.mkdir()
        for at, case in enumerate(KINDS[kind].cases(program, str(own))):
            if is_asked(at):
                yield f"{kind} {at}", *case


def why_wrong(case):
    """What is wrong with a case, if anything is; that it has no answer at all is."""
    try:
        return case.result()
    except Exception as why:
        return repr(why)


def without_count(words):
    """The words without a count of circuits. The kind takes that in the place of its own."""
    if words[1:2] != ("--circuits",):
        return words
    kind, _, count = words
    if not hasattr(KINDS.get(kind), "CIRCUITS"):
        counts.finish([f"{kind}: wanted a kind that counts its circuits; came none"], 0)
    KINDS[kind].CIRCUITS = int(count)
    return (kind,)


def main(program, *words):
    words = without_count(words)
    part, (kind, number) = counts.part_of(words), (*words, None, None)[:2]
    kinds = list(KINDS) if part else [it for it in KINDS if kind in (None, it)]
    number = None if part or number is None else int(number)
    is_asked = part or (lambda at: number in (None, at))
    program = counts.need_program(program)
    with tempfile.TemporaryDirectory() as folder, concurrent.futures.ProcessPoolExecutor(os.cpu_count()) as pool:
        asked = [(name, pool.submit(*case)) for name, *case in cases(program, folder, kinds, is_asked)]
        said = [(name, why_wrong(it)) for name, it in asked]
    counts.need(said, kind if number is None else f"{kind} {number}")
    left_out = list(waves.left_out()) if "waves" in kinds and number is None else []
    for count, reason in left_out:
        print(f"SKIPPED {count}: {reason}")
    wrong = [f"{name}: {why}" for name, why in said if why]
    counts.finish(wrong, len(said) - len(wrong), sum(count for count, _ in left_out))


if __name__ == "__main__":
    main(*sys.argv[1:])
