#!/usr/bin/env python3
"""Runs rt in a crate's folder as ever, but takes the sum of each crate once.

    release/rt_once.py check --jobs 2     in crates/NAME; likewise lib, test, run, must-fail

rt takes the sum of a crate from those below it, and of each of these again wherever it is named: for the crates on the
top floors so many thousand times, which took seven minutes before a check of aig_tools began. Nothing may change the
crates below meanwhile. Where their libraries are built, other checks may use them at the same time, and rt waits only
for one that works in this crate. What is proved is the same; `rt ci` decides. The status is that of rt.
"""
import fcntl
import importlib.machinery
import importlib.util
import os
import shutil
import sys
from pathlib import Path

sys.dont_write_bytecode = True


def load(command):
    """The command rt as a module."""
    loader = importlib.machinery.SourceFileLoader("rt", command)
    made = importlib.util.module_from_spec(importlib.util.spec_from_loader("rt", loader))
    loader.exec_module(made)
    return made


def once(method):
    """The method, which answers what it answered before for the same crate."""
    known = {}

    def answer(crate):
        if crate.folder not in known:
            known[crate.folder] = method(crate)
        found = known[crate.folder]
        return list(found) if isinstance(found, list) else found

    return answer


def lock_own(crates, lock):
    """Locks the last of these crates for this call alone, and those below for others too, if all of them are built."""
    *below, own = crates
    if not all(it.is_built() for it in below):
        return lock(crates)
    held = [os.open(it.folder, os.O_RDONLY) for it in below]
    for it in held:
        fcntl.flock(it, fcntl.LOCK_SH)
    return held + lock([own])


def main(words):
    """Runs rt with these words."""
    command = shutil.which(os.environ.get("RT") or "rt")
    if command is None:
        sys.exit("release/rt_once.py: there is no command rt of the Rattle kit on the PATH")
    command = str(Path(command).resolve())
    sys.argv = [command, *words]
    rt = load(command)
    crate, lock = rt.rtlib.Crate, rt.rtlib.lock
    crate.stamp, crate.below = once(crate.stamp), once(crate.below)
    rt.rtlib.lock = lambda crates: lock_own(crates, lock)
    sys.exit(rt.main(words))


main(sys.argv[1:])
