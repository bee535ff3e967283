#!/usr/bin/env python3
"""Builds the object of the program, crates/aiger/out/aiger.o, with a proof of `main`, over what `rt ci` left.

    release/object.py RT     RT is the kit's command rt

Where `rt ci` takes the program from an earlier run, it leaves the program and no object.
"""
import os
import sys
from pathlib import Path

from archive import crate_over_ci

CRATE = Path(__file__).resolve().parent.parent / "crates" / "aiger"


def main(rt):
    """Builds it, and returns the status."""
    crate = crate_over_ci(rt, CRATE)
    if crate is None:
        print("aiger: there is nothing that rt ci left: run ./test", file=sys.stderr)
        return 1
    os.chdir(CRATE)
    try:
        return crate.compile(["--jobs", "2", "--backend", "llvm"], "out/aiger.o")
    except (AttributeError, TypeError, SystemExit):  # another kit has other words for this
        return 1


if __name__ == "__main__":
    words, sys.argv = sys.argv[1:], ["rt"]
    sys.exit(main(*words))
