#!/usr/bin/env python3
"""Builds the archive of the library, crates/aigtools_c/out/libaigtools_c.a, with a proof of its exports.

    release/archive.py RT [COMPILER]     RT is the kit's command rt; COMPILER is llvm or rattle, the kit's own

`rt ci` proves each crate from nothing but builds no archive, and what it leaves of the libraries `rt lib` does not take:
it would prove them once more. So where nothing else was kept, only the exports are proved here, over what `rt ci` built.
"""
import os
import shutil
import subprocess
import sys
from pathlib import Path

CRATE = Path(__file__).resolve().parent.parent / "crates" / "aigtools_c"


def crate_over_ci(rt, folder):
    """The crate of this folder, over what `rt ci` left of those below it, or None where something else was kept."""
    sys.path.insert(0, str(Path(shutil.which(rt)).resolve().parent))
    try:
        import rtlib

        crate = rtlib.Crate(str(folder), str(folder.parent.parent), {}, name=None)
        folders = [Path(it.folder, "out", "rlib") for it in crate.below()]
        is_whole = all(os.path.isdir(it.rlib) for it in crate.below())
        return crate if is_whole and not any(Path(it, "stamp").exists() for it in folders) else None
    except (ImportError, AttributeError, TypeError, SystemExit):  # another kit has other words for this
        return None


def build_over_ci(rt, flags):
    """Builds the archive over what `rt ci` left. Returns the status, or None where that is not to be had."""
    crate = crate_over_ci(rt, CRATE)
    try:
        return crate and crate.build_static(["--jobs", "2", *flags])
    except (AttributeError, TypeError, SystemExit):
        return None


def main(rt, compiler="llvm"):
    """Builds it in one way or the other."""
    flags = ["--backend", compiler]
    os.chdir(CRATE)
    os.makedirs("out", exist_ok=True)
    return 0 if build_over_ci(rt, flags) == 0 else subprocess.call([rt, "lib", *flags], stdin=subprocess.DEVNULL)


if __name__ == "__main__":
    words, sys.argv = sys.argv[1:], ["rt"]
    sys.exit(main(*words))
