#!/usr/bin/env python3
"""Converts each AIGER file of a folder to binary, in one process. From the top of the repository:

    PYTHONPATH=python python3 examples/python/convert_all.py FROM TO

NAME.aag or NAME.aig of FROM becomes NAME.aig of TO, which is made where it is missing. A file that is refused is named
with the reason, and the others are converted. NAME.aig is refused where NAME.aag is there too, or where TO is FROM:
what is made of it would take the place of what is made of the other, or its own. Status 0: all were; 1: some were not,
or a folder cannot be read or written; 2: wrong words."""
import argparse
import sys
from pathlib import Path

import aigtools


def convert(path, folder):
    """Writes the binary form of a file into the folder, and answers what is wrong with it, if anything is."""
    made = folder / f"{path.stem}.aig"
    if path.suffix == ".aig" and (path.with_suffix(".aag").exists() or made.exists() and made.samefile(path)):
        return f"{path}: what is made of another file, or of this one, has its name"
    try:
        made.write_bytes(aigtools.convert(path.read_bytes()))
    except OSError as why:
        return f"{why.filename}: {why.strerror}"
    except aigtools.Refused as why:
        return f"{path}: {why}"
    return None


def main():
    parser = argparse.ArgumentParser(description=__doc__, formatter_class=argparse.RawDescriptionHelpFormatter)
    parser.add_argument("source", metavar="FROM", type=Path)
    parser.add_argument("target", metavar="TO", type=Path)
    given = parser.parse_args()
    try:
        paths = sorted(it for it in given.source.iterdir() if it.suffix in (".aag", ".aig"))
        given.target.mkdir(parents=True, exist_ok=True)
    except OSError as why:
        sys.exit(f"convert_all.py: {why.filename}: {why.strerror}")
    faults = [it for it in (convert(path, given.target) for path in paths) if it]
    for fault in faults:
        print(f"convert_all.py: {fault}", file=sys.stderr)
    print(f"{len(paths) - len(faults)} files converted")
    sys.exit(1 if faults else 0)


if __name__ == "__main__":
    main()
