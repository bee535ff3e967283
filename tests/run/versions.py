#!/usr/bin/env python3
"""One number is the version: each place that has it must have the one that stands on top of CHANGELOG.md.

    tests/run/versions.py PROGRAM

What release/make writes is left out while it is of other sources. The last line is 'N passed, M failed', with
', K skipped' behind it where something was left out.
"""
import re
import subprocess
import sys
from pathlib import Path

sys.dont_write_bytecode = True
sys.path[0] = str(Path(__file__).resolve().parent.parent)
from lib import counts

TOP = Path(__file__).resolve().parents[2]
SUM = 'top=$1; . "$top/release/state.sh" && read_places && sources_sum'


def found(pattern, text):
    """What the pattern's group is in a text, or nothing."""
    match = re.search(pattern, text, re.M)
    return match[1] if match else ""


def read(path):
    """The text of a file of the repository, empty if it is not there."""
    path = TOP / path
    return path.read_text(encoding="utf-8") if path.is_file() else ""


def said(words):
    """What a command writes to standard output."""
    return subprocess.run(words, check=False, stdout=subprocess.PIPE, text=True).stdout


def of_header(path):
    """The version of a header, which has it as a byte each for major, minor and patch."""
    number = int(found(r"^#define \w+_VERSION (0x[0-9a-f]+)u$", read(path)) or "0", 16)
    return f"{number >> 16}.{number >> 8 & 255}.{number & 255}"


def places(program):
    """Each place where the version is written, and what stands there."""
    yield "aiger --version", found(r"^aiger (\S+)\n\Z", said([program, "--version"]))
    package = "python/aiger_check/__init__.py"
    yield package, found(r'^VERSION = "(.*)"$', read(package))
    for path in sorted((TOP / "include").glob("*.h")):
        yield f"include/{path.name}", of_header(path)


def made_places():
    """Those that release/make writes."""
    yield "release/MANIFEST", found(r"^version (.*)$", read("release/MANIFEST"))
    for path in sorted((TOP / "release").glob("*.pc")):
        yield f"release/{path.name}", found(r"^Version: (.*)$", read(path))


def main(program):
    program = counts.need_program(program)
    wanted = found(r"^## \[(\d[^]]*)\]", read("CHANGELOG.md"))
    those, left_out = list(places(program)), []
    if said(["bash", "-c", SUM, "bash", TOP]).strip() == found(r"^sources (.*)$", read("release/MANIFEST")):
        those += made_places()
    else:
        left_out = [place for place, _ in made_places()]
        print(f"SKIPPED {', '.join(left_out)}: of other sources")
    wrong = [
        f"the version in {place}\n    wanted {wanted}, as in CHANGELOG.md\n    came   {version or 'none'}"
        for place, version in those
        if version != wanted
    ]
    counts.finish(wrong, len(those) - len(wrong), len(left_out))


if __name__ == "__main__":
    main(*sys.argv[1:])
