#!/usr/bin/env python3
"""The table of messages, man/diagnostics.txt, beside what has the same: each kind of include/aigtools.h stands there once,
with the words of the sources; each message of tests/lib/refusals.py too; and the manual page has it as man/make writes it.

    tests/run/messages.py

The last line is 'N passed, M failed'.
"""
import re
import runpy
import subprocess
import sys
from pathlib import Path

sys.dont_write_bytecode = True
sys.path[0] = str(Path(__file__).resolve().parent.parent)
from lib import counts, refusals

TOP = Path(__file__).resolve().parents[2]
TABLE, HEADER = "man/diagnostics.txt", "include/aigtools.h"
# where the words of kinds stand: the first of these that is there
WORDS = ("crates/aig_fault/src/words.rt", "crates/aig_library/src/wording.rt")
ARM = re.compile(r"((?:[kK]ind::\w+[\s|]*)+)=>(?=([^=}]*))")
PLACE = re.compile(r"^(?:line|gate|map line|word|value|input|output|bad state) (?:N|1): ")
# what only the library says, of arrays
OF_ARRAYS = {"counts do not fit", "value N: neither 0, 1 nor 2"}


def read(path):
    """The text of a file of the repository, empty if it is not there."""
    path = TOP / path
    return path.read_text(encoding="utf-8") if path.is_file() else ""


def kinds():
    """The kinds of the header, without that of no fault."""
    enum = re.search(r"enum aigtools_kind \{(.*?)\n\};", read(HEADER), re.S)
    return re.findall(r"^ *AIGTOOLS_(\w+) = [1-9]", enum[1] if enum else "", re.M)


def words():
    """The words of each kind in the sources, with N for a number, and the file where they stand."""
    path = next((it for it in WORDS if (TOP / it).is_file()), WORDS[0])
    found = {}
    for names, call in ARM.findall(read(path)):
        for name in re.findall(r"::(\w+)", names):
            name = re.sub(r"(?<=[a-z])(?=[A-Z])", "_", name).upper()
            found[name] = "N".join(re.findall(r'"([^"]*)"', call))
    return found, path


def judged():
    """Of each check what is wrong, if anything is."""
    table = runpy.run_path(str(TOP / "man" / "make"))["entries"](read(TABLE))
    messages = [message for heads, _ in table for message in heads]
    said, path = words()
    listed = kinds()
    if not listed:
        yield f"the kinds of {HEADER}\n    wanted some\n    came   none"
    for kind in sorted({*listed, *(kind for _, kind in messages if kind)}):
        here = [PLACE.sub("", message) for message, it in messages if it == kind]
        wanted = f"once {said[kind]!r}, as in {path}" if kind in said else f"its words in {path}"
        wanted = wanted if kind in listed else f"it in {HEADER}"
        is_right = kind in listed and here == [said.get(kind)]
        yield not is_right and f"{kind} in {TABLE}\n    wanted {wanted}\n    came   {here or 'none'}"
    printed = {message.replace("line 1:", "line N:") for message, _ in messages} - OF_ARRAYS
    for message in sorted({*printed, *refusals.ALL}):
        here, there = message in printed, message in refusals.ALL
        yield here != there and f"{message}\n    stands in {TABLE}: {here}\n    in tests/lib/refusals.py: {there}"
    made = subprocess.run([TOP / "man" / "make", "--check"], check=False, capture_output=True, text=True)
    yield made.returncode and f"man/make --check: status {made.returncode}\n{made.stdout}{made.stderr}"


def main():
    said = [*judged()]
    wrong = [it for it in said if it]
    counts.finish(wrong, len(said) - len(wrong))


if __name__ == "__main__":
    main()
