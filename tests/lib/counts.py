"""How each program in tests/run ends, so that ./test can add it up."""
import os
import sys

SHOWN = 5


def finish(wrong, passed, skipped=0):
    """Says what was wrong, and how much was right."""
    for said in wrong[:SHOWN]:
        print(f"FAILED {said}")
    skips = f", {skipped} skipped" if skipped else ""
    print(f"{passed} passed, {len(wrong)} failed{skips}")
    sys.exit(bool(wrong) or not (passed or skipped))


def part_of(words):
    """Of the words `--part K N` whether a number is asked for: every Nth one from K on. Of any others nothing."""
    if len(words) != 3 or words[0] != "--part":
        return None
    first, each = map(int, words[1:])
    return lambda number: number % each == first


def need(found, name):
    """Ends the program where nothing has the name that was asked for in its own."""
    if not found:
        finish([f"{name}: wanted rows with this in their names; came none"], 0)


def need_program(path):
    """The whole path of the program that is tried, which must be there."""
    if not os.access(path, os.X_OK):
        finish([f"wanted an executable file {path}; came none"], 0)
    return os.path.abspath(path)
