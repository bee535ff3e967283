#!/usr/bin/env python3
"""What PROOFS.md names stands in the crates: each function, clause, definition and law.

    tests/run/names.py

It looks for declarations alone, so a name that is only used does not count. The last line is 'N passed, M failed'.
"""
import re
import sys
from pathlib import Path

sys.dont_write_bytecode = True
sys.path[0] = str(Path(__file__).resolve().parent.parent)
from lib import counts

TOP = Path(__file__).resolve().parents[2]
PAGE = "docs/PROOFS.md"
# libraries of the kit, and a call of the system
OTHERS = {"clap", "core", "fdatasync", "itoa", "memchr", "std"}
IN_CODE = (
    r"\b(?:fn|struct|enum|trait|type|const|static|mod) (\w+)",
    r"\b(?:ensures|requires) (\w+) \{",
    r"^    (\w+)(?:[,({]| = \d+,)",
)
IN_SPECS = (
    r"^\s*(?:[a-z]+ )*pub (?:record |data )?(\w+)",
    r"^(?:pub )?(?:data|record) (\w+)",
)


def names_by(patterns, files):
    """The names that the patterns' groups find in the files."""
    texts = [path.read_text(encoding="utf-8") for path in files]
    return {name for text in texts for pattern in patterns for name in re.findall(pattern, text, re.M)}


def main():
    crates = TOP / "crates"
    stand = names_by(IN_CODE, crates.glob("*/src/**/*.rt")) | names_by(IN_SPECS, crates.glob("*/specs/**/*.antt"))
    stand |= {path.name for path in crates.iterdir()} | OTHERS
    cited = sorted(set(re.findall(r"`([A-Za-z_]\w*)`", (TOP / PAGE).read_text(encoding="utf-8"))))
    wrong = [
        f"{PAGE} names {name}\n    wanted its declaration in crates\n    came   none"
        for name in cited
        if name not in stand
    ]
    counts.finish(wrong, len(cited) - len(wrong))


if __name__ == "__main__":
    main()
