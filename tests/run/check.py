#!/usr/bin/env python3
"""aiger-check: what it says of designs, beside Yosys's own `sat` and ABC; of models made by chance, and of liveness,
beside all their states; whether two designs are equal; and that no tool that lies, fails, sleeps or is missing, no full disk and no
interrupt gives a wrong line or leaves anything.

    tests/run/check.py PROGRAM [NAME]         all rows, or those that have this in their names
    tests/run/check.py PROGRAM --part K N     every Nth row from number K on

The variable CHECK names another folder aiger_check than that of this repository. Rows that need Yosys, ABC or a
solver count as skipped where it is not installed.
"""
import concurrent.futures
import importlib
import os
import signal
import sys
from pathlib import Path

sys.dont_write_bytecode = True
sys.path[0] = str(Path(__file__).resolve().parent.parent)
from lib import counts
from lib.check import checked

ROWS = sorted(Path(checked.__file__).parent.glob("*_rows.py"))
MODULES = [importlib.import_module(f"lib.check.{it.stem}") for it in ROWS]


def why_wrong(row, program):
    """What is wrong with a row, if anything is; a row that is left out raises."""
    folder, room = checked.room(program)
    with folder:
        try:
            row(room)
        except checked.Skipped:
            raise
        except Exception as why:
            return str(why) if isinstance(why, checked.Wrong) else repr(why)
    return None


def main(program, *words):
    part = counts.part_of(words)
    name = "" if part else "".join(words)
    program = counts.need_program(program)
    if not os.access(checked.CHECK, os.R_OK):
        counts.finish([f"wanted a file {checked.CHECK}; came none"], 0)
    rows = [it for module in MODULES for it in module.rows() if name in it[0]]
    rows = [it for at, it in enumerate(rows) if part is None or part(at)]
    counts.need(rows, name)
    wrong, passed, skipped = [], 0, {}
    with concurrent.futures.ThreadPoolExecutor(os.cpu_count()) as pool:
        asked = [(called, pool.submit(why_wrong, row, program)) for called, row in rows]
        for called, it in asked:
            try:
                why = it.result()
                wrong += [f"{called}: {why}"] if why else []
                passed += not why
            except checked.Skipped as reason:
                skipped[str(reason)] = skipped.get(str(reason), 0) + 1
    for reason, count in skipped.items():
        print(f"SKIPPED {count}: {reason}")
    counts.finish(wrong, passed, sum(skipped.values()))


if __name__ == "__main__":
    # nohup ignores it, and so would what is started here
    signal.signal(signal.SIGHUP, signal.SIG_DFL)
    main(*sys.argv[1:])
