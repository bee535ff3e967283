"""Rows of designs made by chance: what is said of each assertion, beside a search through all states without Yosys."""
import functools
import random

from lib.check import checked, design_rows, verilog
from lib.check.checked import Truth

ONE_CLOCK, TWO_CLOCKS = 60, 40


def by_chance(at, has_clocks, room):
    design_rows.need_tools(*design_rows.TOOLS)
    made = verilog.design(random.Random(at), has_clocks)
    (room.here / "made.sv").write_text(made.text, encoding="ascii")
    lines = [number for number, line in enumerate(made.text.split("\n"), 1) if ": assert" in line]
    kept = verilog.kept(made)
    truths = [
        Truth(f"made.{name}", f"made.sv:{line}", step, kept=kept)
        for (name, _), line, step in zip(made.assertions, lines, verilog.steps(made))
    ]
    try:
        checked.judge(room.run("--json", "--jobs", "2", "--quiet", "--top", "made", "made.sv"), truths)
    except checked.Wrong as why:
        raise checked.Wrong(f"{why}; of {made.text}") from why


def rows():
    for has_clocks, count in ((False, ONE_CLOCK), (True, TWO_CLOCKS)):
        for at in range(count):
            called = f"design {at} by chance, with {'two clocks' if has_clocks else 'one clock'}"
            yield called, functools.partial(by_chance, at, has_clocks)
