#!/usr/bin/env python3
"""How long aiger-check takes beside Yosys, which writes the same model, and ABC, whose pdr is asked of all assertions of
it at once.

    bench/check.py [--runs N] [--counts 1,40,1000]

The designs are written here: assertions that are true word by word, counters that each need an invariant, and counters
of which every tenth assertion fails. Seconds are those of the clock and of processors, the least of some runs; Yosys and
ABC run one after the other, and what they take is added up. A second front end is left out, as Yosys has none.
"""
import argparse
import os
import resource
import subprocess
import sys
import tempfile
import time
from pathlib import Path

TOP = Path(__file__).resolve().parent.parent
MODEL = (
    "read_verilog -sv -formal m.sv; hierarchy -check -top m; proc; flatten; opt -noff -keepdc; memory -nomap; async2sync;"
    " techmap; opt -noff -keepdc -fast; dffunmap; simplemap; setundef -undriven -anyseq; opt_clean; aigmap; opt_clean;"
    " write_aiger m.aig"
)
ABC = "read_aiger m.aig; orpos; pdr"


def words(at):
    """A word that an assertion is true of, whatever it is."""
    return f"wire [7:0] d{at} = a ^ 8'd{at % 256};\np{at}: assert property ((a ^ d{at}) == 8'd{at % 256});"


def counters(at, fails=False):
    """A counter that does not come to a value."""
    step = f"c{at} <= c{at} == {9 - at % 3} ? 0 : c{at} + a[{at % 8}]"
    limit = 10 - at % 3 - int(fails and at % 10 == 9)
    return f"reg [3:0] c{at} = 0; always @(posedge clk) {step};\np{at}: assert property (c{at} < {limit});"


KINDS = {"words": words, "counters": counters, "some fail": lambda at: counters(at, True)}


def design(kind, count):
    lines = "\n".join(KINDS[kind](at) for at in range(count))
    return f"module m(input clk, input [7:0] a);\n{lines}\nendmodule\n"


def taken(runs, folder, *commands):
    """Seconds of the clock, and of processors, that these take one after the other."""
    found = []
    for _ in range(runs):
        before, begun = resource.getrusage(resource.RUSAGE_CHILDREN), time.monotonic()
        for command in commands:
            ran = subprocess.run(command, cwd=folder, capture_output=True, check=False)
            if ran.returncode not in (0, 1):
                sys.exit(f"{command} ended with {ran.returncode}: {ran.stderr.decode()[-500:]}")
        after = resource.getrusage(resource.RUSAGE_CHILDREN)
        used = sum(getattr(after, it) - getattr(before, it) for it in ("ru_utime", "ru_stime"))
        found.append((time.monotonic() - begun, used))
    return [min(it) for it in zip(*found)]


def main():
    parser = argparse.ArgumentParser()
    parser.add_argument("--runs", type=int, default=3)
    parser.add_argument("--counts", default="1,40,1000")
    parser.add_argument("--kinds", default=",".join(KINDS))
    given = parser.parse_args()
    check = [sys.executable, str(TOP / "python" / "aiger_check"), "--quiet", "--second", "none", "--top", "m", "m.sv"]
    os.environ.setdefault("AIGER", str(TOP / "aiger"))
    print("| assertions | of | Yosys and ABC | aiger-check | quotient | of processors | quotient |")
    print("|---:|---|---:|---:|---:|---:|---:|")
    for count in map(int, given.counts.split(",")):
        for kind in given.kinds.split(","):
            with tempfile.TemporaryDirectory(prefix="bench.") as folder:
                (Path(folder) / "m.sv").write_text(design(kind, count), encoding="ascii")
                theirs = taken(given.runs, folder, ["yosys", "-q", "-p", MODEL], ["berkeley-abc", "-q", ABC])
                ours = taken(given.runs, folder, check)
            clock, used = (our / their for our, their in zip(ours, theirs))
            print(
                f"| {count} | {kind} | {theirs[0]:.2f} | {ours[0]:.2f} | {clock:.2f} | {theirs[1]:.2f}, {ours[1]:.2f} |"
                f" {used:.2f} |",
                flush=True,
            )


if __name__ == "__main__":
    main()
