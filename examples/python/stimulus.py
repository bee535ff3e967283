#!/usr/bin/env python3
"""Writes a stimulus for a model by chance, or with --trace what the model does then, as aiger aigsim --properties. From
the top of the repository:

    PYTHONPATH=python python3 examples/python/stimulus.py MODEL STEPS [SEED] > steps.txt

MODEL may be -, the standard input. The same SEED, a number that is 0 by default, gives the same steps. Status 0: done; 1:
the model is refused; 2: wrong words."""
import argparse
import random
import sys
from pathlib import Path

import aigtools


def stimulus(inputs, steps, seed):
    """So many lines, each with a 0 or a 1 for each input."""
    draw = random.Random(seed)
    return "".join("".join(draw.choices("01", k=inputs)) + "\n" for _ in range(steps)).encode()


def number(text):
    """A number of digits alone."""
    if not text.isdecimal():
        raise ValueError
    return int(text)


def main():
    parser = argparse.ArgumentParser(description=__doc__, formatter_class=argparse.RawDescriptionHelpFormatter)
    parser.add_argument("model", metavar="MODEL")
    parser.add_argument("steps", metavar="STEPS", type=number)
    parser.add_argument("seed", metavar="SEED", type=number, nargs="?", default=0)
    parser.add_argument("--trace", action="store_true")
    given = parser.parse_args()
    try:
        model = sys.stdin.buffer.read() if given.model == "-" else Path(given.model).read_bytes()
        text = stimulus(len(aigtools.read(model).inputs), given.steps, given.seed)
        if given.trace:
            text = aigtools.simulate(model, text, properties=True)
    except OSError as why:
        sys.exit(f"stimulus.py: {given.model}: {why.strerror}")
    except aigtools.Refused as why:
        sys.exit(f"stimulus.py: {given.model}: {why}")
    sys.stdout.buffer.write(text)


if __name__ == "__main__":
    main()
