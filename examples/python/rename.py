#!/usr/bin/env python3
"""Gives other names to symbols of a model, and writes it as it was read, ASCII or binary. From the top of the repository:

    PYTHONPATH=python python3 examples/python/rename.py MODEL OLD NEW [OLD NEW ..] > renamed.aag

MODEL may be -, the standard input. All that has an old name gets the new one. Status 0: done; 1: the model or a new name
is refused, or there is no symbol of an old name; 2: wrong words."""
import argparse
import os
import sys
from pathlib import Path

import aigtools


def rename(circuit, names):
    """Gives the symbols of a circuit the new names of these old ones, all at once."""
    missing = names.keys() - {symbol.name for symbol in circuit.symbols}
    if missing:
        raise LookupError(f"no symbol {os.fsdecode(min(missing))}")
    circuit.symbols = [symbol._replace(name=names.get(symbol.name, symbol.name)) for symbol in circuit.symbols]


def main():
    parser = argparse.ArgumentParser(description=__doc__, formatter_class=argparse.RawDescriptionHelpFormatter)
    parser.add_argument("model", metavar="MODEL")
    parser.add_argument("names", metavar="OLD NEW", nargs="+", type=os.fsencode)
    given = parser.parse_args()
    if len(given.names) % 2:
        parser.error("an OLD without a NEW")
    try:
        data = sys.stdin.buffer.read() if given.model == "-" else Path(given.model).read_bytes()
        circuit = aigtools.read(data)
        rename(circuit, dict(zip(given.names[::2], given.names[1::2])))
        text = circuit.write(ascii=data.startswith(b"aag"))
    except OSError as why:
        sys.exit(f"rename.py: {given.model}: {why.strerror}")
    except (aigtools.Refused, LookupError) as why:
        sys.exit(f"rename.py: {given.model}: {why}")
    sys.stdout.buffer.write(text)


if __name__ == "__main__":
    main()
