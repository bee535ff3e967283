#!/usr/bin/env python3
"""Looks for a run of a model into a bad state: of 1 step, of 2, and so on, by a SAT solver. The witness of the first one goes to
the standard output, and its verdict to standard error. From the top of the repository:

    PYTHONPATH=python python3 examples/python/search.py MODEL MOST [SOLVER ..] > run.aiw

The solver reads clauses (DIMACS) from its standard input and answers as in the SAT competitions: cadical -q, which is taken
where none is named, kissat -q or picosat. Status 0: there is a run, and it is confirmed; 1: anything else."""
import subprocess
import sys
from pathlib import Path

import aigtools


def search(model, most, solver):
    """The witness of the first run into a bad state, if one of at most so many steps is found."""
    for steps in range(1, most + 1):
        clauses = aigtools.clauses(model, steps)
        said = subprocess.run(solver, input=clauses, stdout=subprocess.PIPE, check=False).stdout
        try:
            return aigtools.answer(model, said, steps)
        except aigtools.Refused as refused:
            if refused.kind is not aigtools.Kind.UNSATISFIABLE:
                raise
    return sys.exit(f"no run of at most {most} steps")


def main(path, most, *solver):
    model = Path(path).read_bytes()
    witness = search(model, int(most), solver or ["cadical", "-q"])
    sys.stdout.buffer.write(witness)
    print(f"confirmed {aigtools.confirm(model, witness)}", file=sys.stderr)


if __name__ == "__main__":
    main(*sys.argv[1:])
