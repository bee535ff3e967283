"""Runs the program, of this folder or by ``python3 -m aiger_check``."""

import sys
from pathlib import Path

if not __package__:
    # this folder was run: what lies beside it is imported, and nothing of it by a bare name
    sys.path[0] = str(Path(__file__).resolve().parent.parent)

from aiger_check.cli import main  # pylint: disable=wrong-import-position
from aiger_check.ending import leave  # pylint: disable=wrong-import-position

leave(main(sys.argv[1:]))
