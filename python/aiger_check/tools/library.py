"""The library of aiger."""

import functools
import importlib
import sys
from typing import Any

from aiger_check.faults import Trouble


@functools.lru_cache(maxsize=None)
def aigtools() -> Any:
    """The module of circuits as arrays, which is loaded where it is needed: --help does not want its library."""
    sys.dont_write_bytecode = True
    try:
        return importlib.import_module("aigtools")
    except (ImportError, OSError) as why:
        raise Trouble(f"aigtools cannot be loaded: {why}") from why
