"""Files that are written at once."""

import os
import secrets
from pathlib import Path

from aiger_check import PROGRAM
from aiger_check.faults import Trouble, visible


def put_whole(place: Path, data: bytes, mode: int = 0o666) -> Path:
    """Writes a file beside its place, and renames it into that. A device or a pipe stays what it is."""
    try:
        if is_special(place):
            place.write_bytes(data)
        else:
            put_beside(place, data, mode)
    except OSError as why:
        raise Trouble(f"{visible(str(place))}: {why.strerror}") from why
    return place


def is_special(place: Path) -> bool:
    """Whether something is there that is no file."""
    return place.exists() and not place.is_file()


def put_beside(place: Path, data: bytes, mode: int) -> None:
    fresh = place.parent / f".{PROGRAM}-{secrets.token_hex(8)}"
    try:
        with open(os.open(fresh, os.O_WRONLY | os.O_CREAT | os.O_EXCL, mode), "wb") as file:
            file.write(data)
        os.replace(fresh, place)
    finally:
        fresh.unlink(missing_ok=True)
