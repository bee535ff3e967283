"""Files of the user's, which are read as a whole."""

import os
import stat

from aiger_check.faults import Trouble, visible

#: no source has as many bytes, and what is larger may have no end
LARGEST = 64 << 20


def content(name: str) -> bytes:
    """The bytes of a file that has an end: neither a device nor a pipe, of which one might wait for ever."""
    try:
        if not stat.S_ISREG(os.stat(name).st_mode):
            raise Trouble(f"{visible(name)}: {'a folder' if os.path.isdir(name) else 'not a regular file'}")
        with open(os.open(name, os.O_RDONLY | os.O_NONBLOCK | os.O_CLOEXEC), "rb") as file:
            found = file.read(LARGEST + 1)
    except OSError as why:
        raise Trouble(f"{visible(name)}: {why.strerror}") from why
    if len(found) > LARGEST:
        raise Trouble(f"{visible(name)}: larger than {LARGEST >> 20} MB")
    return found


def text_of(name: str) -> str:
    """The text of a source, with a character for each byte."""
    text = content(name).decode("latin-1")
    if "\0" in text:
        raise Trouble(f"{visible(name)}:{text[:text.index(chr(0))].count(chr(10)) + 1}: a NUL byte is no Verilog")
    return text


def is_there(name: str) -> bool:
    """Whether this is a file, of whatever kind, and no folder."""
    return os.path.exists(name) and not os.path.isdir(name)
