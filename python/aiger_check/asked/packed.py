"""Models that are compressed."""

import importlib
import io
import shlex
import subprocess
from pathlib import Path
from typing import Any, BinaryIO, Iterator, NamedTuple, Optional

from aiger_check.faults import Stopped, Trouble, visible
from aiger_check.tools.processes import Children, path_of

#: what is unpacked has no more bytes: a small file may have very many inside
LARGEST = 256 << 20
PIECE = 1 << 20


class Form(NamedTuple):
    """A form of compressed files: how names end, how files begin, what unpacks them, and Python's module for it."""

    suffix: str
    begins: bytes
    program: str
    module: str = ""


FORMS = (
    Form(".gz", b"\x1f\x8b", "gzip", "gzip"),
    Form(".xz", b"\xfd7zXZ\x00", "xz", "lzma"),
    Form(".bz2", b"BZh", "bzip2", "bz2"),
    Form(".zst", b"\x28\xb5\x2f\xfd", "zstd"),
)


def form_of(name: str, data: bytes) -> Optional[Form]:
    """How a file is compressed: by how it begins, or else, where it is no model, by its name."""
    begins = next((it for it in FORMS if data.startswith(it.begins)), None)
    is_model = data.startswith((b"aag", b"aig"))
    return begins or next((it for it in FORMS if name.endswith(it.suffix) and not is_model), None)


def unpacked(name: str, data: bytes, place: Path, children: Children) -> None:
    """Writes what a file has inside, or the file as it is, if it is not compressed."""
    form = form_of(name, data)
    if not form:
        place.write_bytes(data)
        return
    left = LARGEST
    with open(place, "wb") as file:
        for piece in pieces(name, form, data, place, children):
            left -= len(piece)
            if left < 0:
                raise Trouble(f"{visible(name)}: more than {LARGEST >> 20} MB inside; first type {by_hand(name, form)}")
            file.write(piece)


def by_hand(name: str, form: Form) -> str:
    """The command that unpacks a file."""
    inside = name[: -len(form.suffix)] if name.endswith(form.suffix) else f"{name}.aig"
    return visible(f"{form.program} -dc {shlex.quote(name)} > {shlex.quote(inside)}")


def pieces(name: str, form: Form, data: bytes, place: Path, children: Children) -> Iterator[bytes]:
    """What is inside, piece by piece."""
    if not data:
        raise Trouble(f"{visible(name)}: the {form.suffix[1:]} file ends too early")
    if not form.module:
        yield from by_program(name, form, data, place, children)
        return
    try:
        module: Any = importlib.import_module(form.module)
    except ImportError as why:
        raise Trouble(f"{visible(name)}: Python has no {form.module} here; first type {by_hand(name, form)}") from why
    with module.open(io.BytesIO(data)) as file:
        while True:
            piece = read(name, form, file, module)
            if not piece:
                return
            yield piece


def read(name: str, form: Form, file: BinaryIO, module: Any) -> bytes:
    """A piece. Of a file that is in memory each error is one of its form."""
    try:
        return file.read(PIECE)
    except EOFError as why:
        raise Trouble(f"{visible(name)}: the {form.suffix[1:]} file ends too early") from why
    except MemoryError:
        raise
    except Exception as why:  # each module has faults of its own
        raise Trouble(f"{visible(name)}: not a {form.suffix[1:]} file, or damaged: {visible(str(why))}") from why


def by_program(name: str, form: Form, data: bytes, place: Path, children: Children) -> Iterator[bytes]:
    """By a program, which is ended where no more is wanted."""
    program = path_of(form.program)
    if not program:
        raise Trouble(f"{visible(name)}: {form.program} is not installed; where it is, type {by_hand(name, form)}")
    packed, told = place.with_suffix(form.suffix), place.with_suffix(".told")
    packed.write_bytes(data)
    with open(packed, "rb") as source, open(told, "wb") as errors:
        words = [program, "-q", "-d", "-c"]
        child = children.start(words, stdin=source, stdout=subprocess.PIPE, stderr=errors, cwd=place.parent)
        try:
            yield from iter(lambda: child.stdout.read(PIECE) if child.stdout else b"", b"")
            status = child.wait()
        finally:
            children.end(child)
            if child.stdout:
                child.stdout.close()
    if children.stopped:
        raise Stopped
    if status != 0:
        words_ = told.read_text(errors="replace").strip().splitlines()
        raise Trouble(visible(f"{name}: not a {form.suffix[1:]} file, or damaged: {words_[-1] if words_ else ''}"))
