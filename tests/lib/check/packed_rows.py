"""Rows of models that are compressed: by each program, under any name; cut, changed, and with very much inside."""
import bz2
import functools
import gzip
import lzma
import shlex
import shutil
import subprocess

from lib.check import checked, model_rows
from lib.check.model_rows import LATE, TEXTS
from lib.check.option_rows import put


def by_zstd(data):
    if not shutil.which("zstd"):
        raise checked.Skipped("zstd is not installed")
    return subprocess.run(["zstd", "-q", "-c"], input=data, capture_output=True, check=True).stdout


PACKERS = {"gz": gzip.compress, "xz": lzma.compress, "bz2": bz2.compress, "zst": by_zstd}
PROGRAMS = {"gz": "gzip", "xz": "xz", "bz2": "bzip2", "zst": "zstd"}
DUE = "b0 (%s): reached at 3\nb1 (%s): reached at 0\n2 assertions: 2 reached\n"
# how much a model may have inside, and how much a piece of one that has more
MOST, PIECE = 256, 1 << 20


def answered(room, name, changes):
    said = room.run(name, changes=changes)
    checked.need((said.status, said.out) == (checked.BROKEN, DUE % (name, name)), f"{name} has another answer", said)


def packed(suffix, room):
    """It is read in text and in binary, by its name or by what it is; and so are both of two."""
    changes, pack = model_rows.honest(room), PACKERS[suffix]
    texts = {"aag": TEXTS[LATE][0].encode(), "aig": model_rows.binary(room, TEXTS[LATE][0])}
    for kind, text in texts.items():
        for name in (f"model.{kind}.{suffix}", f"other.{kind}"):
            (room.here / name).write_bytes(pack(text))
            answered(room, name, changes)
    (room.here / f"plain.aag.{suffix}").write_bytes(texts["aag"])
    answered(room, f"plain.aag.{suffix}", changes)
    said = room.run("--equal", f"model.aag.{suffix}", f"model.aig.{suffix}", changes=changes)
    checked.need((said.status, said.out.count(": equal\n")) == (0, 2), "two are equal", said)
    said = room.run("--competition", f"model.aig.{suffix}", changes=changes)
    checked.need(said.status == 10 and said.out.startswith("1\nb0\n"), "a competition", said)


def refused(room, name, changes, *words):
    checked.refused(room.run(name, changes=changes), name.replace(".", r"\."), *words)


def cut(suffix, room):
    """What ends too early is refused, wherever it is cut."""
    changes, name = model_rows.honest(room), f"model.aag.{suffix}"
    data = PACKERS[suffix](TEXTS[LATE][0].encode())
    for size in (0, 2, len(data) // 2, len(data) - 1):
        (room.here / name).write_bytes(data[:size])
        refused(room, name, changes, f"ends too early|not a {suffix} file, or damaged")


def changed(suffix, room):
    """What is changed is refused, or has the same answer where the byte says nothing of the model."""
    changes, name = model_rows.honest(room), f"model.aag.{suffix}"
    data = PACKERS[suffix](TEXTS[LATE][0].encode())
    refusals = 0
    for at in range(0, len(data), max(1, len(data) // 6)):
        (room.here / name).write_bytes(data[:at] + bytes([data[at] ^ 0x24]) + data[at + 1 :])
        said = room.run(name, changes=changes)
        if said.status != checked.TROUBLE:
            checked.need(said.out == DUE % (name, name), f"changed at {at} it has another answer", said)
        else:
            refusals += 1
            checked.refused(said, name.replace(".", r"\."))
    checked.need(refusals > 3, f"{refusals} refusals")


def other_text(suffix, room):
    """What is inside is refused as without; so is what only has the name."""
    changes, name = model_rows.honest(room), f"model.{suffix}"
    (room.here / name).write_bytes(PACKERS[suffix](b"aag 1 1 0 0 0 1\n2\n3 3\n"))
    refused(room, name, changes, rf"model\.{suffix}:3: bad line")
    (room.here / name).write_bytes(b"module m; endmodule\n")
    refused(room, name, changes, f"not a {suffix} file, or damaged: ")
    (room.here / "good.aag").write_text(TEXTS[LATE][0], encoding="ascii")
    said = room.run("--equal", "good.aag", name, changes=changes)
    checked.refused(said, rf"model\.{suffix}: not a {suffix} file")


def too_large(suffix, room):
    """What has too much inside is refused before all of it is unpacked, with the command that unpacks it."""
    changes, name = model_rows.honest(room), f"a model.{suffix}"
    piece = PACKERS[suffix](bytes(PIECE))
    (room.here / name).write_bytes(piece * (MOST + 1))
    command = f"{PROGRAMS[suffix]} -dc 'a model.{suffix}' > 'a model'"
    due = f"aiger-check: {name}: more than {MOST} MB inside; first type {command}\n"
    said = room.run(name, changes=changes)
    checked.need((said.status, said.err) == (checked.TROUBLE, due), f"{due!r} is due", said)


def in_parts(suffix, room):
    """Several in one file are one text, as the programs have it."""
    changes, text, name = model_rows.honest(room), TEXTS[LATE][0].encode(), f"model.{suffix}"
    (room.here / name).write_bytes(PACKERS[suffix](text[:9]) + PACKERS[suffix](text[9:]))
    answered(room, name, changes)


def without_zstd(room):
    """Without the program it is told what to type where there is one."""
    (room.here / "model.aig.zst").write_bytes(b"\x28\xb5\x2f\xfd and more")
    said = room.run("model.aig.zst", changes={**model_rows.honest(room), "PATH": str(room.folder)})
    due = "aiger-check: model.aig.zst: zstd is not installed; where it is, type zstd -dc model.aig.zst > model.aig\n"
    checked.need((said.status, said.out, said.err) == (checked.TROUBLE, "", due), f"{due!r} is due", said)


def command_works(suffix, room):
    """The command that a refusal shows unpacks the file."""
    changes, name = model_rows.honest(room), f"it's.aag.{suffix}"
    if not shutil.which(PROGRAMS[suffix]):
        raise checked.Skipped(f"{PROGRAMS[suffix]} is not installed")
    (room.here / name).write_bytes(PACKERS[suffix](TEXTS[LATE][0].encode()))
    command = f"{PROGRAMS[suffix]} -dc {shlex.quote(name)} > {shlex.quote(name[: -len(suffix) - 1])}"
    subprocess.run(["sh", "-c", command], cwd=room.here, check=True)
    answered(room, "it's.aag", changes)


def rows():
    for suffix in PACKERS:
        for called, row in (("read", packed), ("cut", cut), ("changed", changed), ("another text", other_text)):
            yield f"compressed, {suffix}: {called}", functools.partial(row, suffix)
        for called, row in (("in parts", in_parts), ("by hand", command_works)):
            yield f"compressed, {suffix}: {called}", functools.partial(row, suffix)
    for suffix in ("gz", "zst"):
        yield f"compressed, {suffix}: too large", functools.partial(too_large, suffix)
    yield "compressed, zst: without zstd", without_zstd
