"""What is kept of how the answers were come by."""

import hashlib
import os
import secrets
import shlex
import shutil
import sys
from pathlib import Path
from typing import Dict, List, Sequence, Tuple

from aiger_check import PROGRAM, VERSION
from aiger_check.asked.question import Translation
from aiger_check.faults import Trouble, visible
from aiger_check.front.vhdl.ghdl import NETLIST
from aiger_check.keep.whole import put_whole
from aiger_check.session import Session

SCRIPT = "translate.ys"
#: of the folder of a translation what goes into it
SOURCES = ("copy*", "ghdl", "*.v", "*.sv", "*.vh", "*.tcl")
#: how programs are asked for their version
VERSIONS = {"yosys": ("-V",), "abc": ("-q", "version")}


class Journal:
    """Keeps the commands of a run and the versions of its programs: a script that does all again."""

    def __init__(self, session: Session, folder: Path) -> None:
        self.session, self.folder = session, folder

    def keep(self, translations: Sequence[Translation], again: Sequence[str], programs: Dict[str, str]) -> None:
        """Keeps all, once the answers are there: again are the words of what was searched."""
        lines = ["#!/bin/sh", *self.head(programs), 'CDPATH= cd -- "$(dirname -- "$0")" || exit 2']
        if translations:
            lines += ["made=$(mktemp -d) || exit 2", "trap 'rm -rf \"$made\"' EXIT"]
        for at, it in enumerate(translations):
            lines += self.translation(f'"$made/{at}"', it)
        given = self.session.given
        options = ["--frames", str(given.frames), "--time", f"{given.time:g}", "--limit", f"{given.limit:g}"]
        options += ["--solver", given.solver] if given.solver else []
        lines.append(f'"${{AIGER_CHECK:-{PROGRAM}}}" {shlex.join([*options, *again])}')
        self.put("commands.sh", lines, 0o777)
        self.put("commands.txt", self.ran(), 0o666)

    def put(self, name: str, lines: Sequence[str], mode: int) -> None:
        put_whole(self.folder / name, "".join(f"{it}\n" for it in lines).encode(errors="surrogateescape"), mode)

    def head(self, programs: Dict[str, str]) -> List[str]:
        """What was asked for, and with what."""
        used = [f"#   {name}, {visible(path)}: {self.version(name, path)}" for name, path in sorted(programs.items())]
        return [
            f"# {PROGRAM} {VERSION}, Python {sys.version.split()[0]}, in {visible(os.getcwd())}:",
            f"#   {visible(shlex.join([PROGRAM, *sys.argv[1:]]))}",
            *used,
            "# Translates the design again, if it is none in AIGER, and searches again; commands.txt has what was run.",
        ]

    def version(self, name: str, path: str) -> str:
        told = self.session.keeping.run([path, *VERSIONS.get(name, ("--version",))], self.session.folder, 10)
        words = (told.output or told.errors).split("\n")[0]
        return visible(words) if told.status == 0 and words else "of an unknown version"

    def translation(self, made: str, it: Translation) -> List[str]:
        """The lines that translate a design again, and check that it is the same model."""
        name = self.put_design(it)
        digest = hashlib.sha256((it.folder / "model.aig").read_bytes()).hexdigest()
        # the Verilog is made of what ghdl writes: the same of the same
        ghdl = f'( cd {made}/ghdl && "${{GHDL:-ghdl}}" {shlex.join(it.ghdl)} | cmp - {NETLIST} ) || exit 1'
        return [
            f"cp -R {name} {made} && mkdir {made}/empty || exit 2",
            *([ghdl] if it.ghdl else []),
            f'( cd {made}/empty && unset ABC && "${{YOSYS:-yosys}}" -q -s ../{SCRIPT} ) || exit 1',
            f'( cd {made} && echo "{digest}  model.aig" | sha256sum --check --quiet ) || exit 1',
        ]

    def put_design(self, it: Translation) -> str:
        """Keeps the sources as Yosys read them, and what it was told. The name has a digest of all of it, so that
        nothing is written over."""
        fresh = self.folder / f".{PROGRAM}-{secrets.token_hex(8)}"
        try:
            digest = hashlib.sha256()
            for name, data in contents(it):
                digest.update(f"{name}\n{len(data)}\n".encode() + data)
                place = fresh / name
                place.parent.mkdir(parents=True, exist_ok=True)
                place.write_bytes(data)
            kept = f"design-{digest.hexdigest()[:16]}"
            if not (self.folder / kept).exists():
                fresh.rename(self.folder / kept)
            return kept
        except OSError as why:
            raise Trouble(f"{visible(str(self.folder))}: {why.strerror}") from why
        finally:
            shutil.rmtree(fresh, ignore_errors=True)

    def ran(self) -> List[str]:
        """The programs that were run, in the order in which they ended."""
        lines, here = [], str(self.session.folder)
        for it in self.session.ran():
            words = shlex.join(word.replace(here, "$FOLDER") for word in it.words)
            place = os.path.relpath(it.folder, here)
            lines.append(visible(f"{it.seconds:.2f} s, status {it.status}, in $FOLDER/{place}: {words}"))
        return lines


def contents(it: Translation) -> List[Tuple[str, bytes]]:
    """The files of a translation."""
    tops = sorted(path for pattern in SOURCES for path in it.folder.glob(pattern))
    files = [path for top in tops for path in (sorted(top.rglob("*")) if top.is_dir() else [top]) if path.is_file()]
    found = [(str(path.relative_to(it.folder)), path.read_bytes()) for path in files]
    return [*found, (SCRIPT, it.script.encode(errors="surrogateescape"))]
