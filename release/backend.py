"""What pyproject.toml names as the maker of wheels, for pip and for release/wheel: a wheel has what release/install puts
below a folder, but for what compilers want."""

import base64
import hashlib
import os
import re
import subprocess
import sys
import tempfile
import zipfile
from pathlib import Path
from typing import Any, Dict, Iterator, NamedTuple, Optional

TOP = Path(__file__).resolve().parents[1]
NAME, TAG = "aigtools", "py3-none-manylinux2014_x86_64"
USAGE = "usage: release/wheel [FOLDER]     makes a wheel for pip of the released files in FOLDER, or here"
LIBRARY = "libaigtools.so.1"
MODULES = "lib/python3/dist-packages/"

# pip writes the path of its Python into the first line
CHECK = b'''#!python
"""Runs aiger-check with the program aiger beside this one, or the one that AIGER names."""
import os
import sys

os.environ.setdefault("AIGER", os.path.join(os.path.dirname(os.path.realpath(__file__)), "aiger"))
from aiger_check.cli import main

sys.exit(main(sys.argv[1:]))
'''

METADATA = """\
Metadata-Version: 2.1
Name: {name}
Version: {version}
Summary: Circuits in the AIGER format, read, written, simulated and checked, by proved code
License: MIT
Requires-Python: >=3.9
Classifier: Operating System :: POSIX :: Linux
"""

WHEEL = f"""\
Wheel-Version: 1.0
Generator: aiger release/backend.py
Root-Is-Purelib: false
Tag: {TAG}
"""


class File(NamedTuple):
    """A file of the wheel."""

    place: str
    data: bytes
    mode: int = 0o644


def version() -> str:
    """The version that is released."""
    found = re.search(r"^version (.*)$", (TOP / "release" / "MANIFEST").read_text(encoding="utf-8"), re.M)
    if not found:
        sys.exit("release/MANIFEST has no version")
    return found[1]


def place_of(name: str, data_folder: str) -> Optional[str]:
    """Where a wheel has an installed file, if it has it."""
    if name.startswith(MODULES):
        return name[len(MODULES) :]
    if name == f"lib/{LIBRARY}":
        return LIBRARY
    if name.startswith("bin/"):
        return f"{data_folder}/scripts/{name[4:]}"
    if name.startswith("share/") and name != "share/aiger/installed":
        return f"{data_folder}/data/{name}"
    return None


def installed_files(data_folder: str) -> Iterator[File]:
    """The files of the wheel that release/install makes."""
    with tempfile.TemporaryDirectory() as room:
        below = Path(room, "aigtools")
        command = [str(TOP / "release" / "install"), "/aigtools", "--destdir", room]
        subprocess.run(command, check=True, stdout=subprocess.DEVNULL, stderr=subprocess.DEVNULL)
        for path in sorted(it for it in below.rglob("*") if it.is_file()):
            name = path.relative_to(below).as_posix()
            place = place_of(name, data_folder)
            if place:
                data = CHECK if name == "bin/aiger-check" else path.read_bytes()
                yield File(place, data, path.stat().st_mode & 0o777)


def record_of(file: File) -> str:
    """The line of a file in the record of the wheel."""
    digest = base64.urlsafe_b64encode(hashlib.sha256(file.data).digest()).rstrip(b"=").decode()
    return f"{file.place},sha256={digest},{len(file.data)}\n"


def build_wheel(
    wheel_directory: str, config_settings: Optional[Dict[str, Any]] = None, metadata_directory: Optional[str] = None
) -> str:
    """Makes the wheel in a folder, and returns its name. The same released files make the same bytes."""
    del config_settings, metadata_directory
    stem = f"{NAME}-{version()}"
    files = list(installed_files(f"{stem}.data"))
    about = f"{stem}.dist-info"
    metadata = METADATA.format(name=NAME, version=version()).encode()
    files += [File(f"{about}/METADATA", metadata), File(f"{about}/WHEEL", WHEEL.encode())]
    files.append(File(f"{about}/LICENSE", (TOP / "LICENSE").read_bytes()))
    record = "".join(map(record_of, files)) + f"{about}/RECORD,,\n"
    made = f"{stem}-{TAG}.whl"
    with zipfile.ZipFile(os.path.join(wheel_directory, made), "w", zipfile.ZIP_DEFLATED) as archive:
        for file in [*files, File(f"{about}/RECORD", record.encode())]:
            entry = zipfile.ZipInfo(file.place)  # of 1980, as each
            entry.external_attr = (0o100000 | file.mode) << 16
            archive.writestr(entry, file.data, zipfile.ZIP_DEFLATED)
    return made


def main(folder: str = ".") -> None:
    if folder.startswith("-"):
        is_help = folder in ("-h", "--help")
        print(USAGE, file=sys.stdout if is_help else sys.stderr)
        sys.exit(0 if is_help else 2)
    if not os.path.isdir(folder):
        sys.exit(f"wheel: there is no folder {folder}")
    print(os.path.join(folder, build_wheel(folder)))


if __name__ == "__main__":
    main(*sys.argv[1:2])
