"""The user's files as they are read."""

import os
import re
from dataclasses import dataclass
from pathlib import Path
from typing import Dict, Iterable, List, Optional, Sequence, Set, Tuple

from aiger_check.faults import Trouble, visible
from aiger_check.front.directives import Changes
from aiger_check.front.files import content, is_there, text_of
from aiger_check.front.sva.rewriting import Rewritten, macros_of, rewritten
from aiger_check.front.vhdl.ghdl import Vhdl

#: below the folder of a copy, so that names of other files may lead upwards
BELOW = "1/2/3/4/5/6"


@dataclass
class Copy:
    """A file of the user's: its name, the folder of that which was given and includes it, where it is copied to below
    the folder of all, and what stands in it."""

    name: str
    above: str
    place: str
    text: str = ""
    #: as it is read, before its assertions are rewritten
    changed: str = ""


class Sources:
    """The user's files, copied to one folder by plain names, so that nothing else is read, and no name needs quotes.

    What a file includes stands beside it; or else beside the file that was given, in the folders of -I, or where the
    program was started. So do the files of which words of memories are read. The folder is that of a descriptor, as
    the path of a temporary folder may be odd too.

    For who reads the files besides Yosys: `copied` are the files that were given, in their order; `folder` is where
    one has to look for those that they include; `defines` are pairs of a name and a value. Of a path `users_name` and
    `lines` tell what the user calls it and wrote there. Of a design in VHDL the one file is what was made of it.
    """

    def __init__(
        self,
        files: Sequence[str],
        include: Sequence[str],
        defines: Sequence[str],
        folder: Path,
        parameters: Sequence[str] = (),
        vhdl: Optional[Vhdl] = None,
    ) -> None:
        self.folder, self.searched = folder, [it or "." for it in include]
        self.descriptor = os.open(folder, os.O_RDONLY | os.O_DIRECTORY)
        self.alias = f"/proc/self/fd/{self.descriptor}"
        self.given = list(files)
        self.defines = [(name, value) for name, _, value in (define.partition("=") for define in defines)]
        self.parameters = list(parameters)
        self.copies: List[Copy] = []
        self.headers: Dict[Tuple[str, str], Copy] = {}
        self.missing: Dict[str, str] = {}
        self.strings: Set[str] = set()
        self.reads_words = False
        #: where a case promises that no two of its items match
        self.parallel: List[str] = []
        #: the assertions that are rewritten, by the prefix of their registers
        self.rewritten: Dict[str, Rewritten] = {}
        #: why what stands behind an unknown macro is not taken
        self.refused: Dict[str, str] = {}
        self.first = [self.copy(name, os.path.dirname(name)) for name in files]
        for copy in self.copies:
            # what it includes is added behind it
            self.take(copy)
        self.rewrite()
        self.vhdl = vhdl
        self.at_place = {copy.place: copy for copy in self.copies}
        self.copy_words([*parameters, *(value for _, value in self.defines)])

    def close(self) -> None:
        os.close(self.descriptor)

    @property
    def copied(self) -> List[Path]:
        return [self.folder / copy.place for copy in self.first]

    @property
    def files(self) -> List[str]:
        """The files that were given, as Yosys names them."""
        return [f"{self.alias}/{copy.place}" for copy in self.first]

    def copy(self, name: str, above: str) -> Copy:
        made = Copy(name, above, f"copy{len(self.copies)}/{BELOW}/aiger_check.sv")
        self.copies.append(made)
        return made

    def take(self, copy: Copy) -> None:
        """Copies a file, with other names for what it includes."""
        copy.text = text_of(copy.name)
        changes = Changes(copy.text, copy.name, lambda name, line: self.included(copy, name, line))
        self.strings |= changes.strings
        self.reads_words = self.reads_words or changes.reads_words
        self.parallel += (f"{copy.name}:{line}" for line in changes.parallel)
        copy.changed = changes.text

    def rewrite(self) -> None:
        """Puts each copy into its place, with assertions that Yosys takes."""
        macros = dict(self.defines)
        for copy in self.copies:
            for name, words in macros_of(copy.changed).items():
                macros[name] = f"{macros.get(name, '')} {words}"
        for copy in self.copies:
            found = rewritten(copy.changed, copy.name, macros)
            self.rewritten.update((it.prefix, it) for it in found.taken)
            self.refused.update((name, str(it)) for name, it in found.refused.items())
            self.put(copy.place, found.text.encode("latin-1"))

    def put(self, place: str, text: bytes) -> None:
        path = self.folder / place
        os.makedirs(path.parent, exist_ok=True)
        path.write_bytes(text)

    def candidates(self, copy: Copy, name: str) -> Iterable[str]:
        """What may be meant where a file names another one."""
        folders = [os.path.dirname(copy.name), copy.above, *self.searched, ""]
        return (found for found in (os.path.join(it, name) for it in folders) if is_there(found))

    def included(self, copy: Copy, name: str, line: int) -> str:
        """The place of a file that is included."""
        found = next(iter(self.candidates(copy, name)), None)
        if found is None:
            place = f"missing{len(self.missing)}"
            self.missing[place] = f"{visible(copy.name)}:{line}: there is no file {visible(name)} to include"
            return place
        if (found, copy.above) not in self.headers:
            self.headers[found, copy.above] = self.copy(found, copy.above)
        return self.headers[found, copy.above].place

    def copy_words(self, texts: Sequence[str]) -> None:
        """Copies files of words of memories: any string may be the name of one."""
        if not self.reads_words:
            return
        strings = self.strings.union(*(re.findall(r'"([^"\\]*)"', text) for text in texts))
        names = sorted(it for it in strings if 0 < len(it) < 256 and it.isprintable())
        for copy, name in ((copy, name) for copy in self.copies for name in names):
            found = next(iter(self.candidates(copy, name)), None)
            place = os.path.normpath(os.path.join(os.path.dirname(copy.place), name))
            if found is None:
                continue
            if not place.startswith(copy.place.partition("/")[0] + "/") and not os.path.isabs(name):
                raise Trouble(f"{visible(name)}: too many .. in the name of a file of words")
            words = content(found)
            if not os.path.isabs(name):
                self.put(place, words)

    def place_of(self, path: str) -> str:
        """The place of a copy below the folder of all."""
        for folder in (self.alias, str(self.folder)):
            if path.startswith(f"{folder}/"):
                return path[len(folder) + 1 :]
        return path

    def users_name(self, path: str) -> str:
        copy = self.at_place.get(self.place_of(path))
        if copy and self.vhdl:
            return self.vhdl.files[-1]
        return copy.name if copy else path

    def shown(self, path: str, line: int) -> str:
        """A line of a file, as the user calls it, or of line 0 the file."""
        origin = self.vhdl.origins.get(line) if self.vhdl else None
        name, number = origin[:2] if origin else (self.users_name(path), line)
        return f"{name}:{number}" if number else name

    def with_users_names(self, text: str) -> str:
        named = re.sub(rf"{re.escape(self.alias)}/[^\s:'`\"]+", lambda match: self.users_name(match[0]), text)
        return re.sub(r"Can't open include file `(missing\d+)'!?", lambda match: self.missing[match[1]], named)

    def order(self, path: str, line: int, column: int) -> Tuple[int, str, int, int]:
        """Where a place stands in the files that were given; others follow."""
        position = self.vhdl.position(line) if self.vhdl else None
        name = self.users_name(path)
        return position or (self.given.index(name) if name in self.given else len(self.given), name, line, column)

    def lines(self, path: str) -> List[str]:
        """The lines of a file that was copied, as the user wrote them."""
        copy = self.at_place.get(self.place_of(path))
        return copy.text.split("\n") if copy else []
