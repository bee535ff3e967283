"""Lists of files, as other tools have them."""

import os
import re
from dataclasses import dataclass, field
from typing import Iterator, List, NamedTuple, Sequence, Tuple

from aiger_check.faults import Trouble, visible
from aiger_check.front.files import content

#: what a list may have, in short, for who has something else
TAKEN = "a list has files, +incdir+DIR, +define+NAME=VALUE, -I DIR, -D NAME=VALUE, -f LIST and -F LIST"
VARIABLE = re.compile(r"\$(?:\w+|\{[^}]*\}|\([^)]*\))")
#: a comment begins where a word does: a path may have two slashes
COMMENT = re.compile(r"(?<!\S)(?:(?://|#)[^\n]*|/\*.*?\*/)", re.DOTALL)
WITH_VALUE = re.compile(r"(-[IDfF])(.*)", re.DOTALL)


class Word(NamedTuple):
    """A word of a list, and where it stands."""

    text: str
    place: str

    def refused(self, why: str) -> Trouble:
        return Trouble(f"{self.place}: {visible(self.text)}: {why}")


@dataclass
class FileList:
    """What a list names, and the lists that it has inside."""

    files: List[str] = field(default_factory=list)
    include: List[str] = field(default_factory=list)
    defines: List[str] = field(default_factory=list)


def read_list(name: str, is_beside: bool, above: Sequence[str] = ()) -> FileList:
    """Reads a list. What it names is looked for where the program was started, or beside the list."""
    if os.path.realpath(name) in above:
        raise Trouble(f"{visible(name)}: this list has itself inside")
    found, inside = FileList(), [*above, os.path.realpath(name)]
    words = iter(words_of(name))
    for word in words:
        take(word, words, os.path.dirname(name) if is_beside else "", inside, found)
    return found


def words_of(name: str) -> List[Word]:
    """The words of a list, without comments."""
    text = without_comments(content(name).decode("utf-8", "surrogateescape"))
    return [Word(word, f"{visible(name)}:{at}") for at, line in enumerate(text.split("\n"), 1) for word in line.split()]


def without_comments(text: str) -> str:
    """The text, where comments are blank."""
    return COMMENT.sub(lambda match: re.sub(r"[^\n]", " ", match[0]), text)


def take(word: Word, words: Iterator[Word], beside: str, above: Sequence[str], found: FileList) -> None:
    """Takes a word, with its value if that is the next one."""
    need_plain(word)
    text = word.text
    option = WITH_VALUE.fullmatch(text)
    if option:
        take_option(word, *option_of(word, words, option[1], option[2]), beside, above, found)
    elif text.startswith("+incdir+"):
        found.include += [os.path.join(beside, it) for it in text.split("+")[2:] if it]
    elif text.startswith("+define+"):
        found.defines += [it for it in text.split("+")[2:] if it]
    elif text[:1] in "+-":
        raise word.refused(f"this option is not taken: {TAKEN}")
    else:
        found.files.append(os.path.join(beside, text))


def need_plain(word: Word) -> None:
    variable = VARIABLE.search(word.text)
    if variable:
        raise word.refused(f"variables are not replaced in a list: write the value of {visible(variable[0])}")
    if word.text.startswith("/*"):
        raise word.refused("this comment does not end")
    if re.search(r"[\"'`\\]", word.text):
        raise word.refused("quotes are not taken in a list: give it on the command line")


def option_of(word: Word, words: Iterator[Word], option: str, value: str) -> Tuple[str, str]:
    """An option with its value, which stands in the same word or in the next."""
    if value:
        return option, value
    behind = next(words, None)
    if behind is None:
        raise word.refused("a value is missing behind it")
    need_plain(behind)
    return option, behind.text


def take_option(word: Word, option: str, value: str, beside: str, above: Sequence[str], found: FileList) -> None:
    if option == "-I":
        found.include.append(os.path.join(beside, value))
    elif option == "-D":
        found.defines.append(value)
    else:
        inner = read_list(os.path.join(beside, value), option == "-F", above)
        found.files += inner.files
        found.include += inner.include
        found.defines += inner.defines
