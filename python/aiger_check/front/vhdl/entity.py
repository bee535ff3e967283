"""The top entity of a design in VHDL: its generics and ports, as they stand in the source."""

from typing import Dict, List, NamedTuple, Optional, Sequence

from aiger_check.front.vhdl.text import Text

SCALARS = ("std_logic", "std_ulogic", "bit")
VECTORS = ("std_logic_vector", "std_ulogic_vector", "unsigned", "signed", "bit_vector")
QUOTED = ("string", *VECTORS)
CHARACTERS = ("character", *SCALARS)
MODES = ("in", "out", "inout", "buffer", "linkage")


class Declared(NamedTuple):
    """A generic or a port: its mode, the words of its type, and those of its default."""

    name: str
    mode: str
    type: List[str]
    default: List[str]


class Entity(NamedTuple):
    """An entity, and the library and use clauses of its file."""

    context: List[str]
    generics: List[Declared]
    ports: List[Declared]


def entity_of(texts: Sequence[Text], name: str) -> Optional[Entity]:
    for text in texts:
        words = [it.text for it in text.words]
        for at in range(len(words) - 2):
            if words[at] == "entity" and words[at + 1] == name.lower() and words[at + 2] == "is":
                end = next((it for it in range(at, len(words)) if words[it] in ("end", "begin")), len(words))
                head = words[at + 3 : end]
                return Entity(clauses(words[:at]), declared(head, "generic"), declared(head, "port"))
    return None


def clauses(words: List[str]) -> List[str]:
    """The library and use clauses among these words, each as a text."""
    found, begin = [], 0
    for at, word in enumerate(words):
        if word == ";":
            if words[begin] in ("library", "use"):
                found.append(" ".join(words[begin:at]) + ";")
            begin = at + 1
    return list(dict.fromkeys(found))


def declared(words: List[str], kind: str) -> List[Declared]:
    """What a clause declares."""
    if kind not in words:
        return []
    depth, entries = 0, [[]]  # type: int, List[List[str]]
    for word in words[words.index(kind) + 1 :]:
        depth += (word == "(") - (word == ")")
        if depth == 0:
            break
        if word == ";" and depth == 1:
            entries.append([])
        elif not (word == "(" and depth == 1 and not entries[0]):
            entries[-1].append(word)
    return [it for entry in entries for it in of_entry(entry)]


def of_entry(entry: List[str]) -> List[Declared]:
    if ":" not in entry:
        return []
    colon = entry.index(":")
    names = [it for it in entry[:colon] if it not in (",", "signal", "constant")]
    rest = entry[colon + 1 :]
    mode = rest.pop(0) if rest and rest[0] in MODES else "in"
    # := is two words
    at = next((it for it in range(len(rest) - 1) if rest[it] == ":" and rest[it + 1] == "="), len(rest))
    return [Declared(name, mode, rest[:at], rest[at + 2 :]) for name in names]


def value_of(generic: Declared, given: Dict[str, str]) -> str:
    """The value of a generic as VHDL has it."""
    if generic.name not in given:
        return " ".join(generic.default)
    value = given[generic.name].strip('"')
    if generic.type[0] in QUOTED:
        return f'"{value}"'
    return f"'{value}'" if generic.type[0] in CHARACTERS and not value.startswith("'") else value
