"""Wrong bodies: files NAME.edit, each of which changes functions of a crate; see run/wrong_bodies.py."""
import os
import re
from pathlib import Path

TOP = Path(__file__).resolve().parents[2]
RT = os.environ.get("RT", "rt")

FUNCTION = re.compile(r"^( *)(pub )?(?:pub\(\w+\) )?(?:const |extern \"C\" )?fn (\w+)", re.M)
BLOCK = re.compile(r"^(?:impl\b|(?:pub(?:\(\w+\))? )?trait\b)[^{]*", re.M)


class Unfit(Exception):
    """A wrong body that cannot be tried."""


class Function:
    """A function of a file: where it stands, and its name as the check prints it, without its module."""

    def __init__(self, text, head):
        indent = head[1]
        end = re.compile(rf"^{indent}(\}}|\{{\}})$", re.M).search(text, head.end())
        self.start, self.end = head.start(), end.end() if end else len(text)
        self.is_public_with_a_body = bool(head[2] and end and end[1] == "}")
        blocks = [*BLOCK.finditer(text, 0, self.start)][-1:] if indent else []
        block = "".join(block_name(it[0]) for it in blocks)
        self.name = f"{block}::{head[3]}" if block else head[3]
        self.is_in_module = not block or re.search(rf"^(pub(\(\w+\))? )?(struct|enum) {re.escape(block)}\b", text, re.M)

    def path(self, crate, file):
        """How its whole name ends. A method stands in the module of its type, which may be that of another file."""
        if not self.is_in_module:
            return f"::{self.name}"
        module = file.removeprefix("src/").removesuffix(".rt").replace("/", "::")
        return "::".join([crate, *([] if module in ("lib", "main") else [module]), self.name])


def block_name(head):
    """The name of an impl block or a trait: the type, then the trait and what it is applied to; or "Type+argument"."""
    if of_one_type := re.match(r"impl (\w+)<(\w+)>\s*$", head):
        return "+".join(of_one_type.groups())
    head = re.sub(r"^impl\s*(<(?:[^<>]|<[^<>]*>)*>)?|^.*\btrait\b", "", head)
    head = re.split(r"\swhere\s", head)[0]
    trait, is_for, implementor = head.partition(" for ")
    if not is_for:
        trait, implementor = "", head
    words = [re.sub(r"&('\w+ )?|<.*", "", implementor), trait.partition("<")[0], *re.findall(r"^[^<]*<([\w:]+)", trait)]
    name = "Ref" * implementor.startswith("&") + "".join(it.strip().rpartition("::")[2] for it in words)
    return name[:1].upper() + name[1:] if is_for else name


def functions_of(text):
    return [Function(text, it) for it in FUNCTION.finditer(text)]


class Change:
    """One text in place of another, in a file or in one function of it."""

    def __init__(self, file, function, old, new):
        self.file, self.function, self.old, self.new = file, function, old, new

    def place(self, text):
        """Where the old text stands."""
        start, end = 0, len(text)
        if self.function:
            spans = [(it.start, it.end) for it in functions_of(text) if it.name == self.function]
            if len(spans) != 1:
                raise Unfit(f"{self.file} has {len(spans)} functions {self.function}")
            start, end = spans[0]
        if text.count(self.old, start, end) != 1:
            raise Unfit(f"an old text stands there {text.count(self.old, start, end)} times, and not once: {self.old}")
        return text.index(self.old, start, end)

    def made(self, text):
        at = self.place(text)
        return text[:at] + self.new + text[at + len(self.old) :]


class WrongBody:
    """The changes of a file NAME.edit, their lines, and the functions that they are in; None is another place."""

    def __init__(self, crate, path):
        self.label = f"{crate}/{path.stem}"
        self.changes = []
        file = function = old = None
        for line in path.read_text(encoding="utf-8").splitlines():
            word, _, rest = line.partition(":")
            rest = rest.removeprefix(" ")
            if word == "file":
                file, function = rest, None
            elif word == "in":
                function = rest
            elif word == "old":
                old = rest
            elif word == "new" and file and old:
                self.changes.append(Change(file, function, old, rest))
                old = None
        if not self.changes:
            raise Unfit("it has no pair of lines 'old:' and 'new:'")
        self.lines = set()
        self.functions = {it for it in self.changed(crate) if it != "use"}

    def changed(self, crate):
        texts = {}
        for change in self.changes:
            path = TOP / "crates" / crate / change.file
            if not change.file.startswith("src/") or not path.is_file():
                raise Unfit(f"there is no {change.file} below src/")
            text = texts.get(change.file) or path.read_text(encoding="utf-8")
            middle = change.place(text) + len(change.old) // 2
            self.lines.add((change.file, text.count("\n", 0, middle) + 1))
            inside = [it for it in functions_of(text) if it.start <= middle <= it.end]
            yield inside[-1].path(crate, change.file) if inside else "use" if change.old.startswith("use ") else None
            texts[change.file] = change.made(text)

    def function(self):
        """The one function that it changes."""
        return next(iter(self.functions)) if len(self.functions) == 1 else None


def crates():
    """Each crate of crates.txt, and the repository's crates that it stands on."""
    lines = [it.partition("#")[0].partition(":") for it in (TOP / "crates.txt").read_text().splitlines()]
    listed = {name.split()[0]: below.replace(",", " ").split() for name, colon, below in lines if colon}
    return {name: [it for it in below if it in listed] for name, below in listed.items()}


def tell(failures):
    """Prints failures as they are found, and answers how many."""
    return sum(1 for it in failures if not print(f"FAILED {it}", flush=True))
