"""The rows of tests/rows/all.sh that have bytes in and bytes out, and texts that are changed by chance."""
import os
import re
import subprocess
from pathlib import Path

TOP = Path(__file__).resolve().parents[2]
FLAGS = """--ascii -a --strip -s --keep-map --undo-map --outputs-as-bad --properties --witness --batch --vcd --cnf
    --by-name""".split()
TOOLS = "aigtoaig", "aigunroll", "aigsim", "aigmiter"
# prints each row of the table, each word of it ended by a NUL
ROWS = 'work=$1; . tests/rows/all.sh; row() { printf "%s\\0" $# "$@"; }; rows'
ESCAPE = re.compile(rb"\\(0[0-7]{0,3}|x[0-9a-f]{1,2}|.)", re.S)
LETTERS = {b"n": b"\n", b"r": b"\r", b"t": b"\t", b"\\": b"\\", b"a": b"\a"}


def meant(text):
    """The bytes that printf's %b makes of a text."""

    def byte(found):
        digits = found[1]
        if digits[:1] in (b"0", b"x"):
            return bytes([int(digits.lstrip(b"x"), 16 if digits[:1] == b"x" else 8) & 255])
        return LETTERS.get(digits, found[0])

    return ESCAPE.sub(byte, text)


def options_of(words):
    """What the words ask the library for: a name, options, and the names of files; or None."""
    name, options, files, rest = words[0], {}, [], list(words[1:])
    while rest:
        word = rest.pop(0)
        if word in FLAGS:
            options[{"-a": "ascii", "-s": "strip"}.get(word, word[2:].replace("-", "_"))] = True
        elif word in ("--max-var", "--frames", "--bad", "--justice", "--justice-as-bad") and rest and rest[0].isdigit():
            options[word[2:].replace("-", "_")] = int(rest.pop(0))
        elif word in ("--answer", "--refutation", "--invariant") and rest:
            options[word[2:]] = rest.pop(0)
        elif word.startswith("-") and word != "-":
            return None
        else:
            files.append(word)
    return name, options, files


def rows(folder):
    """The rows that have bytes in and bytes out: a name, the words, two inputs or three, and what is wanted."""
    said = subprocess.run(["bash", "-c", ROWS, "rows", folder], cwd=TOP, stdout=subprocess.PIPE, check=True)
    words = said.stdout.split(b"\0")
    while len(words) > 1:
        count = int(words[0])
        row, words = words[1 : count + 1], words[count + 1 :]
        name, given, output, errors, status = row[:5]
        asked = options_of([word.decode("utf-8", "surrogateescape") for word in row[5:]]) if len(row) > 5 else None
        if asked is None or status not in (b"0", b"1") or asked[0] not in TOOLS:
            continue
        tool, options, files = asked
        written = [options[it] for it in ("invariant", "answer", "refutation") if it in options]
        if written:
            files = [*(files or ["-"]), *written]
        inputs = [meant(given) if it == "-" else Path(it).read_bytes() if os.path.isfile(it) else None for it in files]
        whole = tool != "aigsim" or "batch" in options or "witness" in options or status == b"0"
        if tool == "aigsim":
            inputs += [meant(given)] * (len(inputs) == 1)
        elif tool != "aigmiter":
            inputs = (inputs or [meant(given)]) + [b""] * (not written)
        if whole and len(inputs) == 1 + (len(written) or 1) and None not in inputs:
            yield name.decode(), tool, options, inputs, (meant(output), meant(errors).decode(), int(status)), files


def mutated(chance, text):
    """The text with up to three bytes changed, put in or left out."""
    text = bytearray(text)
    for _ in range(chance.randrange(4)):
        at, how = chance.randrange(len(text) + 1), chance.randrange(3)
        if how == 0:
            text[at:at] = bytes([chance.choice(b"0123456789 \nabcx.")])
        elif how == 1:
            del text[at : at + 1]
        elif at < len(text):
            text[at] = chance.choice(b"0123456789 \n\x00\x80\xff")
    return bytes(text)
