#!/usr/bin/env python3
"""The library libaigtools beside the linked program: what it answers to the rows of tests/rows/all.sh, to inputs that are
changed by chance, to those of megabytes, to memory that is refused, to outputs that are too short, and from threads at
once; its symbols; that its header, its Python module and its sources have the same numbers, and their structs the same
form; that each option of a command is one of a call; the examples of the header and of the Python module, and the
programs of examples/c and examples/python, over it.

    tests/run/library.py FOLDER PROGRAM     FOLDER holds libaigtools.a and libaigtools.so.1, as release/library makes them
"""
import ctypes
import dataclasses
import doctest
import inspect
import itertools
import os
import random
import re
import resource
import shutil
import subprocess
import sys
import tempfile
from array import array
from concurrent.futures import ThreadPoolExecutor
from pathlib import Path

sys.dont_write_bytecode = True
sys.path[0] = str(Path(__file__).resolve().parent.parent)
from lib import examples, large
from lib.texts import mutated, rows

TOP = Path(__file__).resolve().parents[2]
SEED, MUTANTS = 7, 2400
# what a large circuit has of each kind, steps of its stimulus, frames; bytes that a large text has at least
LINES, STEPS, FRAMES, MANY = 70_000, 16, 3, 1_000_000
# what a smaller one has, and runs of its stimulus
FEWER, RUNS = 60, 1_000

passed = failed = skipped = 0


def judge(name, holds, *details):
    """Counts a check, and says what went wrong."""
    global passed, failed
    if holds:
        passed += 1
        return
    failed += 1
    print("FAILED", name, *(repr(it)[:300] for it in details))


def judged(with_run, model, witness, options):
    """The same where a witness is judged, with the waveform of its run or without."""
    if with_run:
        step, output = aigtools.dump(model, witness, **options)
    else:
        step = aigtools.confirm(model, witness, **options)
        output = b"not confirmed\n" if step is None else b"confirmed %d\n" % step
    return output, "", int(step is None)


def answer(name, options, first, second, third=b""):
    """What the library answers, as the program would: its output, what it refuses and why, and its status."""
    options = dict(options)
    try:
        if name == "aigmiter":
            return aigtools.miter(first, second, **options), "", 0
        if name == "aigtoaig":
            return aigtools.convert(first, **options), "", 0
        if name == "aigunroll" and options.pop("invariant", False):
            if not options.pop("refutation", False):
                options.pop("cnf")
                return aigtools.invariant_clauses(first, second, **options), "", 0
            aigtools.never(first, second, third, **options)
            return b"never\n", "", 0
        if name == "aigunroll" and options.pop("answer", False):
            return aigtools.answer(first, second, **options), "", 0
        if name == "aigunroll" and options.pop("refutation", False):
            aigtools.refute(first, second, **options)
            return b"none within %d\n" % options["frames"], "", 0
        if name == "aigunroll":
            call = aigtools.clauses if options.pop("cnf", False) else aigtools.unroll
            return call(first, **options), "", 0
        options.pop("batch", None)
        if options.pop("witness", False):
            return judged(options.pop("vcd", False), first, second, options)
        return aigtools.simulate(first, second, **options), "", 0
    except aigtools.Refused as refused:
        return b"", refused, 1


def lines(tool, refused, files):
    """The lines in which the program may say the same: of two circuits it names the one that is refused."""
    if not refused:
        return {""}
    named = [files[refused.second]] if tool == "aigmiter" else [*files, "-"]
    return {f"aiger: {it}: {refused}\n" for it in named}


def check_rows():
    """Each row gets the same bytes, the same words and the same status."""
    with tempfile.TemporaryDirectory() as folder:
        count = 0
        for name, tool, options, inputs, wanted, files in rows(folder):
            output, refused, status = answer(tool, options, *inputs)
            holds = (output, status) == (wanted[0], wanted[2]) and wanted[1] in lines(tool, refused, files)
            judge(name, holds, wanted, output, refused, status)
            count += 1
        judge("most rows are there", count > 500, count)


def has_justice(text):
    """Whether the header counts justice properties."""
    return text.split(b"\n", 1)[0].split()[8:9] not in ([], [b"0"])


def property_(chance):
    """The words for all bad states, for one of them, or for a justice property."""
    return chance.choice([{}, {"bad": chance.randrange(3)}, {"justice": chance.randrange(2)}])


def mutants(folder, program):
    """Inputs, most of them changed by chance, with words for the program and for the library."""
    chance = random.Random(SEED)
    seeds = [path.read_bytes() for path in sorted((TOP / "examples").glob("*.a[ai]g"))]
    seeds += [row[3][0] for row in rows(folder) if row[4][2] == 0 and len(row[3][0]) < 2000][::7]
    seeds += [aigtools.convert(it, keep_map=True) for it in seeds]
    for number in range(MUTANTS):
        seed, kind = chance.choice(seeds), chance.randrange(14)
        text = mutated(chance, seed) if chance.randrange(12) else seed
        if kind < 6:
            flags = [(), ("ascii",), ("keep_map",), ("undo_map",), ("undo_map", "ascii"), ("strip",)]
            flags += [("outputs_as_bad",), ("simplify",), ("simplify", "ascii")]
            options = dict.fromkeys(chance.choice(flags), True)
            words = [f"--{it.replace('_', '-')}" for it in options]
            if has_justice(seed) and not options.keys() & {"keep_map", "undo_map", "outputs_as_bad"}:
                options["justice_as_bad"] = chance.randrange(2)
                words += ["--justice-as-bad", str(options["justice_as_bad"])]
            yield "aigtoaig", words, options, text, b""
        elif kind < 8:
            frames, flags = chance.randrange(1, 4), chance.choice([(), ("simplify",)])
            words = [f"--{it}" for it in flags]
            options = {"frames": frames, **dict.fromkeys(flags, True)}
            yield "aigunroll", ["--frames", str(frames), *words], options, text, b""
        elif kind < 10:
            options = {"frames": chance.randrange(1, 4), **property_(chance)}
            words = [word for name, number in options.items() for word in (f"--{name}", str(number))]
            if chance.randrange(2):
                options["simplify"] = True
                words.append("--simplify")
            if kind == 8 and chance.randrange(2):
                yield "aigunroll", [*words, "--cnf"], {**options, "cnf": True}, text, b""
            elif kind == 8:
                said = chance.choice([b"", b"c\n-2 0\nd 2 0\n3 0\n0\n", b"a\5\0d\6\0a\7\0a\0"])
                yield "aigunroll", [*words, "--refutation", "-"], {**options, "refutation": "-"}, text, mutated(chance, said)
            else:
                said = b"c\ns SATISFIABLE\nv %d %d 5 -6\nv 0\n" % (chance.randrange(1, 9), chance.randrange(1, 9))
                yield "aigunroll", [*words, "--answer", "-"], {**options, "answer": "-"}, text, mutated(chance, said)
        elif kind == 13:
            flags = chance.choice([(), ("ascii",), ("by_name",), ("by_name", "ascii"), ("simplify", "ascii")])
            words = [f"--{it.replace('_', '-')}" for it in flags]
            yield "aigmiter", words, dict.fromkeys(flags, True), *chance.sample([seed, text], 2)
        elif kind == 12:
            latches = re.match(rb"a[ai]g \d+ \d+ (\d+)", text)
            width = min(int(latches[1]), 9) if latches else 1
            cubes = [b"%s 1\n" % bytes(chance.choice(b"01-") for _ in range(width)) for _ in range(chance.randrange(3))]
            options = property_(chance)
            words = [word for name, number in options.items() for word in (f"--{name}", str(number))]
            words, options = [*words, "--invariant", "-", "--cnf"], {**options, "invariant": "-", "cnf": True}
            yield "aigunroll", words, options, text, mutated(chance, b"".join(cubes))
        else:
            inputs = re.match(rb"a[ai]g \d+ (\d+)", text)
            width = min(int(inputs[1]), 9) if inputs else 1
            steps = b"".join(b"%s\n" % bytes(chance.choice(b"01x") for _ in range(width)) for _ in range(3))
            if kind == 10:
                flags = chance.choice([(), ("properties",), ("vcd",), ("vcd",)])
                words, options = ["--batch", *(f"--{it}" for it in flags)], dict.fromkeys(flags, True)
                yield "aigsim", words, options, text, mutated(chance, steps)
            else:
                flags = chance.choice([("witness",), ("witness", "vcd")])
                words, options = [f"--{it}" for it in flags], dict.fromkeys(flags, True)
                claim = b"1\n%s\n0\n" % chance.choice([b"b0", b"b0", b"j0"])
                yield "aigsim", words, options, text, mutated(chance, claim + steps + b".\n")


def check_mutants(program):
    """The library answers what the program does."""
    with tempfile.TemporaryDirectory() as folder, ThreadPoolExecutor(os.cpu_count()) as pool:

        def compare(mutant):
            number, (tool, words, options, first, second) = mutant
            given, files = first, []
            if tool in ("aigsim", "aigmiter") or {"answer", "refutation", "invariant"} & options.keys():
                model = Path(folder, str(number))
                model.write_bytes(first)
                given, files = second, [str(model), *["-"] * (tool == "aigmiter")]
            ran = subprocess.run([program, tool, *words, *files], input=given, capture_output=True, check=False)
            output, refused, status = answer(tool, options, first, second)
            is_told = ran.stderr.decode("latin-1") in lines(tool, refused, files)
            return (ran.stdout, ran.returncode) == (output, status) and is_told, mutant, ran, output, refused

        refused = 0
        for holds, *details in pool.map(compare, enumerate(mutants(folder, program))):
            judge("a changed input", holds, *details)
            refused += details[1].returncode
        judge("some inputs are refused, and some are not", MUTANTS // 4 < refused < MUTANTS * 3 // 4, refused)


def refusal(call, *inputs, **options):
    """Why a call refuses, or None."""
    try:
        call(*inputs, **options)
    except aigtools.Refused as told:
        return told
    return None


def renumbered(circuit, numbers):
    """The circuit as its new numbers make it, but for the order of its gates."""
    defined = [*circuit.inputs, *(it.literal for it in circuit.latches), *(it.literal for it in circuit.gates)]
    new = {0: 0, **dict(zip((it // 2 for it in defined), numbers))}

    def of(literal):
        return 2 * new[literal // 2] + literal % 2

    fields = {name: [*map(of, getattr(circuit, name))] for name in "inputs outputs bad constraints justice_literals fairness".split()}
    latches = [(of(it.literal), of(it.next), it.reset if it.reset < 2 else of(it.reset)) for it in circuit.latches]
    gates = [(of(it.literal), *sorted((of(it.left), of(it.right)), reverse=True)) for it in circuit.gates]
    others = {name: getattr(circuit, name) for name in ("justice_sizes", "symbols", "comment")}
    return aigtools.Circuit(latches=latches, gates=sorted(gates), max_var=len(numbers), **fields, **others)


def stepped(circuit, steps):
    """The lines of a trace that a circuit makes of these inputs."""
    state, lines = circuit.first_state(), []
    for inputs in steps:
        step = circuit.step(inputs, state)
        columns = state, inputs, step.outputs, step.next, step.bad, step.constraints
        lines.append(" ".join("".join("01x"[it] for it in column) for column in columns) + "\n")
        state = step.next
    return "".join(lines).encode() + b".\n"


def check_circuit(chance, text):
    """The circuit of a text: it is the one that is converted and simulated, or it is refused in the same words."""
    why = refusal(aigtools.convert, text)
    if why:
        for ordered in (False, True):
            same = refusal(aigtools.read, text, ordered=ordered)
            judge("what is refused as arrays", same and vars(same) == vars(why), text, same, why)
        return None
    image, circuit = aigtools.convert(text), aigtools.read(text)
    judge("a circuit", circuit.write() == image, text, circuit)
    judge("a circuit in ASCII", circuit.write(ascii=True) == aigtools.convert(text, ascii=True), text, circuit)
    judge("a circuit read again", aigtools.read(circuit.write(ascii=True)) == circuit, text, circuit)
    ordered, of_image = circuit.ordered(), aigtools.read(image)
    judge("a circuit in order", aigtools.read(text, ordered=True) == ordered, text, ordered)
    numbers, ordered.numbers = ordered.numbers, None
    judge("a circuit in order is its image", ordered == of_image, text, ordered)
    judge("its numbers", renumbered(circuit, numbers) == ordered, text, numbers)
    steps = [[chance.randrange(3) for _ in circuit.inputs] for _ in range(3)]
    stimulus = "".join("".join("01x"[it] for it in step) + "\n" for step in steps).encode()
    trace = aigtools.simulate(text, stimulus, properties=True)
    columns = 6 if circuit.bad or circuit.constraints else 4
    made = stepped(ordered, steps)
    judge("its steps", made == trace or columns == 4 and made.replace(b"  \n", b"\n") == trace, text, made, trace)
    return circuit


def text_of(circuit):
    """A circuit in ASCII, whatever it is, and the entry that stands in each line."""
    counts = [len(getattr(circuit, it)) for it in "inputs latches outputs gates bad constraints justice_sizes fairness".split()]
    lines, entries = [" ".join(map(str, ["aag", circuit.max_var, *counts]))], [None]
    for name, width in aigtools._WIDTHS.items():
        if width < 4 and name != "numbers":
            for at, entry in enumerate(getattr(circuit, name)):
                lines.append(" ".join(map(str, entry if width == 3 else [entry])))
                entries.append((name, at))
    for at, (kind, position, name) in enumerate(circuit.symbols):
        lines.append(f"{kind}{position} {name.decode('latin-1')}")
        entries.append(("symbols", at))
    return "".join(f"{line}\n" for line in lines).encode("latin-1"), entries


def check_mistakes(chance, circuit):
    """A circuit with a number changed is refused as its text is, in the entry that stands in the line."""
    above = 2 * circuit.max_var + 2
    number = min(chance.choice([0, 1, 2, 3, chance.randrange(above), above, 2**32]), 2**32 - 1)
    name = chance.choice([*aigtools._WIDTHS])
    words = getattr(getattr(circuit, name), "words", getattr(circuit, name))
    if name in ("justice_sizes", "numbers") or not words:
        return
    at = chance.randrange(len(words))
    before = words[at]
    words[at] = before._replace(position=number) if name == "symbols" else number
    text, entries = text_of(circuit)
    why, here = refusal(aigtools.convert, text), refusal(circuit.write, ascii=bool(chance.randrange(2)))
    words[at] = before
    if not why or not here:
        judge("a changed number is right", not why and not here, text, here, why)
    elif why.kind is not aigtools.Kind.BAD_HEADER:
        entry = entries[why.line - 1] if why.line else None
        wanted = (why.kind, why.subject, entry, why.message.partition(": ")[2] if entry else why.message)
        came = here.message.partition(": ")[2] if entry else here.message
        judge("a changed number", (here.kind, here.subject, here.entry, came) == wanted, text, here, why)


def check_circuits(folder):
    """Circuits as arrays, in the Python module: those of the rows, changed by chance too, and circuits that are wrong."""
    chance = random.Random(SEED)
    texts = [path.read_bytes() for path in sorted((TOP / "examples").glob("*.a[ai]g"))]
    texts += [row[3][0] for row in rows(folder) if len(row[3][0]) < 2000]
    texts += [mutated(chance, chance.choice(texts)) for _ in range(MUTANTS // 8)]
    texts, right = [*dict.fromkeys(texts)], 0
    for text in texts:
        circuit = check_circuit(chance, text)
        right += circuit is not None
        for _ in range(4 if circuit else 0):
            check_mistakes(chance, circuit)
    judge("some circuits are right, and some are not", len(texts) // 4 < right < len(texts) * 3 // 4, right, len(texts))
    # so many symbols that there is no room for their words at first
    text = b"aag 9 9 0 0 0\n" + b"".join(b"%d\n" % (2 * at + 2) for at in range(9)) + b"".join(b"i%d \n" % at for at in range(9))
    judge("many symbols", aigtools.read(text).write(ascii=True) == text)


def wrong(told, kind, entry=None):
    """Whether this was told of a circuit."""
    return told is not None and (told.kind.name, told.entry) == (kind, entry)


# a counter of three bits, which its outputs show, their lowest bit negated; and what else has names
NAMED = b"""aag 12 1 4 4 6 1 1 2 1
2
4 5
6 12 1
8 18
20 20 20
5
6
8
20
18
20
1
2
4
6
8
12
10 6 4
12 15 11
14 7 5
18 25 23
22 10 8
24 11 9
l0 n[0]
l1 n[1]
l2 n[2]
l3 loose
i0 n
o0 m[0]
o1 m[1]
o2 m[2]
o3 b0
b0 never
j1 \xff[7]
f0 again
"""


def check_names():
    """What is found by its name, and the values of words; files by their names."""
    circuit = aigtools.read(NAMED)
    for name, kind, wanted in (
        ("n", None, [("i", 0, (2,))]),
        ("n", "l", [("l", 0, (4,)), ("l", 1, (6,)), ("l", 2, (8,))]),
        ("n[1]", None, [("l", 1, (6,))]),
        ("m", None, [("o", 0, (5,)), ("o", 1, (6,)), ("o", 2, (8,))]),
        ("never", None, [("b", 0, (18,))]),
        ("b0", None, [("o", 3, (20,))]),
        ("b0", "b", [("b", 0, (18,))]),
        ("c0", None, [("c", 0, (20,))]),
        ("j0", None, [("j", 0, (4,))]),
        ("\udcff[7]", None, [("j", 1, (6, 8))]),
        ("\udcff", "j", [("j", 1, (6, 8))]),
        ("again", "f", [("f", 0, (12,))]),
    ):
        came = circuit.named(name, kind)
        judge("what has a name", [(it.kind, it.position, it.literals) for it in came] == wanted, name, kind, came)
    judge("the names of bits", [it.name for it in circuit.named("m")] == ["m[0]", "m[1]", "m[2]"])
    for name, kind in (("", None), ("b1", None), ("b00", None), ("x0", None), ("n", "o"), ("m[3]", None), ("nn", None), ("j2", None)):
        judge("no such name", refuses(KeyError, name, circuit.named, name, kind), name)
    circuit, state = circuit.ordered(), None
    for number in range(2, 12):
        step = circuit.step([number % 3], state)
        judge("the value of a word", circuit.value(step, "n", "l") == number % 8, number)
        judge("with a bit negated", circuit.value(step, "m") == number % 8 ^ 1, number)
        judge("of a signal", circuit.value(step, "n") == (None if number % 3 == 2 else number % 3), number)
        judge("of what is not known", circuit.value(step, "loose") is None)
        state = step.next
    judge("no signal", refuses(ValueError, "no signal", circuit.value, step, "j0"))
    with tempfile.TemporaryDirectory() as folder:
        path = Path(folder, "named.aag")
        path.write_bytes(NAMED)
        for name in (path, str(path)):
            judge("a file by its name", aigtools.read(name, ordered=True) == circuit, name)
        judge("no file", refuses(FileNotFoundError, "none", aigtools.read, Path(folder, "none")))


def check_wrong_circuits():
    """What is told of circuits that no file can have, and of values; what the module takes, and what it does not."""
    circuit = aigtools.Circuit
    for given, kind, entry in (
        ({"justice_sizes": [1]}, "BAD_COUNTS", None),
        ({"justice_literals": [0]}, "BAD_COUNTS", None),
        ({"justice_sizes": [2**32 - 1, 1]}, "BAD_COUNTS", None),
        ({"latches": [(2, 2, 1), (4, 2, 2)]}, "BAD_RESET", ("latches", 1)),
        ({"gates": [(2, 0, 0), (3, 0, 0)]}, "NOT_VARIABLE", ("gates", 1)),
        ({"inputs": [2], "symbols": [("i", 0, b"a"), ("x", 0, b"")]}, "BAD_SYMBOL", ("symbols", 1)),
        ({"inputs": [2], "symbols": [("i", 0, b"a\nb")]}, "BAD_SYMBOL", ("symbols", 0)),
        ({"inputs": [2], "symbols": [("o", 0, b"a")]}, "SYMBOL_RANGE", ("symbols", 0)),
        ({"inputs": [2], "symbols": [("i", 0, b"a"), ("i", 0, b"b")]}, "SYMBOL_TWICE", ("symbols", 1)),
        ({"inputs": [2, 2]}, "REDEFINED", None),
        ({"outputs": [2], "max_var": 1}, "UNDEFINED", None),
        ({"gates": [(2, 4, 4), (4, 2, 2)]}, "CYCLIC", None),
    ):
        told = refusal(circuit(**given).write)
        judge("a circuit that is wrong", wrong(told, kind, entry), given, told)
    named = circuit(inputs=[2], symbols=[("i", 0, b"\0 \xff")], comment=b"a\nb")
    judge("names and comment", named.write(ascii=True) == b"aag 1 1 0 0 0\n2\ni0 \0 \xff\nc\na\nb")
    judge("an empty comment", circuit(comment=b"").write() == b"aig 0 0 0 0 0\nc\n" and circuit().write() == b"aig 0 0 0 0 0\n")
    gate = circuit(inputs=[2, 4], latches=[(6, 8, 6)], outputs=[8], gates=array("I", [8, 6, 2]))
    judge("a step from the first state", gate.step([1, 0]) == (b"\0\1\0\2\2", b"\2", b"", b"", b"\2"))
    judge("a bad input", wrong(refusal(gate.step, [1, 3]), "BAD_VALUE", ("inputs", 1)))
    judge("a bad state", wrong(refusal(gate.step, [1, 0], [255]), "BAD_VALUE", ("state", 0)))
    for other in ({"inputs": [4, 2]}, {"max_var": 5}, {"gates": [(8, 8, 2)]}, {"gates": [(8, 2, 10)]}, {"outputs": [10]}):
        told = refusal(dataclasses.replace(gate, **other).step, [0, 0])
        judge("no circuit in order", wrong(told, "NOT_ORDERED"), other, told)
    for words, call, *inputs in (
        ("inputs has 1 values, and not 2", gate.step, [1]),
        ("state has 0 values, and not 1", gate.step, [1, 1], []),
        ("three for each Gate", circuit, 0, (), (), (), (), (), (), (), (), array("I", [2, 4])),
        ("max_var is not from 0", circuit(aigtools.LARGEST + 1).write),
    ):
        judge("a wrong argument", refuses(ValueError, words, call, *inputs), words)
    judge("a gate of two numbers", refuses(TypeError, "right", circuit, gates=[(2, 4)]))
    judge("no literal", refuses(OverflowError, "unsigned", circuit, inputs=[-2]))
    judge("a slice of gates", aigtools.Circuit(gates=[(2, 0, 0), (4, 2, 2)]).gates[-1:] == [(4, 2, 2)])
    judge("what is told of a circuit", repr(gate) == "<Circuit: max_var 4, 2 inputs, 1 latches, 1 outputs, 1 gates>", repr(gate))


class Sizes:
    """The library beside the program at inputs and texts of megabytes, where the contracts would allow that either says it
    is out of memory. What is wanted is made by rule in tests/lib/large.py."""

    def __init__(self, program, work):
        self.program, self.model = program, Path(work, "model")

    def alike(self, name, made, words, given, wanted=None):
        """That this was made, as the program makes it, and as it is wanted."""
        ran = subprocess.run([self.program, *words.split()], input=given, capture_output=True, check=False)
        sizes = len(made), len(ran.stdout), ran.stderr
        judge(f"{name} of megabytes, as {words} makes it", made == ran.stdout and not ran.stderr and len(made) > MANY, *sizes)
        judge(f"{name} of megabytes", wanted in (made, None), *sizes)
        return made

    def text(self, letters, numbers=range(LINES - 1, -1, -1)):
        return "".join(large.wide(LINES, numbers, letters)).encode()

    def conversions(self):
        """A circuit whose gates stand the wrong way round."""
        source, ordered = self.text("ilobcjf"), self.text("ilobcjf", range(LINES))
        end = len(source) - source.index(b"\ni0 0\n") - 1
        image = self.alike("an image", aigtools.convert(source), "aigtoaig", source)
        self.alike("a text", aigtools.convert(source, ascii=True), "aigtoaig --ascii", source, source)
        self.alike("what is read again", aigtools.convert(image, ascii=True), "aigtoaig --ascii", image, ordered)
        stripped = aigtools.convert(source, ascii=True, strip=True)
        self.alike("a stripped text", stripped, "aigtoaig --strip --ascii", source, source[:-end])
        stripped = aigtools.convert(source, strip=True)
        self.alike("a stripped image", stripped, "aigtoaig --strip", source, image[:-end])
        mapped = self.alike("an image", aigtools.convert(source, keep_map=True), "aigtoaig --keep-map", source)
        judge("arrays of megabytes", aigtools.read(source).write(ascii=True) == source)
        judge("and in order", aigtools.read(source, ordered=True).write(ascii=True) == ordered)
        undone = aigtools.convert(mapped, undo_map=True, ascii=True)
        self.alike("an undone text", undone, "aigtoaig --undo-map --ascii", mapped, source)
        self.alike("an undone image", aigtools.convert(mapped, undo_map=True), "aigtoaig --undo-map", mapped, image)

    def unrolled(self):
        """A circuit in frames, of which the header and the lines are counted."""
        source, words = self.text("ilobc"), f"aigunroll --frames {FRAMES}"
        text = self.alike("frames", aigtools.unroll(source, FRAMES, ascii=True), f"{words} --ascii", source)
        image = self.alike("frames", aigtools.unroll(source, FRAMES), words, source)
        self.alike("frames", aigtools.convert(text), "aigtoaig", text, image)
        # an uninitialised latch is an input; a frame has the gates, and one for each bad state and each constraint
        listed, inputs = FRAMES * LINES, FRAMES * LINES + LINES // 3
        head = f"aag {inputs + 3 * listed} {inputs} 0 {listed} {3 * listed} {listed}".encode()
        came = text[: text.index(b"\n")], text.count(b"\n")
        judge("frames by count", came == (head, 1 + inputs + 5 * listed), *came)
        text = self.alike("clauses", aigtools.clauses(source, FRAMES), f"{words} --cnf", source)
        head = f"p cnf {inputs + 3 * listed + 1} {9 * listed + 2}".encode()
        came = text[: text.index(b"\n")], text.count(b"\n")
        judge("clauses by count", came == (head, 9 * listed + 3), *came)

    def answered(self):
        """A solver's answer by which all inputs and all first values are 1."""
        source, words = self.text("ilobc"), f"aigunroll --frames {FRAMES} --bad {LINES - 1} --answer - {self.model}"
        self.model.write_bytes(source)
        values = b"".join(b"v %d\n" % (at + 2) for at in range(LINES // 3 + FRAMES * LINES))
        given = b"s SATISFIABLE\n" + values + b"v 0\n"
        made = aigtools.answer(source, given, FRAMES, bad=LINES - 1)
        ran = subprocess.run([self.program, *words.split()], input=given, capture_output=True, check=False)
        wanted = b"1\nb%d\n%s\n%s\n.\n" % (LINES - 1, (b"011" * LINES)[:LINES], b"1" * LINES)
        judge("an answer of megabytes", len(given) > MANY and made == ran.stdout == wanted, len(given), len(made), ran.stderr)
        judge("its witness", aigtools.confirm(source, made) == 0)

    def refuted(self):
        """A refutation of megabytes, and one that does not follow at its end."""
        source, words = b"aag 1 0 1 0 0 1\n2 3\n2\n", f"aigunroll --frames 2 --refutation - {self.model}"
        self.model.write_bytes(source)
        given = b"3 0\nd 2 3 0\n-2 -2 0\n" * LINES
        for rest, said in ((b"", "no refutation"), (b"0\n", f"line {3 * LINES + 1}: does not follow")):
            ran = subprocess.run([self.program, *words.split()], input=given + rest, capture_output=True, check=False)
            output, refused, status = answer("aigunroll", {"frames": 2, "refutation": "-"}, source, given + rest)
            came = output, str(refused), status
            judge("a refutation of megabytes", len(given) > MANY and came == (b"", said, 1), came)
            judge("and by the program", ran.stderr == f"aiger: -: {said}\n".encode(), ran.stderr)

    def shown(self):
        """An invariant of megabytes, and a refutation of its clauses: that the constraints are not 1 in all."""
        source, given = b"aag 1 0 1 0 0 1\n2 2\n2\n", b"# no state\n1 1\n" * LINES
        self.model.write_bytes(source)
        words = f"aigunroll --invariant - --cnf {self.model}"
        text = self.alike("clauses of an invariant", aigtools.invariant_clauses(source, given), words, given)
        # a cube has a gate for the state and one for the next one, and a gate in each of two chains
        came = text[: text.index(b"\n")], text.count(b"\n")
        judge("clauses of an invariant by count", came == (b"p cnf %d %d" % (4 * LINES + 3, 12 * LINES + 5), 12 * LINES + 6))
        proof = b"c\n" * MANY + b"-%d 0\n" % (3 * LINES + 2)
        invariant = Path(f"{self.model}.pla")
        invariant.write_bytes(given)
        words = f"aigunroll --invariant {invariant} --refutation - {self.model}"
        ran = subprocess.run([self.program, *words.split()], input=proof, capture_output=True, check=False)
        came = answer("aigunroll", {"invariant": "-", "refutation": "-"}, source, given, proof)
        judge("an invariant of megabytes", len(given) > MANY and came == (b"never\n", "", 0), came)
        judge("and by the program", ran.stdout == b"never\n", ran.stderr)

    def compared(self):
        """A circuit compared with itself, of which the header and the lines are counted; by its names it is the same."""
        # an output and a bad state may not have the same name
        source, words = re.sub(rb"(?m)^b(\d+) ", rb"b\1 bad ", self.text("ilobc")), f"aigmiter {self.model} -"
        self.model.write_bytes(source)
        text = self.alike("a miter", aigtools.miter(source, source, ascii=True), f"{words} --ascii", source)
        image = self.alike("a miter", aigtools.miter(source, source), words, source)
        self.alike("a miter by names", aigtools.miter(source, source, by_name=True), f"{words} --by-name", source, image)
        self.alike("a miter", aigtools.convert(text), "aigtoaig", text, image)
        # three gates for each output and each bad state, and four for each latch without initial value
        free, gates = LINES // 3, (3 + 6) * LINES + 4 * (LINES // 3)
        head = f"aag {12 * LINES + 4 * free + 1} {LINES} {2 * LINES + 1} 0 {gates} {3 * LINES} {LINES + free}".encode()
        came = text[: text.index(b"\n")], text.count(b"\n")
        judge("a miter by count", came == (head, 2 + 7 * LINES + free + gates), *came)

    def traces(self, count, runs):
        """The traces and the dump of these runs of a circuit of this size."""
        source = "".join(large.wide(count, range(count), "ilobc")).encode()
        self.model.write_bytes(source)
        steps = "".join("".join(f"{values}\n" for values in run) + ".\n" for run in runs).encode()
        lines = [line for run in runs for line in large.trace(count, run)]
        full, plain = "".join(lines), "".join(" ".join(line.split(" ")[:4]).rstrip("\n") + "\n" for line in lines)
        words, name = f"aigsim --batch {self.model}", f"a trace of {len(runs)} runs"
        self.alike(name, aigtools.simulate(source, steps), words, steps, plain.encode())
        properties = aigtools.simulate(source, steps, properties=True)
        self.alike(name, properties, f"{words} --properties", steps, full.encode())
        made, wanted = aigtools.simulate(source, steps, vcd=True), large.dump(count, runs)
        self.alike(f"a dump of {len(runs)} runs", made, f"{words} --vcd", steps, wanted)
        return wanted

    def witnesses(self, run, dump):
        """A witness of this run, which has the dump: it is confirmed by its last step, and without that it is not."""
        model = self.model.read_bytes()
        steps = [f"{values}\n".encode() for values in run]
        given = large.claim(LINES) + b"".join(steps) + b".\n"
        step, text = aigtools.dump(model, given)
        head = b"$comment confirmed %d $end\n" % (len(run) - 1)
        self.alike("a run", text, f"aigsim --witness --vcd {self.model}", given, head + dump)
        judge("a large witness", (aigtools.confirm(model, given), step) == (len(run) - 1, len(run) - 1), step)
        given = large.claim(LINES) + b"".join(steps[:-1]) + b".\n"
        step, text = aigtools.dump(model, given)
        self.alike("a run without its end", text, f"aigsim --witness --vcd {self.model}", given)
        times = [line for line in text.split(b"\n") if line[:1] == b"#"]
        judge("its times", (len(times), times[-1]) == (len(run) + 1, b"#%d" % len(run)), len(times), times[-1])
        judge("a large witness without its end", (aigtools.confirm(model, given), step) == (None, None), step)


    def lassos(self):
        """A lasso of megabytes, confirmed at its middle and from the first step on, and one that does not close; what
        is written and shown of its justice property."""
        source = b"aag 2 1 1 0 0 0 0 1\n2\n4 2\n1\n4\n"
        self.model.write_bytes(source)
        head, half = b"1\nj0\n0\n", b"0\n" * (MANY // 2)
        for steps, start in ((half + b"1\n1\n", MANY // 2 + 1), (b"1\n" + half, 0), (half + b"1\n", None)):
            given = head + steps + b".\n"
            judge("a large lasso", aigtools.confirm(source, given) == start, start, aigtools.confirm(source, given))
            step, text = aigtools.dump(source, given)
            self.alike("the run of a lasso", text, f"aigsim --witness --vcd {self.model}", given)
            judge("its verdict", step == start, step, start)
        words = f"aigunroll --frames 2000 --cnf --justice 0 {self.model}"
        made = aigtools.clauses(source, 2000, justice=0)
        self.alike("clauses of a justice property", made, words, b"")
        live = aigtools.convert(source, justice_as_bad=0)
        judge("and those of its circuit", made == aigtools.clauses(live, 2000))


def check_sizes(program):
    """Each call at inputs of megabytes, with each of its options."""
    with tempfile.TemporaryDirectory() as work:
        sizes = Sizes(program, work)
        sizes.conversions()
        sizes.unrolled()
        sizes.answered()
        sizes.refuted()
        sizes.shown()
        sizes.compared()
        sizes.lassos()
        *some, last = large.inputs(LINES)
        run = [*itertools.islice(itertools.cycle(some), STEPS), last]
        dump = sizes.traces(LINES, [run])
        sizes.witnesses(run, dump)
        values = large.inputs(FEWER)
        sizes.traces(FEWER, [values[at % 5 :][: 1 + at % 4] * 3 for at in range(RUNS)])


WARNINGS = "-pedantic -Wall -Wextra -Werror".split()
C = ["gcc", "-std=c99", *WARNINGS]


def compiled(name, made, *words, compiler=C):
    """Whether the compiler makes a program of the words, with the header, without a warning."""
    words = [*compiler, f"-I{TOP}/include", "-o", made, *words]
    ran = subprocess.run(words, capture_output=True, text=True, check=False)
    judge(f"{name} compiles", ran.returncode == 0, ran.stderr)
    return ran.returncode == 0


def check_calls(folder):
    """What only a C program can do: see tests/run/library.c."""
    archive = Path(folder, "libaigtools.a")
    with tempfile.TemporaryDirectory() as work:
        made = Path(work, "made")
        wrapped = "-O1 -Wl,--wrap=malloc,--wrap=realloc,--wrap=free".split()
        if compiled("tests/run/library.c", made, *wrapped, TOP / "tests/run/library.c", archive, "-lpthread"):
            ran = subprocess.run([made], capture_output=True, text=True, check=False)
            judge("the calls of tests/run/library.c", ran.returncode == 0, ran.stdout)
        check_other_library(archive, Path(work))


def check_examples(folder, program):
    """The programs over the library, and the page that shows some of them."""
    with tempfile.TemporaryDirectory() as work:
        for name, holds, *details in examples.checks(aigtools, Path(folder).resolve(), Path(work)):
            judge(name, holds, *details)
    words = [sys.executable, TOP / "tests/run/readme.py", program, TOP / "examples/README.md"]
    ran = subprocess.run(words, capture_output=True, text=True, check=False)
    # one command wants what aiger-check works with
    skips = "" if all(map(shutil.which, ("yosys", "berkeley-abc", "cadical"))) else ", 1 skipped"
    wanted = rf"\d+ passed, 0 failed{skips}\n"
    judge("examples/README.md, with nothing else skipped", re.fullmatch(wanted, ran.stdout), ran.stdout)


# what a model checker carries of Biere's library: a header aiger.h, and a function of another type than ours had
OTHER_HEADER = """#ifndef aiger_h_INCLUDED
#define aiger_h_INCLUDED
typedef struct aiger aiger;
const char *aiger_version (void);
#endif
"""
BOTH = """#include "aiger.h"
#include "aigtools.h"
#include <stdio.h>
const char *aiger_version (void) { return "1.9.9"; }
int main (void) { printf ("%s %x", aiger_version (), (unsigned) aigtools_version ()); return 0; }
"""


def check_other_library(archive, work):
    """A program can link with Biere's library too."""
    Path(work, "aiger.h").write_text(OTHER_HEADER)
    Path(work, "both.c").write_text(BOTH)
    if compiled("a program with Biere's library", work / "both", work / "both.c", archive):
        ran = subprocess.run([work / "both"], stdout=subprocess.PIPE, text=True, check=False)
        major, minor, patch = map(int, aigtools.version().split("."))
        judge("both libraries", ran.stdout == f"1.9.9 {major << 16 | minor << 8 | patch:x}", ran)


def check_symbols(folder):
    """Both forms have the exports of the header, and nothing else that could be in a program's way."""

    def symbols(path, *options):
        ran = subprocess.run(["nm", "--format=posix", *options, path], stdout=subprocess.PIPE, text=True, check=True)
        return {line.split()[0] for line in ran.stdout.splitlines() if len(line.split()) > 1}

    exports = set(re.findall(r"^\w+ (aigtools_[a-z_]+)\(", (TOP / "include/aigtools.h").read_text(), re.M))
    calls = {"malloc", "realloc", "free", "memcpy", "memmove", "memset", "memcmp", "bcmp"}
    made = symbols(Path(folder, "libaigtools.a"), "-g", "--defined-only")
    judge("the symbols of libaigtools.a", made == exports, sorted(made))
    wanted = symbols(Path(folder, "libaigtools.a"), "-u")
    judge("what libaigtools.a wants", wanted <= calls | {"_GLOBAL_OFFSET_TABLE_"}, sorted(wanted))
    shared = symbols(Path(folder, "libaigtools.so.1"), "-D", "--defined-only")
    judge("the symbols of libaigtools.so", shared == exports, sorted(shared))


# What a C or a C++ program sees: the size of each struct, and the name, the offset and the size of each of its fields; then
# of these counts, what the inline functions say.
LAYOUT = """#include "aigtools.h"
#include <stdio.h>
#define STRUCT(it) printf (#it " %zu\\n", sizeof (it))
#define FIELD(of, it) printf (#it " %zu %zu\\n", offsetof (of, it), sizeof ((of *) 0)->it)
#define COUNT(it) printf (#it " %zu\\n", aigtools_##it (&counts))
#define SECTION(it) printf (#it " %td\\n", aigtools_##it (&counts, words) - words)
int main (void) {
    static const uint32_t words[1000] = {0};
    const aigtools_counts counts = {COUNTS};
LINES
    return 0;
}
"""
STRUCTS = {
    "outcome": ("crates/aig_library/src/outcome.rt", "_Outcome", "Outcome"),
    "counts": ("crates/aig_arrays/src/counts.rt", "_Counts", "Counts"),
}
LANGUAGES = {"C99": C, "C++11": ["g++", "-std=c++11", *WARNINGS], "C++17": ["g++", "-std=c++17", *WARNINGS]}


def fields_of(here):
    """The name of each field of a struct of the Python module, with its offset and size."""
    return [(name, getattr(here, name)) for name, _ in here._fields_]


def layout(counts):
    """The program that prints what it sees of these counts, and what it is to print."""
    lines, wanted = [], []
    for name, (_, here, _) in STRUCTS.items():
        here = getattr(aigtools, here)
        lines += [f"STRUCT (aigtools_{name});", *(f"FIELD (aigtools_{name}, {it});" for it, _ in fields_of(here))]
        wanted += [f"aigtools_{name} {ctypes.sizeof(here)}", *(f"{it} {at.offset} {at.size}" for it, at in fields_of(here))]
    there = aigtools._Counts(*counts)
    lengths = [width * getattr(there, it, 0) for width, it in zip(aigtools._WIDTHS.values(), (*aigtools._COUNTED, ""))]
    defined = there.inputs + there.latches + there.gates
    values = 1 + there.max_var + there.outputs + there.bad + there.constraints + there.latches
    for name, count in (
        ("words", sum(lengths)),
        ("bytes", there.name_bytes + there.comment_bytes),
        ("defined", defined),
        ("values_length", values),
    ):
        lines.append(f"COUNT ({name});")
        wanted.append(f"{name} {count}")
    if sum(lengths) < 1000:
        for at, name in enumerate(aigtools._WIDTHS):
            lines.append(f"SECTION ({name});")
            wanted.append(f"{name} {sum(lengths[:at])}")
    text = LAYOUT.replace("COUNTS", ", ".join(f"{count}u" for count in counts))
    return text.replace("LINES", "\n".join(f"    {line}" for line in ["(void)words;", *lines])), wanted


def check_layout():
    """Structs have the same form in the header, in the Python module and in the sources, and the header's functions find
    the sections where the module does, of small counts and of the largest."""
    for language, compiler in LANGUAGES.items():
        for counts in ([*range(3, 17)], [1, 2, 0, 5, 0, 7, 0, 11, 0, 13, 0, 1, 17, 0], [2**32 - 1] * 12 + [2**40, 2**41]):
            program, wanted = layout(counts)
            if not shutil.which(compiler[0]):
                continue
            with tempfile.TemporaryDirectory() as work:
                source = Path(work, "layout.c" if compiler is C else "layout.cc")
                source.write_text(program)
                if compiled(f"the header in {language}", Path(work, "layout"), source, compiler=compiler):
                    said = subprocess.run([Path(work, "layout")], stdout=subprocess.PIPE, text=True, check=True).stdout
                    judge(f"what the header says in {language}", said.splitlines() == wanted, said, wanted)
    for path, here, name in STRUCTS.values():
        source = (TOP / path).read_text()
        struct = re.search(r"#\[repr\(C\)\]\n#\[derive[^\n]*\npub struct %s \{\n(.*?)\n\}" % name, source, re.S)
        there = re.findall(r"pub (\w+): u(\d+),", struct[1] if struct else "")
        wanted = [(it, str(8 * at.size)) for it, at in fields_of(getattr(aigtools, here))]
        judge(f"the form of {name} in the sources", there == wanted, there)


# An example of the header, whose last line ends so; and what all of them print, over what header.c gives them.
EXAMPLE = re.compile(r"(?:^ \*     .*\n)*^ \*     .*[;}]\n(?! \*     )", re.M)
SAID = """aag 5 1 1 1 3 2
2
4 10
4
0
4
6 4 2
8 5 3
10 9 7
none within 20
no lasso within 20
aig 5 1 0 0 4 1
10
\2\1\1\2\4\2\1\2\
0 1 0 1
1 0 1 1
.
confirmed 1
aag 3 2 0 1 1
2
4
6
6 4 2
6 = 4 & 2
8 = 5 & 3
10 = 9 & 7
"""


def check_header(folder):
    """The examples of the header run, one after the other."""
    found = EXAMPLE.findall((TOP / "include/aigtools.h").read_text())
    with tempfile.TemporaryDirectory() as work:
        blocks = "".join(f"{{\n{it}}}\n" for it in found)
        Path(work, "examples.inc").write_text(re.sub(r"^ \* {5}", "    ", blocks, flags=re.M))
        words = f"-I{work}", TOP / "tests/run/header.c", Path(folder, "libaigtools.a")
        if compiled("the examples of the header", Path(work, "header"), *words):
            ran = subprocess.run([Path(work, "header")], stdout=subprocess.PIPE, text=True, check=False)
            judge("what the examples of the header print", (ran.stdout, ran.returncode) == (SAID, 0), ran.stdout, SAID)


def check_numbers(program):
    """The header, the Python module and the sources have the same numbers, and the versions are the same."""
    variants = re.findall(r"^    ([A-Z]\w+) = (\d+),$", (TOP / "crates/aig_fault/src/kind.rt").read_text(), re.M)
    kinds = {re.sub(r"\B([A-Z])", r"_\1", name).upper(): number for name, number in variants}
    sources = [(TOP / f"crates/aig_library/src/{name}.rt").read_text() for name in ("outcome", "asked")]
    there = kinds | dict(re.findall(r"pub const ([A-Z_]+): u32 = (\d+);", "".join(sources)))
    here = dict(re.findall(r"\bAIGTOOLS_([A-Z_]+) = (\d+)", (TOP / "include/aigtools.h").read_text()))
    judge("AIGTOOLS_NO_FAULT is 0", here.pop("NO_FAULT") == "0")
    defined = dict(re.findall(r"^#define AIGTOOLS_(\w+) (\d+)u$", (TOP / "include/aigtools.h").read_text(), re.M))
    large = {name: str(int(it, 16)) for name, it in re.findall(r"pub const (\w+): u32 = (0x\w+);", "".join(sources))}
    module = {"LARGEST": aigtools.LARGEST, "JUSTICE": aigtools.JUSTICE}
    module |= {name: getattr(aigtools, f"_{name}") for name in ("ALL_BAD", "SIMPLIFIED")}
    judge("the numbers of properties", large.items() <= defined.items() and len(large) == 3, large, defined)
    judge("and in the Python module", {name: str(it) for name, it in module.items()} == defined, module, defined)
    judge("the numbers of the header", here == there, here, there)
    judge("the kinds of the Python module", {it.name: str(it.value) for it in aigtools.Kind} == kinds, kinds)
    others = {name: str(getattr(aigtools, f"_{name}", None)) for name in here.keys() - kinds.keys()}
    judge("the other numbers of the Python module", others.items() <= here.items(), others)
    said = subprocess.run([program, "--version"], stdout=subprocess.PIPE, text=True, check=True).stdout
    judge("the version", said == f"aiger {aigtools.version()}\n", said, aigtools.version())
    package = (TOP / "release/aigtools.pc").read_text()
    judge("the version for pkg-config", f"\nVersion: {aigtools.version()}\n" in package, package)


def check_options(program):
    """Each option of a command is one of its calls, or says which call it is; and each of a call one of the command."""
    calls = {
        "aigtoaig": ((aigtools.convert,), set()),
        "aigunroll": (
            (
                *(aigtools.unroll, aigtools.clauses, aigtools.answer, aigtools.refute),
                *(aigtools.invariant_clauses, aigtools.never),
            ),
            {"cnf", "answer", "refutation", "invariant"},
        ),
        "aigsim": ((aigtools.simulate, aigtools.confirm, aigtools.dump), {"batch", "witness"}),
        "aigmiter": ((aigtools.miter,), set()),
    }
    for command, (functions, chosen) in calls.items():
        said = subprocess.run([program, command, "--help"], stdout=subprocess.PIPE, text=True, check=True).stdout
        words = re.findall(r"^ {2,6}(?:-\w, )?--([a-z-]+)", said, re.M)
        # (the library names no files, so none is to be on a disk, and takes refutations in DRAT alone)
        there = {it.replace("-", "_") for it in words} - {"help", "version", "sync", "force", "lrat"}
        names = {name for it in functions for name in inspect.signature(it).parameters}
        inputs = {"data", "model", "stimulus", "witness", "answer", "refutation", "invariant", "first", "second"}
        here = names - inputs | chosen
        judge(f"the options of {command}", there == here and len(there) > 1, there, here)


def refuses(error, words, call, *inputs, **options):
    """Whether a call fails with an error that has these words."""
    try:
        call(*inputs, **options)
    except error as told:
        return words in str(told)
    return False


def check_arguments():
    """What the Python module makes of arguments of other types, and of those that cannot be met."""
    gate = b"aag 1 1 0 1 0\n2\n3\n"
    for same in (gate, bytearray(gate), memoryview(gate)):
        judge("an option that is not False", aigtools.convert(same, ascii=2) == gate, type(same))
    for data in (17, "aag 0 0 0 0 0\n", None, [97]):
        judge("no bytes", refuses(TypeError, "bytes-like", aigtools.convert, data), data)
        judge("no bytes for a witness", refuses(TypeError, "bytes-like", aigtools.dump, gate, data), data)
        judge("no bytes for a refutation", refuses(TypeError, "bytes-like", aigtools.refute, gate, data, 1), data)
        judge("no bytes for an invariant", refuses(TypeError, "bytes-like", aigtools.never, gate, data, b""), data)
        judge("no bytes for a circuit", refuses(TypeError, "bytes-like", aigtools.miter, gate, data), data)
    for other in ("ascii", "strip", "undo_map"):
        why = f"keep_map excludes {other}"
        judge(why, refuses(ValueError, why, aigtools.convert, gate, keep_map=True, **{other: True}))
    for other in ("keep_map", "undo_map"):
        why = f"outputs_as_bad excludes {other}"
        judge(why, refuses(ValueError, why, aigtools.convert, gate, outputs_as_bad=True, **{other: True}))
    why = "vcd excludes properties"
    judge(why, refuses(ValueError, why, aigtools.simulate, gate, b"", vcd=True, properties=True))
    for frames in (0, 1000001):
        for call in (aigtools.unroll, aigtools.clauses):
            judge("frames", refuses(ValueError, "frames is not from 1 to 1000000", call, gate, frames), frames)
        for call in (aigtools.answer, aigtools.refute):
            judge("frames", refuses(ValueError, "frames is not from", call, gate, b"", frames), frames)
    for bad in (-1, aigtools.LARGEST + 1):
        why = f"bad is not from 0 to {aigtools.LARGEST}"
        judge(why, refuses(ValueError, why, aigtools.clauses, gate, 1, bad=bad), bad)
        judge(why, refuses(ValueError, why, aigtools.refute, gate, b"", 1, bad=bad), bad)
        judge(why, refuses(ValueError, why, aigtools.invariant_clauses, gate, b"", bad=bad), bad)
        judge(why, refuses(ValueError, why, aigtools.never, gate, b"", b"", bad=bad), bad)
    for justice in (-1, aigtools.LARGEST):
        why = f"justice is not from 0 to {aigtools.LARGEST - 1}"
        judge(why, refuses(ValueError, why, aigtools.clauses, gate, 1, justice=justice), justice)
        judge(why, refuses(ValueError, why, aigtools.answer, gate, b"", 1, justice=justice), justice)
        judge(why, refuses(ValueError, why, aigtools.refute, gate, b"", 1, justice=justice), justice)
        judge(why, refuses(ValueError, why, aigtools.invariant_clauses, gate, b"", justice=justice), justice)
        judge(why, refuses(ValueError, why, aigtools.never, gate, b"", b"", justice=justice), justice)
    for call, *inputs in (
        (aigtools.clauses, gate, 1), (aigtools.answer, gate, b"", 1), (aigtools.refute, gate, b"", 1),
        (aigtools.invariant_clauses, gate, b""), (aigtools.never, gate, b"", b""),
    ):
        why = "bad excludes justice"
        judge(why, refuses(ValueError, why, call, *inputs, bad=0, justice=0), call)
        for justice in (0, 5, aigtools.LARGEST - 1):
            told = refusal(call, *inputs, justice=justice)
            judge("no such justice property", told and (told.kind.name, told.subject, str(told)) == (
                "NO_SUCH_JUSTICE", justice, f"no justice property {justice}"), call, told)
    for limit in (-1, aigtools.LARGEST + 1):
        why = f"max_var is not from 0 to {aigtools.LARGEST}"
        judge(why, refuses(ValueError, why, aigtools.confirm, gate, b"", max_var=limit), limit)
        judge(why, refuses(ValueError, why, aigtools.never, gate, b"", b"", max_var=limit), limit)
        judge(why, refuses(ValueError, why, aigtools.miter, gate, gate, max_var=limit), limit)


def check_guess():
    """Beside a large comment a text of 63 frames is short. As many times the comment would be 16 GB."""
    model = b"aag 1 0 1 1 0\n2 3\n2\nc\n" + bytes(1 << 26)
    used = int(Path("/proc/self/statm").read_text().split()[0]) * resource.getpagesize()
    limits = resource.getrlimit(resource.RLIMIT_AS)
    resource.setrlimit(resource.RLIMIT_AS, (used + (1 << 30), limits[1]))
    try:
        text = aigtools.unroll(model, 63, ascii=True)
    except MemoryError as why:
        text = repr(why)
    finally:
        resource.setrlimit(resource.RLIMIT_AS, limits)
    judge("the room for a short text", text == b"aag 0 0 0 63 0\n" + b"0\n1\n" * 31 + b"0\n", text)


def main(folder, program):
    """All checks, and their sums."""
    check_rows()
    check_mutants(program)
    with tempfile.TemporaryDirectory() as work:
        check_circuits(work)
    check_wrong_circuits()
    check_names()
    check_sizes(program)
    check_calls(folder)
    check_examples(folder, program)
    check_symbols(folder)
    check_layout()
    check_header(folder)
    check_numbers(program)
    check_options(program)
    check_arguments()
    check_guess()
    tried = doctest.testmod(aigtools)
    judge("the examples of the Python module", tried.attempted > 5 and not tried.failed, tried)
    print(f"{passed} passed, {failed} failed")
    return failed != 0 or passed == 0


if __name__ == "__main__":
    os.environ["LIBAIGTOOLS"] = str(Path(sys.argv[1], "libaigtools.so.1").resolve())
    sys.path.insert(0, str(TOP / "python"))
    import aigtools

    sys.exit(main(*sys.argv[1:]))
