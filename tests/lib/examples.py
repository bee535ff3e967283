"""What the programs of examples/python and examples/c answer, over the library that the environment names."""
import os
import re
import shutil
import subprocess
import sys
from pathlib import Path

TOP = Path(__file__).resolve().parents[2]

# Each section and each reset; a name that Graphviz would read otherwise, one that is a position, and a property without
# literals. In binary it has the same numbers.
EACH = rb"""aag 5 1 3 2 1 1 1 2 1
2
4 10
6 5 1
8 1 8
11
6
6
7
2
0
8
3
1
10 5 2
i0 a "b" \ &
o0 out
o1 b0
b0 never
j0 live
"""
BROKEN = b"aag 1 0 1 2 0\n2 3\n2\n"
BROKEN_SAYS = "line 4: file ends too early"
# gates in no order, one above the other
CHAIN = b"aag 4 1 0 1 3\n2\n8\n8 6 2\n6 4 2\n4 2 2\n"

# of the cones of EACH, the nodes and the edges
NOT = " [style=dashed, arrowhead=odot]"
BELOW = [r'2 [label="a \"b\" \\ &amp;", shape=box]', '4 [label="l0", shape=box, peripheries=2]']
LATCH = r'6 [label="l1\nstarts at 1", shape=box, peripheries=2]'
GATE = '10 [label="10", shape=circle]'
OTHER = r'8 [label="l2\nstarts at x", shape=box, peripheries=2]'
ONE = '0 [label="0", shape=plaintext]'
TO_GATE = [f"4 -> 10{NOT}", "2 -> 10"]
OF_LATCH = ["10 -> 4", f"4 -> 6{NOT}", *TO_GATE]
CONES = {
    "out": [*BELOW, GATE, 'o0 [label="out", shape=plaintext]', "10 -> 4", *TO_GATE, f"10 -> o0{NOT}"],
    "b0": [*BELOW, LATCH, GATE, 'o1 [label="b0", shape=plaintext]', *OF_LATCH, "6 -> o1"],
    "never": [*BELOW, LATCH, GATE, 'b0 [label="never", shape=plaintext]', *OF_LATCH, "6 -> b0"],
    "c0": [*BELOW, LATCH, GATE, 'c0 [label="c0", shape=plaintext]', *OF_LATCH, f"6 -> c0{NOT}"],
    "live": [ONE, BELOW[0], OTHER, 'j0 [label="live", shape=plaintext]', f"0 -> 8{NOT}", "8 -> j0", f"2 -> j0{NOT}"],
    "j1": ['j1 [label="j1", shape=plaintext]'],
    "f0": [ONE, 'f0 [label="f0", shape=plaintext]', f"0 -> f0{NOT}"],
}


def drawn(lines):
    """The graph with these nodes and edges."""
    parts = "rankdir=LR", "node [fontname=Helvetica]", *lines
    return "".join(["digraph cone {\n", *(f"    {part};\n" for part in parts), "}\n"]).encode()


def run(*words, given=b""):
    """What a program says: its output, its errors and its status."""
    environment = {**os.environ, "PYTHONPATH": str(TOP / "python"), "PYTHONDONTWRITEBYTECODE": "1"}
    ran = subprocess.run(words, input=given, capture_output=True, env=environment, check=False)
    return ran.stdout, ran.stderr.decode(), ran.returncode


def script(name, *words, given=b""):
    """The same of a script in examples/python."""
    return run(sys.executable, TOP / "examples/python" / name, *words, given=given)


# the scripts that take a model, with words that each takes behind it, and some that it does not
SCRIPTS = {
    "cone.py": (["out"], [[], ["out", "b0"]]),
    "stimulus.py": (["3", "7"], [[], ["-1"], ["x"], ["3", "7", "--trace", "1"]]),
    "rename.py": (["out", "x"], [[], ["out"], ["out", "x", "never"]]),
}


def rows(convert):
    """A script, its words behind the model, the model, and what is wanted: an output, or why there is none."""
    renamed = EACH.replace(b"o0 out", b"o0 x y").replace(b"b0 never", b"b0 out")
    for model, wanted in ((EACH, renamed), (convert(EACH), convert(renamed))):
        yield from (("cone.py", [name], model, drawn(lines)) for name, lines in CONES.items())
        yield from (("cone.py", [name], model, f"no output or property {name}") for name in ("none", "l0", "o2"))
        yield "rename.py", ["out", "x y", "never", "out"], model, wanted
        yield "rename.py", ["out", "x", "j0", "y"], model, "no symbol j0"
        yield "rename.py", ["out", "a\nb"], model, "symbols[1]: bad symbol line"
        yield "stimulus.py", ["0", "--trace"], model, b""
    yield "stimulus.py", ["3"], b"aag 1 0 1 0 0\n2 3\n", b"\n\n\n"
    yield from ((name, words, BROKEN, BROKEN_SAYS) for name, (words, _) in SCRIPTS.items())


def of_rows(convert, file):
    """The rows, with the model in this file and at standard input."""
    for name, words, model, wanted in rows(convert):
        file.write_bytes(model)
        for path, given in ((file, b""), ("-", model)):
            came = script(name, path, *words, given=given)
            refused = (b"", f"{name}: {path}: {wanted}\n", 1)
            yield name, came == (refused if isinstance(wanted, str) else (wanted, "", 0)), words, came


def of_words(file):
    """What each script says of wrong words, of a file that is missing, and for help."""
    file.write_bytes(EACH)
    for name, (words, others) in SCRIPTS.items():
        for wrong in others:
            output, errors, status = script(name, file, *wrong)
            yield f"{name} of wrong words", (output, status) == (b"", 2) and errors.startswith(f"usage: {name} "), wrong
        came = script(name, f"{file}.none", *words)
        yield f"{name} of no file", came == (b"", f"{name}: {file}.none: No such file or directory\n", 1), came
        output, errors, status = script(name, "--help")
        yield f"{name} --help", (errors, status) == ("", 0) and b"Status 0: done" in output, output


def of_chance(simulate):
    """Steps by chance: each seed has its own, which are those of its trace."""
    for name, inputs in ((TOP / "examples/arbiter.aag", 2), (TOP / "examples/full_adder.aig", 3)):
        first, again, zero, one = (script("stimulus.py", name, "40", *seed)[0] for seed in ([], [], ["0"], ["1"]))
        yield "a stimulus", re.fullmatch(rb"([01]{%d}\n){40}" % inputs, first) is not None, first
        yield "a stimulus again", first == again == zero != one, first, again, zero, one
        traced = script("stimulus.py", name, "40", "1", "--trace")
        yield "its trace", traced == (simulate(name.read_bytes(), one, properties=True), "", 0), traced


def of_dot():
    """Graphviz takes what is drawn, with all edges and labels as they are meant."""
    for lines in CONES.values() if shutil.which("dot") else ():
        output, errors, status = run("dot", "-Tplain", given=drawn(lines))
        edges = sum(" -> " in line for line in lines)
        yield "a cone for dot", (errors, status, output.count(b"\nedge ")) == ("", 0, edges), lines, output, errors


# in the place of a solver: it knows that the clauses of one frame of the toggle have two variables
SOLVER = ["sh", "-c", "read p cnf count rest; [ $count = 2 ] && echo s UNSATISFIABLE || printf 's SATISFIABLE\\nv 0\\n'"]


def of_search(file):
    """A search over more and more steps, which ends with a witness."""
    file.write_bytes(b"aag 1 0 1 0 0 1\n2 3\n2\n")
    for most, *wanted in (("5", b"1\nb0\n0\n\n\n.\n", "confirmed 1\n", 0), ("1", b"", "no run of at most 1 steps\n", 1)):
        came = script("search.py", file, most, *SOLVER)
        yield "search.py", came == tuple(wanted), came


def of_folder(convert, work):
    """Files of a folder are converted, and those that are refused are named."""
    source, target = work / "from", work / "to"
    source.mkdir()
    for name, text in (("a.aag", EACH), ("b.aig", convert(CHAIN)), ("c.aag", BROKEN), ("d.txt", b"none of them")):
        (source / name).write_bytes(text)
    came = script("convert_all.py", source, target)
    said = f"convert_all.py: {source}/c.aag: {BROKEN_SAYS}\n"
    yield "convert_all.py", came == (b"2 files converted\n", said, 1), came
    made = {it.name: it.read_bytes() for it in target.iterdir()}
    yield "what convert_all.py writes", made == {"a.aig": convert(EACH), "b.aig": convert(CHAIN)}, made
    (source / "c.aag").unlink()
    came = script("convert_all.py", source, target)
    yield "convert_all.py of good files", came == (b"2 files converted\n", "", 0), came
    (source / "a.aig").write_bytes(convert(CHAIN))
    output, errors, status = script("convert_all.py", source, target)
    kept = (target / "a.aig").read_bytes() == convert(EACH)
    yield "convert_all.py of one name twice", (output, status, kept) == (b"2 files converted\n", 1, True), errors
    came = script("convert_all.py", work / "none", target)
    yield "convert_all.py of no folder", came == (b"", f"convert_all.py: {work}/none: No such file or directory\n", 1), came
    output, errors, status = script("convert_all.py", source)
    yield "convert_all.py of wrong words", (output, status) == (b"", 2) and errors.startswith("usage: convert_all.py "), errors


def of_levels(program, convert, file):
    """What a program says of the levels of gates."""
    deep = b"1 1\n2 1\n3 1\n"
    for model, wanted in ((CHAIN, deep), (convert(CHAIN), deep), (EACH, b"1 1\n"), (b"aag 0 0 0 0 0\n", b"")):
        file.write_bytes(model)
        came = run(program, file)
        yield came == (wanted, "", 0), model, came
    file.write_bytes(BROKEN)
    came = run(program, file)
    yield came == (b"", f"levels: {file}: {BROKEN_SAYS}\n", 1), came
    output, errors, status = run(program, f"{file}.none")
    yield (output, status) == (b"", 1) and errors.startswith(f"levels: {file}.none: No such file or directory"), errors
    came = run(program)
    yield came == (b"", "usage: levels FILE\n", 2), came


def of_conversion(program, convert, options):
    """What a program says that converts with these options."""
    for model in (EACH, convert(EACH)):
        came = run(program, given=model)
        yield came == (convert(model, **options), "", 0), came
    came = run(program, given=BROKEN)
    yield came[::2] == (b"", 1), came


def has(compiler):
    """Whether there is this compiler; that of Rust from 1.82 on, which knows `unsafe extern`."""
    if not shutil.which(compiler):
        return False
    version = re.match(rb"rustc 1\.(\d+)", run(compiler, "--version")[0])
    return int(version[1]) >= 82 if version else compiler != "rustc"


def of_compiled(convert, folder, work):
    """The programs in C and in Rust, over the archive in the folder."""
    made, file, archive = work / "made", work / "model", folder / "libaigtools.a"
    c = f"cc -std=c99 -pedantic -Wall -Wextra -Werror -I{TOP}/include -o".split(), [archive]
    rust = "rustc --edition 2021 -D warnings -o".split(), ["-L", folder, "-l", "static=aigtools"]
    for name, (compiler, library), check in (
        ("aigconvert.c", c, lambda: of_conversion(made, convert, {"keep_map": True})),
        ("levels.c", c, lambda: of_levels(made, convert, file)),
        ("aigconvert.rs", rust, lambda: of_conversion(made, convert, {"ascii": True})),
        ("levels.rs", rust, lambda: of_levels(made, convert, file)),
    ):
        if not has(compiler[0]):
            continue
        said = run(*compiler, made, TOP / "examples/c" / name, *library)
        yield f"{name} compiles without a warning", said == (b"", "", 0), said
        for holds, *details in check() if said[2] == 0 else ():
            yield name, holds, *details


def checks(module, folder, work):
    """All of these: of each its name, whether it holds, and what came."""
    file = work / "model"
    yield from of_rows(module.convert, file)
    yield from of_words(file)
    yield from of_chance(module.simulate)
    yield from of_dot()
    yield from of_search(file)
    yield from of_folder(module.convert, work)
    yield from of_compiled(module.convert, folder, work)
