"""Rows of AIGER models: of each kind, with odd names, and 200 made by chance beside a search through all their states.
They run with small stand-ins of ABC and of the solver, and again with these themselves where they are installed."""
import functools
import os
import re
import shutil
import subprocess

from lib import images
from lib.check import checked, reached, stand_ins
from lib.check.checked import Truth

BY_CHANCE, BY_STAND_INS = 200, 100
MODELS = reached.all_models(BY_CHANCE)

# of each model its text, and the first step of each bad state
NEVER, TOGGLE, TOKENS, LATE = "never", "toggle", "tokens", "late"
RING, MAJORITIES = "a ring", "two majorities, a step later"
TEXTS = {
    # no two of the four values of two inputs are at once: that needs a lemma
    NEVER: ("aag 9 2 0 0 7 1\n2\n4\n18\n6 5 3\n8 5 2\n10 4 3\n12 4 2\n14 9 7\n16 13 11\n18 16 14\n", [None]),
    TOGGLE: ("aag 1 0 1 0 0 1\n2 3\n2\n", [1]),
    # two latches that exchange their values, of which one starts at 1
    TOKENS: ("aag 3 0 2 0 1 1\n2 4 1\n4 2\n6\n6 4 2\n", [None]),
    # three of which one starts at 1: that two are never both 1 is no invariant by itself
    RING: ("aag 4 0 3 0 1 1\n2 6 1\n4 2\n6 4\n8\n8 4 2\n", [None]),
    # by gates of two kinds: much is left in simplified clauses, and more than induction is needed
    MAJORITIES: (
        "aag 17 2 4 0 11 1\n2\n4\n6 23\n8 32\n10 6\n12 8\n34\n14 4 2\n16 6 2\n18 6 4\n20 17 15\n22 20 19\n24 5 3\n26 9 3\n28 9 5\n"
        "30 27 25\n32 30 29\n34 13 10\n",
        [None],
    ),
    LATE: ("aag 4 1 3 0 0 2\n2\n4 2\n6 4\n8 6\n8\n9\n", [3, 0]),
    "an input": ("aag 1 1 0 0 0 1\n2\n2\n", [0]),
    "constants": ("aag 0 0 0 0 0 2\n0\n1\n", [None, 0]),
    "a constant and a latch": ("aag 1 0 1 0 0 3\n2 2\n0\n1\n2\n", [None, 0, None]),
    "a reset to 1": ("aag 2 0 2 0 0 2\n2 4 1\n4 2\n2\n4\n", [0, 1]),
    "no initial value": ("aag 2 0 2 0 0 2\n2 2 2\n4 2\n2\n4\n", [0, 1]),
    "no initial value, and never": ("aag 3 0 2 0 1 1\n2 2 2\n4 2 4\n6\n6 4 5\n", [None]),
    "a constraint": ("aag 2 1 1 0 0 1 1\n2\n4 2\n4\n3\n", [None]),
    "a constraint of a latch": ("aag 2 1 1 0 0 1 1\n2\n4 2\n4\n5\n", [None]),
    "a constraint that is 0": ("aag 1 1 0 0 0 1 1\n2\n2\n0\n", [None]),
    "a constraint that ends all runs": ("aag 2 0 2 0 0 2 1\n2 1\n4 2\n2\n4\n3\n", [None, None]),
    "a latch that a constraint keeps at 1": ("aag 2 1 1 0 0 1 1\n2\n4 3 1\n5\n3\n", [None]),
    "many constraints": ("aag 3 2 1 0 0 2 2\n2\n4\n6 2\n6\n4\n4\n5\n", [None, None]),
    "outputs beside a bad state": ("aag 2 1 1 2 0 1\n2\n4 2\n2\n3\n4\no0 a name\n", [1]),
    "the same bad state twice": ("aag 1 0 1 0 0 2\n2 3\n2\n2\n", [1, 1]),
    "latches far apart": ("aag 900 1 2 0 0 1\n700\n900 700\n40 900\n40\n", [2]),
    "no gates": ("aag 2 0 2 0 0 1\n2 4\n4 1\n2\n", [2]),
}


def honest(room):
    """ABC and a solver, each a small one."""
    folder = room.folder / "honest"
    return {"ABC": stand_ins.honest_abc(folder), "SOLVER": stand_ins.honest_solver(folder)}


def real(_):
    for name in ("berkeley-abc", "cadical"):
        if not shutil.which(name):
            raise checked.Skipped(f"{name} is not installed")
    return {}


def named(text, steps, source):
    """What is so of a model by its text."""
    names = {int(at): name for at, name in re.findall(r"^b(\d+) (.*)$", text, re.MULTILINE)}
    kept = reached.kept(reached.plain(reached.read(text.encode())))
    return [Truth(names.get(at, f"b{at}"), source, step, kept=kept) for at, step in enumerate(steps)]


def binary(room, text):
    ran = subprocess.run([room.program, "aigtoaig"], input=text.encode(), capture_output=True, check=True)
    return ran.stdout


def of_model(which, has_tools, room):
    """A model in text and in binary, in lines and as an object, and what is kept."""
    text, steps = TEXTS[which]
    changes = has_tools(room)
    (room.here / "model.aag").write_text(text, encoding="ascii")
    (room.here / "model.aig").write_bytes(binary(room, text))
    room.may_write.add("kept")
    said = room.run("--keep", "kept", "model.aag", changes=changes)
    found = checked.judge(said, named(text, steps, "model.aag"))
    checked.judge_kept(room, room.here / "kept", found, said)
    checked.judge(room.run("--json", "model.aig", changes=changes), named(text, steps, "model.aig"))


def by_chance(at, has_tools, room):
    """A model made by chance, in text or binary."""
    made = MODELS[at]
    changes, name = has_tools(room), ["model.aag", "model.aig"][at % 2]
    (room.here / name).write_bytes(images.image(made) if at % 2 else images.ascii_text(made))
    kept = reached.kept(made)
    truths = [Truth(f"b{bad}", name, step, kept=kept) for bad, step in enumerate(reached.steps(made))]
    said = room.run("--json", "--jobs", "1", name, changes=changes)
    checked.judge(said, truths)


def by_name(name, words, room):
    """A model with an odd name."""
    text, steps = TEXTS[LATE]
    changes = honest(room)
    (room.here / name).write_text(text, encoding="ascii")
    said = room.run("--json", *words, changes=changes)
    checked.judge(said, named(text, steps, words[-1]))


def by_symbol(symbols, room):
    """Bad states with odd names: each has files of its own, in the folder that was named."""
    text = "aag 3 1 2 0 0 4\n2\n4 2\n6 4\n4\n6\n0\n0\n" + "".join(f"b{at} {it}\n" for at, it in enumerate(symbols))
    changes = honest(room)
    (room.here / "model.aag").write_text(text, encoding="utf-8", errors="surrogateescape")
    room.may_write.add("kept")
    said = room.run("--json", "--keep", "kept", "model.aag", changes=changes)
    names = [*symbols, *["b0", "b1", "b2", "b3"][len(symbols) :]]
    found = checked.judge(said, [Truth(it, "model.aag", step) for it, step in zip(names, [1, 2, None, None])])
    checked.judge_kept(room, room.here / "kept", found, said)
    lines = room.run("model.aag", changes=changes)
    checked.need(len(lines.out.splitlines()) == 5, "a line for each", lines)
    checked.need(not re.search(r"[\0-\x09\x0b-\x1f\x7f]", lines.out), "a control character is shown", lines)


SYMBOLS = {
    "plain": ["first", "second", "third", "fourth"],
    "some of them": ["first", "second"],
    "with spaces": ["a name", "a  name", " a name", "a name "],
    "of files": ["../../up", "/etc/passwd", "a/b/c", ".."],
    "alike once they are safe": ["a/b", "a_b", "a:b", "A_B"],
    "the same": ["same", "same", "same", "same"],
    "alike but for capitals": ["same", "Same", "SAME", "sAME"],
    "of options": ["-x", "--help", "-", "--"],
    "long": ["n" * 300, "n" * 301, "n" * 5000, "\N{GREEK SMALL LETTER ALPHA}" * 200],
    "of other positions": ["b3", "b2", "b1", "b0"],
    "of the shell": ["$(touch hacked)", "`touch hacked`", "; touch hacked", "'\"\\"],
    "of other files": ["model", "model-0", "b0.check", "x.aiw"],
    "of other letters": ["\N{GREEK SMALL LETTER ALPHA}", "\N{SNOWMAN}", "\u202e", "e\u0301"],
}


def odd_bytes(room):
    """Symbols that are no text: the run has its answers all the same."""
    changes = honest(room)
    (room.here / "model.aag").write_bytes(b"aag 1 0 1 0 0 2\n2 3\n2\n0\nb0 \xff\xfe\nb1 a\x07b\rc\x1b[31m\n")
    said = room.run("model.aag", changes=changes)
    checked.need(said.status == 1 and len(said.out.splitlines()) == 3, "lines are missing", said)
    checked.need(not re.search(r"[\x07\x1b\r]", said.out), "a control character is shown", said)
    checked.need("reached at 1" in said.out and "never" in said.out, "answers are missing", said)


def fairness_alone(room):
    """Fairness without a justice property is left out, with a note: it says nothing of a bad state."""
    changes = honest(room)
    text = "aag 2 1 1 0 0 1 0 0 1\n2\n4 2\n4\n2\n"
    (room.here / "model.aag").write_text(text, encoding="ascii")
    said = room.run("model.aag", changes=changes)
    checked.need(re.search("aiger-check: .*fairness", said.err), "fairness is not named", said)
    checked.judge(said, named(text, [1], "model.aag"))


def outputs_alone(text, room):
    """Outputs are no assertions, and what makes them such is named."""
    changes = honest(room)
    (room.here / "model.aag").write_text(text, encoding="ascii")
    said = room.run("model.aag", changes=changes)
    checked.need((said.status, said.out) == (checked.TROUBLE, "0 assertions\n"), "another answer", said)
    checked.need("outputs-as-bad" in said.err, "the way out is not named", said)
    said = room.run("--json", "model.aag", changes=changes)
    checked.need(said.status == checked.TROUBLE and checked.of_json(said) == [], "another object", said)


def no_bad_state(room):
    changes = honest(room)
    (room.here / "model.aag").write_text("aag 1 1 0 0 0\n2\n", encoding="ascii")
    said = room.run("model.aag", changes=changes)
    checked.need((said.status, said.out) == (checked.TROUBLE, "0 assertions\n"), "another answer", said)
    checked.need(re.search("aiger-check: .*(assertion|bad state)", said.err), "it is not said", said)


def no_model(data, patterns, room):
    """What is no model is refused by its place."""
    changes = honest(room)
    (room.here / "a model").write_bytes(data)
    checked.refused(room.run("a model", changes=changes), *patterns)


BROKEN = {
    "an empty file": (b"", ["a model"]),
    "words for a model": (b"module m;\nendmodule\n", ["a model"]),
    "a header alone": (b"aag 3 1 2 0 0 1\n", ["a model"]),
    "a model that is cut": (b"aag 4 1 3 0 0 2\n2\n4 2\n6 4\n", ["a model"]),
    "an undefined literal": (b"aag 4 1 1 0 0 1\n2\n4 8\n4\n", ["a model"]),
    "a cycle": (b"aag 2 0 0 0 2 1\n2\n2 4 4\n4 2 2\n", ["a model", "cycle"]),
    "a binary model that is cut": (b"aig 3 2 0 0 1 1\n6\n\x02", ["a model"]),
    "a header of many": (b"aag 99999999999 1 0 0 0 1\n2\n2\n", ["a model"]),
    "any bytes": (bytes(range(256)), ["a model"]),
}


def by_stream(room):
    """A model through a pipe has its answers, or is refused."""
    changes = honest(room)
    os.mkfifo(room.here / "pipe")
    text, steps = TEXTS[LATE]
    words = ["bash", "-c", 'exec cat > "$0"', str(room.here / "pipe")]
    with subprocess.Popen(words, stdin=subprocess.PIPE) as writer:
        writer.stdin.write(text.encode())
        writer.stdin.close()
        said = room.run("pipe", changes=changes)
        writer.kill()
    if said.status == checked.TROUBLE:
        checked.refused(said)
    else:
        checked.judge(said, named(text, steps, "pipe"))


def frames(count, answers, room):
    """A bound that is just too small, and one that is enough."""
    changes = {**honest(room), "ABC": "false"}
    (room.here / "model.aag").write_text(TEXTS[LATE][0], encoding="ascii")
    said = room.run("--frames", str(count), "model.aag", changes=changes)
    found = checked.of_lines(said)
    checked.need([(it.answer, it.steps) for it in found] == answers, f"{answers} are due", said)
    checked.need(said.status == 1, "another status", said)


def none_within(room):
    """Where each is shown within the bound, the status is 0; and `never` within a smaller one too."""
    changes = {**honest(room), "ABC": "false"}
    for which in (NEVER, TOKENS):
        (room.here / "model.aag").write_text(TEXTS[which][0], encoding="ascii")
        for count in (1, 7):
            said = room.run("--frames", str(count), "model.aag", changes=changes)
            checked.judge(said, [Truth("b0", "model.aag", None)], checked.BOUNDED, count)
            checked.need(said.status == 0, "another status", said)


NAMES = {
    "-m.aag": ["--", "-m.aag"],
    "./-m.aag": ["./-m.aag"],
    "--help": ["--", "--help"],
    "a model.aag": ["a model.aag"],
    "it's \"odd\".aag": ["it's \"odd\".aag"],
    "two\nlines.aag": ["two\nlines.aag"],
    "$(touch hacked);x": ["$(touch hacked);x"],
    "model": ["model"],
    "model.txt": ["model.txt"],
    "model.aig": ["model.aig"],
    "%s{0}.aag": ["%s{0}.aag"],
    "\N{GREEK SMALL LETTER ALPHA}.aag": ["\N{GREEK SMALL LETTER ALPHA}.aag"],
    "answer": ["answer"],
}


def rows():
    each = functools.partial
    for which in TEXTS:
        yield f"a model with {which}, by stand-ins", each(of_model, which, honest)
        yield f"a model with {which}", each(of_model, which, real)
    for at in range(BY_STAND_INS):
        yield f"model {at}, by stand-ins", each(by_chance, at, honest)
    for at in range(BY_CHANCE):
        yield f"model {at}", each(by_chance, at, real)
    for name, words in NAMES.items():
        yield f"a model named {name!r}", each(by_name, name, words)
    for called, symbols in SYMBOLS.items():
        yield f"symbols {called}", each(by_symbol, symbols)
    yield "fairness alone", fairness_alone
    for called, (data, patterns) in BROKEN.items():
        yield called, each(no_model, data, patterns)
    yield "outputs alone", each(outputs_alone, "aag 1 1 0 1 0\n2\n2\n")
    yield "outputs and constraints", each(outputs_alone, "aag 1 1 0 1 0 0 1\n2\n2\n2\n")
    yield "neither outputs nor bad states", no_bad_state
    yield "symbols that are no text", odd_bytes
    yield "a model through a pipe", by_stream
    yield "a bound of 3", each(frames, 3, [("none within", 3), ("reached", 0)])
    yield "a bound of 4", each(frames, 4, [("reached", 3), ("reached", 0)])
    yield "a bound of 1", each(frames, 1, [("none within", 1), ("reached", 0)])
    yield "none within a bound", none_within
