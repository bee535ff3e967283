"""Rows of --equal: pairs of models and of designs, what is kept of them, tools that lie, refusals and interrupts; what
ABC has made smaller; and 100 pairs of models made by chance beside a search through all their states."""
import dataclasses
import functools
import itertools
import json
import os
import random
import re
import shutil
import signal
import subprocess

from lib import images, traces
from lib.check import checked, design_rows, interrupt_rows, model_rows, reached, stand_ins, tool_rows
from lib.check.checked import Truth
from lib.check.model_rows import honest, real

BY_CHANCE = 100
WORDS = {"equal": "never", "equal for": "none within", "differs at": "reached", "holds": "never"}
WORDS.update({"holds for": "none within", "fails at": "reached", "vacuous": "vacuous", "unknown": "unknown"})
LINE = re.compile(rf"(?P<name>.*): (?P<answer>{'|'.join(sorted(WORDS, key=len, reverse=True))})(?P<rest>.*)", re.DOTALL)
KEPT = re.compile(r"(first|second|miter)-[0-9a-f]+\.aig|together\.(drat|pla)|.+\.(aiw|vcd|stimulus|drat|pla|check\.sh)")
KEPT = re.compile(rf"{KEPT.pattern}|commands\.(sh|txt)|design-[0-9a-f]+")

# ---------------------------------------------------------------- what a run says


def of_line(line, said):
    """The answer in a line, by the words of a run without --equal."""
    found = LINE.fullmatch(line)
    checked.need(found, f"the line {line!r}", said)
    is_assumed = found["answer"] in ("holds", "holds for", "fails at")
    checked.need(not is_assumed or found["name"].startswith("assumption "), f"the line {line!r}", said)
    answer, rest, more = WORDS[found["answer"]], found["rest"], {}
    if answer == "reached":
        spelled = re.fullmatch(r" (\d+)(?:, (.+))?", rest, re.DOTALL)
        checked.need(spelled, f"the line {line!r}", said)
        more = {"steps": int(spelled[1]), "witness": spelled[2]}
    elif answer == "none within":
        spelled = re.fullmatch(r" (1 step|(?:[2-9]|[1-9]\d+) steps)", rest)
        checked.need(spelled, f"the line {line!r}", said)
        more = {"steps": int(spelled[1].split()[0])}
    elif answer in ("vacuous", "unknown"):
        checked.need(re.fullmatch(r": .+", rest), f"the line {line!r} without a reason", said)
        more = {"reason": rest[2:]}
    else:
        checked.need(not rest, f"the line {line!r}", said)
    return checked.Answer(found["name"], "", answer, **more)


def is_assumed(it):
    return it.name.startswith("assumption ")


def sum_of(unit, found, words):
    """The words that add up answers."""
    counts = []
    for answer in checked.KINDS:
        those = [it for it in found if it.answer == answer]
        steps = f" {words['steps']} step{'s' * (words['steps'] != 1)}" if answer == "none within" else ""
        counts += [f"{len(those)} {words[answer]}{steps}"] if those else []
    head = f"{len(found)} {unit}{'s' * (len(found) != 1)}"
    return f"{head}: {', '.join(counts)}" if counts else head


def of_lines(said, frames):
    """The answers of the lines, whose last one must add them up."""
    checked.need(said.out.endswith("\n"), "the last line does not end", said)
    *lines, last = said.out.removesuffix("\n").split("\n")
    found = [of_line(it, said) for it in lines]
    parts = [[it for it in found if not is_assumed(it)], [it for it in found if is_assumed(it)]]
    words = {"steps": frames, "vacuous": "vacuous", "unknown": "unknown"}
    pair = {"never": "equal", "none within": "equal for", "reached": "differs", **words}
    wanted = sum_of("pair", parts[0], pair)
    if parts[1]:
        assumed = {"never": "holds", "none within": "holds for", "reached": "fails", **words}
        wanted += f"; {sum_of('assumption', parts[1], assumed)}"
    checked.need(last == wanted, f"{wanted!r} is due", said)
    return found


def of_json(said):
    """The answers of the one object, named as the lines do."""
    try:
        object_ = json.loads(said.out)
        checked.need(set(object_) == {"pairs", "assumptions", "notes"}, "another object", said)
        words = {"equal": "equal", "equal for": "equal for", "differs": "differs at"}
        assumed = {"holds": "holds", "holds for": "holds for", "fails": "fails at"}
        found = []
        for it, words_ in itertools.chain(
            ((it, words) for it in object_["pairs"]), ((it, assumed) for it in object_["assumptions"])
        ):
            answer = WORDS[{**words_, "vacuous": "vacuous", "unknown": "unknown"}[it.pop("answer")]]
            prefix = "" if words_ is words else "assumption "
            found.append(checked.Answer(prefix + it.pop("name"), "", answer, **it))
        return found
    except (ValueError, KeyError, TypeError) as why:
        raise checked.Wrong(f"no such object, {why!r}: {said}") from why


def status_of(found, frames):
    pairs = [it for it in found if not is_assumed(it)]
    return checked.status_of(found, frames) if pairs else checked.TROUBLE


def judge(said, wanted, way=checked.EXACT, frames=checked.FRAMES, kept=None):
    """The answers of a run, by names and first steps, which must be right, and its status; and for how many steps a run
    keeps the constraints of the first."""
    is_object = "--json" in said.words
    found = of_json(said) if is_object else of_lines(said, frames)
    names = [name.partition(" of ")[0] if is_object and name.startswith("assumption ") else name for name, _ in wanted]
    checked.need([it.name for it in found] == names, f"the names {names} are due", said)
    for (name, step), it in zip(wanted, found):
        checked.need(checked.is_right(Truth(name, "", step, kept=kept), it, way, frames), f"{name}, {step} has {it}", said)
    checked.need(said.status == status_of(found, frames), f"status {status_of(found, frames)} is due", said)
    return found


def judge_kept(room, kept, found, said):
    """What is kept: each witness is confirmed, each stimulus shows the difference, and each script succeeds."""
    names = sorted(os.listdir(kept))
    checked.need(all(map(KEPT.fullmatch, names)), f"kept {names}", said)
    (first,), (second,), (miter,) = (list(kept.glob(f"{name}-*.aig")) for name in ("first", "second", "miter"))
    for it in found:
        if it.answer == "reached":
            file = room.here / it.witness
            ran = ask(room, "aigsim", "--witness", miter, file)
            checked.need(ran.stdout == f"confirmed {it.steps}\n".encode(), f"{it} has a witness {ran}", said)
            waves = file.with_suffix(".vcd").read_bytes()
            checked.need(all(b"$scope module " + it in waves for it in (b"first", b"second")), "no waveform", said)
            lines = file.with_suffix(".stimulus").read_text().split("\n")
            checked.need(len(lines) > it.steps + 1, f"a stimulus {lines}", said)
            for model in (first, second):
                ran = ask(room, "aigsim", model, file.with_suffix(".stimulus"))
                checked.need(ran.returncode == 0, f"the stimulus is {ran}", said)
    scripts = sorted(kept.glob("*.check.sh"))
    shown = [it for it in found if it.answer in ("never", "none within")]
    checked.need(len(scripts) == len(shown), f"{names} for {len(shown)} certificates", said)
    for script in scripts:
        checked.need(checked.succeeds(str(script), room, room.folder), f"{script.name} fails", said)
    for changed in (first, second) if scripts else ():
        data = changed.read_bytes()
        changed.write_bytes(b"aag 0 0 0 1 0\n0\n")
        checked.need(not checked.succeeds(str(scripts[0]), room, room.folder), f"it holds without {changed.name}", said)
        changed.write_bytes(data)


def ask(room, *words):
    return subprocess.run([room.program, *map(str, words)], capture_output=True, check=False, timeout=checked.LONGEST)


# ---------------------------------------------------------------- models by hand

# of each pair the texts of both, and what is so: names and first steps
AND = "aag 3 2 0 1 1\n2\n4\n6\n6 4 2\n"
EXCHANGED = "aag 7 2 0 1 1\n10\n6\n14\n14 6 10\n"
NAMED = AND + "i0 x\ni1 y\no0 both\n"
LATE = "aag 4 1 3 1 0\n2\n4 2\n6 4\n8 6\n8\n"
PAIRS = {
    "the same": (AND, AND, [("o0", None)]),
    "other numbers": (AND, EXCHANGED, [("o0", None)]),
    "names": (NAMED, EXCHANGED, [("both", None)]),
    "an operand negated": (NAMED, AND.replace("6 4 2\n", "6 4 3\n"), [("both", 0)]),
    "equivalence in two ways": (
        "aag 5 2 0 1 3\n2\n4\n10\n6 4 3\n8 5 2\n10 9 7\n",
        "aag 5 2 0 1 3\n2\n4\n11\n6 4 2\n8 5 3\n10 9 7\n",
        [("o0", None)],
    ),
    "exclusive or in two ways": (
        "aag 5 2 0 1 3\n2\n4\n11\n6 4 3\n8 5 2\n10 9 7\n",
        "aag 5 2 0 1 3\n2\n4\n10\n6 4 2\n8 5 3\n10 9 7\n",
        [("o0", None)],
    ),
    "outputs and bad states": (
        "aag 2 2 0 1 0 1\n2\n4\n2\n4\nb0 broken\n", "aag 2 2 0 2 0\n2\n4\n2\n5\n", [("o0", None), ("broken", 0)],
    ),
    "a latch that is stored negated": ("aag 2 1 1 1 0\n2\n4 2\n4\n", "aag 2 1 1 1 0\n2\n4 3 1\n5\n", [("o0", None)]),
    "a latch that starts elsewhere": ("aag 2 1 1 1 0\n2\n4 2\n4\n", "aag 2 1 1 1 0\n2\n4 2 1\n4\n", [("o0", 0)]),
    "latches that are exchanged": (
        "aag 3 1 2 2 0\n2\n4 2\n6 4\n4\n6\n", "aag 3 1 2 2 0\n2\n4 2\n6 4\n6\n4\n", [("o0", 1), ("o1", 1)],
    ),
    "latches in another order": (
        "aag 3 1 2 2 0\n2\n4 2\n6 4 1\n4\n6\n", "aag 3 1 2 2 0\n2\n6 4 1\n4 2\n4\n6\n", [("o0", None), ("o1", None)],
    ),
    "a latch more": (
        LATE, "aag 5 1 4 1 0\n2\n4 2\n6 4\n8 6\n10 8\n10\n", [("o0", 3)],
    ),
    "a latch that is nowhere used": (LATE, "aag 5 1 4 1 0\n2\n4 2\n6 4\n8 6\n10 8\n8\n", [("o0", None)]),
    "two latches for one": (
        "aag 2 1 1 2 0\n2\n4 2\n4\n4\n", "aag 3 1 2 2 0\n2\n4 2\n6 2\n4\n6\n", [("o0", None), ("o1", None)],
    ),
    "a latch without initial value": ("aag 1 0 1 1 0\n2 3 2\n2\n", "aag 1 0 1 1 0\n2 3 2\n2\n", [("o0", None)]),
    "two of them in another order": (
        "aag 2 0 2 2 0\n2 2 2\n4 4 4\n2\n4\n", "aag 2 0 2 2 0\n2 2 2\n4 4 4\n4\n2\n", [("o0", 0), ("o1", 0)],
    ),
    "an initial value more": ("aag 1 0 1 1 0\n2 3 2\n2\n", "aag 1 0 1 1 0\n2 3\n2\n", [("o0", 0)]),
    "constants": ("aag 0 0 0 2 0\n0\n1\n", "aag 1 0 1 2 0\n2 2\n2\n3\n", [("o0", None), ("o1", None)]),
    "a constraint of the first": (
        "aag 2 2 0 1 0 0 1\n2\n4\n2\n5\n", "aag 3 2 0 1 1\n2\n4\n6\n6 5 2\n", [("o0", None)],
    ),
    "a constraint of the second": (
        "aag 3 2 0 1 1\n2\n4\n6\n6 5 2\n", "aag 2 2 0 1 0 0 1\n2\n4\n2\n5\nc0 quiet\n",
        [("o0", 0), ("assumption quiet of new", 0)],
    ),
    "the same constraint": (
        "aag 2 1 1 1 0 0 1\n2\n4 2\n4\n5\n", "aag 2 1 1 1 0 0 1\n2\n4 2\n4\n5\n",
        [("o0", None), ("assumption c0 of new", None)],
    ),
    "a constraint that fails later": (
        "aag 2 1 1 1 0\n2\n4 2\n4\n", "aag 2 1 1 1 0 0 1\n2\n4 2\n4\n5\n", [("o0", None), ("assumption c0 of new", 1)],
    ),
    "a constraint that is 0": ("aag 1 1 0 1 0 0 1\n2\n2\n0\n", "aag 1 1 0 1 0\n2\n3\n", [("o0", None)]),
}


def put(room, first, second):
    for name, text in (("old", first), ("new", second)):
        (room.here / name).write_bytes(text if isinstance(text, bytes) else text.encode())


def of_pair(which, has_tools, room):
    """A pair of models, in lines and as an object, and what is kept."""
    first, second, wanted = PAIRS[which]
    changes = has_tools(room)
    put(room, first, second)
    room.may_write.add("kept")
    said = room.run("--equal", "--keep", "kept", "old", "new", changes=changes)
    kept = reached.kept(reached.plain(reached.read(first.encode())))
    found = judge(said, wanted, kept=kept)
    judge_kept(room, room.here / "kept", found, said)
    (room.here / "new.aig").write_bytes(model_rows.binary(room, second))
    named = [(name.replace(" of new", " of new.aig"), step) for name, step in wanted]
    judge(room.run("--json", "--equal", "old", "new.aig", changes=changes), named, kept=kept)


def bounded(room):
    """Without ABC there are bounds, where steps are searched; and one step has its own word."""
    put(room, *["aag 3 0 3 1 0\n2 4\n4 6 1\n6 2\n2\n", "aag 3 0 3 1 0\n2 5\n4 7\n6 3 1\n3\n"])
    changes = {**honest(room), "ABC": "false"}
    for frames in (1, 2):
        said = room.run("--equal", "--frames", str(frames), "old", "new", changes=changes)
        judge(said, [("o0", 0)], frames=frames)
    put(room, LATE, "aag 5 1 4 1 0\n2\n4 2\n6 4\n8 6\n10 8\n10\n")
    for frames in (1, 2, 3):
        said = room.run("--equal", "--frames", str(frames), "old", "new", changes=changes)
        checked.need(f"equal for {frames} step{'s' * (frames > 1)}\n" in said.out, "another bound", said)
        judge(said, [("o0", 3)], frames=frames)
    room.may_write.add("kept")
    said = room.run("--equal", "--frames", "3", "--keep", "kept", "old", "new", changes=changes)
    judge_kept(room, room.here / "kept", judge(said, [("o0", 3)], frames=3), said)


# ---------------------------------------------------------------- by name


def by_name(first, second, wanted, room):
    put(room, first, second)
    room.may_write.add("kept")
    said = room.run("--equal", "--by-name", "--keep", "kept", "old", "new", changes=honest(room))
    judge_kept(room, room.here / "kept", judge(said, wanted), said)


TURNED = "aag 3 2 0 2 1\n2\n4\n5\n6\n6 5 2\ni0 y\ni1 x\no0 no\no1 some\n"
STRAIGHT = "aag 3 2 0 1 1 1\n2\n4\n6\n3\n6 4 3\ni0 x\ni1 y\no0 some\nb0 no\n"
BY_NAME = {
    "in another order": (STRAIGHT, TURNED, [("some", None), ("no", None)]),
    "the same order": (STRAIGHT, STRAIGHT, [("some", None), ("no", None)]),
    "a difference": (STRAIGHT, TURNED.replace("6 5 2\n", "6 4 2\n"), [("some", 0), ("no", None)]),
    "odd names": (
        STRAIGHT.replace("o0 some", "o0 $(touch a) ;\"").replace("b0 no", "b0 ../no"),
        TURNED.replace("o1 some", "o1 $(touch a) ;\"").replace("o0 no", "o0 ../no"),
        [("$(touch a) ;\"", None), ("../no", None)],
    ),
}
NOT_BY_NAME = {
    "an input without": (STRAIGHT.replace("i1 y\n", ""), TURNED, ["old: input 1: no name"]),
    "an output without": (STRAIGHT, TURNED.replace("o1 some\n", ""), ["new: output 1: no name"]),
    "one name twice": (STRAIGHT, TURNED.replace("o1 some", "o1 no"), ["new: output 1: name given twice"]),
    "one twice in the first": (STRAIGHT.replace("b0 no", "b0 some"), TURNED, ["old: bad state 0: name given twice"]),
    "another name": (STRAIGHT, TURNED.replace("i1 x", "i1 z"), ["new: input 1: no such name in the other file"]),
    "another output": (STRAIGHT, TURNED.replace("o1 some", "o1 any"), ["new: output 1: no such name in the other"]),
}

# ---------------------------------------------------------------- what is refused

JUSTICE = "aag 1 1 0 1 0 0 0 1\n2\n2\n1\n2\n"
FAIRNESS = "aag 1 1 0 1 0 0 0 0 1\n2\n2\n2\n"
COUNTS = {
    "not as many inputs": (AND, "aag 2 3 0 1 0\n2\n4\n6\n4\n".replace("aag 2", "aag 3"), ["new: not as many inputs"]),
    "not as many outputs": (AND, "aag 2 2 0 2 0\n2\n4\n4\n2\n", ["new: not as many outputs"]),
    "justice in the first": (JUSTICE, AND, ["old: justice or fairness cannot be compared"]),
    "fairness in the second": (AND, FAIRNESS, ["new: justice or fairness cannot be compared"]),
    "a line that is wrong": (AND, "aag 1 1 0 1 0\n3\n2\n", ["new:2: not a variable"]),
    "no model": (b"\0\1", AND, ["old:1: "]),
    "an empty file": (AND, b"", ["new"]),
    "no output": ("aag 1 1 0 0 0\n2\n", "aag 1 1 0 0 0\n2\n", ["no output"]),
    "a constraint and no output": ("aag 1 1 0 0 0\n2\n", "aag 1 1 0 0 0 0 1\n2\n2\n", ["no output"]),
}


def no_pair(words, first, second, patterns, room):
    put(room, first, second)
    said = room.run("--equal", *words, "old", "new", changes=honest(room))
    may_be = (checked.TROUBLE, checked.BROKEN) if "no output" in said.err else (checked.TROUBLE,)
    checked.need(said.status in may_be, "another status", said)
    checked.need("equal" not in said.out.replace("0 pairs", ""), "an answer", said)
    for pattern in patterns:
        checked.need(re.search(f"aiger-check: .*{pattern}", said.err), f"{pattern!r} is not said", said)


USAGE = {
    "one model": (["--equal", "old"], ["two designs"]),
    "three models": (["--equal", "old", "new", "old"], ["two designs"]),
    "no model": (["--equal"], ["no file"]),
    "--by-name alone": (["--by-name", "old"], ["--by-name"]),
    "a top for models": (["--equal", "--top", "m", "old", "new"], ["--top"]),
    "a model and a design": (["--equal", "--top", "m", "old", "m.sv"], ["not a Verilog or VHDL file"]),
    "designs without a top": (["--equal", "m.sv", "m.sv"], ["--top"]),
    "one design with one top": (["--equal", "--top", "m", "m.sv"], ["two designs", "twice"]),
    "three tops": (["--equal", "--top", "m", "--top", "n", "--top", "m", "m.sv"], ["two designs"]),
    "three designs": (["--equal", "--top", "m", "m.sv", "m.sv", "m.sv"], ["two designs"]),
    "two tops without --equal": (["--top", "m", "--top", "n", "m.sv"], ["--top is given twice"]),
    "an odd top": (["--equal", "--top", "m", "--top", "n;shell", "m.sv"], ["not the name of a module"]),
}
MISSING = {
    "a missing model": (["--equal", "old", "none"], ["none"]),
    "a folder for a model": (["--equal", "folder", "new"], ["folder"]),
    "a missing design": (["--equal", "--top", "m", "m.sv", "none.sv"], [r"none\.sv"]),
    "a part of a design that is missing": (["--equal", "--top", "m", "m.sv", "m.sv,none.sv"], [r"none\.sv"]),
}


def usage(status, words, patterns, room):
    put(room, AND, AND)
    (room.here / "folder").mkdir()
    (room.here / "m.sv").write_text("module m(output a); assign a = 1; endmodule\n", encoding="ascii")
    said = room.run(*words, changes=honest(room))
    checked.refused(said, *patterns, status=status)
    checked.need(not said.out, "an answer", said)


# ---------------------------------------------------------------- tools that lie or are interrupted

LIED_OF = {
    "equal": ("aag 5 2 0 1 3\n2\n4\n11\n6 4 3\n8 5 2\n10 9 7\n", PAIRS["exclusive or in two ways"][1], [("o0", None)]),
    "one that differs": (LATE, PAIRS["a latch more"][1], [("o0", 3)]),
    "latches": (*PAIRS["latches in another order"][:2], [("o0", None), ("o1", None)]),
}


def lying(what, said_by, which, room):
    """A solver or ABC that lies costs an answer, and gives no wrong one."""
    first, second, wanted = LIED_OF[which]
    put(room, first, second)
    make = stand_ins.lying_solver if what == "SOLVER" else stand_ins.lying_abc
    changes = {**honest(room), what: make(room.folder / "lies", said_by)}
    way = checked.SAFE if what == "SOLVER" else checked.BOUNDED
    said = room.run("--equal", "--frames", "4", "--limit", "60", "old", "new", changes=changes)
    judge(said, wanted, way, 4)


def turned_solver(which, room):
    first, second, wanted = LIED_OF[which]
    put(room, first, second)
    changes = {**honest(room), "SOLVER": stand_ins.turned_solver(room.folder / "lies")}
    judge(room.run("--equal", "--frames", "2", "old", "new", changes=changes), wanted, checked.SAFE, 2)


def failing_aiger(word, with_words, status, which, room):
    first, second, wanted = LIED_OF[which]
    put(room, first, second)
    changes = honest(room)
    changes["AIGER"] = stand_ins.failing(room.folder / "lies", "aiger", room.program, word, with_words, status)
    said = room.run("--equal", "--frames", "4", "old", "new", changes=changes)
    if said.out:
        judge(said, wanted, checked.SAFE, 4)
    else:
        checked.refused(said)


def without(name, which, room):
    """Without ABC or a solver."""
    first, second, wanted = LIED_OF[which]
    put(room, first, second)
    changes = {**honest(room), name: "/no/such/cadical"}
    way = checked.SAFE if name == "SOLVER" else checked.BOUNDED
    judge(room.run("--equal", "--frames", "4", "old", "new", changes=changes), wanted, way, 4)


def slow_solver(room):
    """Where the solver does not decide within the limit, the answer is unknown and says so; it is ended."""
    first, second, wanted = LIED_OF["equal"]
    put(room, first, second)
    begun = room.folder / "begun"
    changes = {"ABC": "false", "SOLVER": stand_ins.sleeping(room.folder / "slow", "cadical", begun)}
    said = room.run("--equal", "--limit", "1", "old", "new", changes=changes)
    (it,) = judge(said, wanted, checked.SAFE)
    checked.need(it.answer == "unknown" and "1 s" in it.reason, "the limit is not told", said)
    stand_ins.need_ended(begun, said)


def interrupted(name, number, room):
    """A signal comes while a tool runs."""
    begun, changes = room.folder / "begun", honest(room)
    called = {"SOLVER": "cadical", "ABC": "berkeley-abc", "YOSYS": "yosys", "AIGER": "aiger"}[name]
    changes[name] = stand_ins.sleeping(room.folder / "slow", called, begun)
    words = ["old", "new"]
    put(room, *LIED_OF["latches" if name != "ABC" else "one that differs"][:2])
    if name == "ABC":
        put(room, LATE, PAIRS["a latch that is nowhere used"][1].replace("10 8", "10 11"))
        changes["SOLVER"] = "minisat-is-not-there/cadical"
    if name == "YOSYS":
        words = ["--top", "m", "m.sv", "m.sv"]
        (room.here / "m.sv").write_text("module m(output a); assign a = 1; endmodule\n", encoding="ascii")
    before = room.files()
    words = ["--equal", "--keep", "kept", *words]
    room.may_write.add("kept")
    run = room.start(*words, changes=changes, start_new_session=True)
    interrupt_rows.wait_for(lambda: interrupt_rows.has_numbers(begun), run)
    checked.need(run.poll() is None, "it ended before", run.communicate() if run.poll() is not None else "")
    os.kill(run.pid, number)
    said = room.end(run, tuple(words), before)
    checked.need(said.status == interrupt_rows.STATUSES[number], "another status", said)
    checked.need("equal" not in said.out and "differs" not in said.out, "an answer", said)
    stand_ins.need_ended(begun, said)


# ---------------------------------------------------------------- odd names


def symbols(names, room):
    """Outputs with odd names: each has a line and files of its own."""
    text = "aag 3 1 2 4 0\n2\n4 2\n6 4\n4\n6\n0\n1\n"
    lines = "".join(f"o{at} {it}\n" for at, it in enumerate(names))
    other = text.replace("4\n6\n0\n", "6\n4\n0\n") + lines
    (room.here / "old").write_text(text + lines, encoding="utf-8", errors="surrogateescape")
    (room.here / "new").write_text(other, encoding="utf-8", errors="surrogateescape")
    room.may_write.add("kept")
    said = room.run("--equal", "--json", "--keep", "kept", "old", "new", changes=honest(room))
    every = [*names, *["o0", "o1", "o2", "o3"][len(names) :]]
    found = judge(said, list(zip(every, [1, 1, None, None])))
    judge_kept(room, room.here / "kept", found, said)
    lines = room.run("--equal", "old", "new", changes=honest(room))
    checked.need(len(lines.out.splitlines()) == 5, "a line for each", lines)
    checked.need(not re.search(r"[\0-\x09\x0b-\x1f\x7f]", lines.out), "a control character is shown", lines)


def files(first, second, words, room):
    """Files with odd names, and the same file twice."""
    for name, text in ((first, AND), (second, EXCHANGED)):
        (room.here / name).write_text(text, encoding="ascii")
    said = room.run("--equal", *words, changes=honest(room))
    judge(said, [("o0", None)])


FILES = {
    "with spaces": ("a b", "c d", ["a b", "c d"]),
    "with dashes": ("-a", "--equal", ["--", "-a", "--equal"]),
    "with commas": ("a,b", "c,d.aig", ["a,b", "c,d.aig"]),
    "of the program": ("first.aig", "model.aig", ["first.aig", "model.aig"]),
    "with quotes": ("'\"", "$(touch a);\n", ["'\"", "$(touch a);\n"]),
    "that are one": ("one", "one", ["one", "one"]),
}


def others_named(room):
    """Pairs by place whose names differ are noted, with --quiet too: that changes what the answer means."""
    put(room, NAMED, NAMED.replace("o0 both", "o0 any"))
    said = room.run("--equal", "old", "new", changes=honest(room))
    judge(said, [("both", None)])
    checked.need("both" in said.err and "any" in said.err and "--by-name" in said.err, "it is not noted", said)
    quiet = room.run("--equal", "--quiet", "old", "new", changes=honest(room))
    checked.need("--by-name" in quiet.err and quiet.out == said.out, "it is not noted where it is quiet", quiet)


# ---------------------------------------------------------------- what ABC makes smaller

SHORTER = {
    "dc2": "strash; dc2",
    "resyn2": "strash; balance; rewrite; refactor; balance; rewrite; rewrite -z; balance; refactor -z; rewrite -z; "
    "balance",
    "scorr": "strash; scorr",
    "retime": "strash; retime -M 1; strash",
}


def wide(chance):
    """A sequential circuit of some 150 gates, whose latches have initial values."""
    gates, inputs, latches = [], [*range(1, 9)], [*range(9, 19)]
    known = [*inputs, *latches]

    def literal():
        return 2 * chance.choice(known[-40:] if chance.random() < 0.7 else known) + chance.randrange(2)

    for own in range(19, 169):
        gates.append((2 * own, literal(), literal()))
        known.append(own)
    return images.Circuit(
        largest=168, inputs=inputs, latches=latches, nexts=[literal() for _ in latches],
        resets=[chance.choice("01") for _ in latches], outputs=[literal() for _ in range(8)], bad=[], constraints=[],
        justice=[], fairness=[], gates=gates, symbols="", comment=None,
    )


def by_abc(which, at, is_changed, room):
    """A model beside what ABC makes of it, and beside that with a gate changed, which is not to be equal by a lie."""
    design_rows.need_tools("berkeley-abc", "cadical")
    made = wide(random.Random(at))
    (room.here / "old").write_bytes(model_rows.binary(room, images.ascii_text(made).decode()))
    commands = f"read_aiger {room.here / 'old'}; {SHORTER[which]}; write_aiger {room.folder / 'new.aig'}"
    subprocess.run(["berkeley-abc", "-q", commands], check=True, capture_output=True)
    if is_changed:
        changed_gate(room, random.Random(at))
    shutil.copy(room.folder / "new.aig", room.here / "new")
    said = room.run("--equal", "--jobs", "2", "--frames", "10", "--time", "5", "old", "new")
    if is_changed:
        found = of_lines(said, 10)
        bad = [it for it in found if it.answer == "reached"]
        checked.need(said.status == (1 if bad else said.status), "another status", said)
        for it in bad:
            checked.need(differs_in(room, it), f"{it} is not so", said)
        return
    # what is retimed may have no invariant that is found in time
    judge(said, [(f"o{it}", None) for it in range(8)], checked.BOUNDED if which == "retime" else checked.EXACT, 10)


def changed_gate(room, chance):
    """Negates an operand in what ABC wrote."""
    text = subprocess.run(
        [room.program, "aigtoaig", "--ascii", room.folder / "new.aig"], check=True, capture_output=True
    ).stdout
    made = reached.read(text)
    at = chance.randrange(len(made.gates))
    own, left, right = made.gates[at]
    made.gates[at] = (own, left ^ 1, right)
    (room.folder / "changed.aag").write_bytes(images.ascii_text(made))
    subprocess.run([room.program, "aigtoaig", room.folder / "changed.aag", room.folder / "new.aig"], check=True)


def differs_in(room, it):
    """Whether a simulation of both shows the difference that was said, by what is kept."""
    room.may_write.add("kept")
    said = room.run("--equal", "--frames", "10", "--time", "5", "--keep", "kept", "old", "new")
    found = next(other for other in of_lines(said, 10) if other.name == it.name)
    stimulus = (room.here / found.witness).with_suffix(".stimulus")
    ran = [ask(room, "aigsim", "--properties", room.here / name, stimulus) for name in ("old", "new")]
    lines = [it.stdout.decode().split("\n") for it in ran]
    place = int(it.name[1:])
    seen = [["".join(line.split(" ")[2:5:2])[place] for line in its[: found.steps + 1]] for its in lines]
    return seen[0][:-1] == seen[1][:-1] and seen[0][-1] != seen[1][-1]


# ---------------------------------------------------------------- gate by gate


def multiplier(bits):
    """A multiplier of two numbers, which a solver alone does not compare with another one in time."""
    gates, spare = [], itertools.count(2 * bits + 1)

    def both(left, right):
        if 0 in (left, right):
            return 0
        own = 2 * next(spare)
        gates.append((own, left, right))
        return own

    def either(left, right):
        return both(left ^ 1, right ^ 1) ^ 1

    def added(left, right, carry):
        one = either(both(left, right ^ 1), both(left ^ 1, right))
        total = either(both(one, carry ^ 1), both(one ^ 1, carry))
        return total, either(both(left, right), both(one, carry))

    left, right = ([2 * it for it in range(1 + first, 1 + first + bits)] for first in (0, bits))
    line, outputs = [both(left[0], it) for it in right] + [0], []
    for factor in left[1:]:
        outputs.append(line[0])
        carry, following = 0, []
        for one, other in zip(line[1:], [both(factor, it) for it in right]):
            total, carry = added(one, other, carry)
            following.append(total)
        line = [*following, carry]
    largest = next(spare) - 1
    return images.Circuit(
        largest=largest, inputs=list(range(1, 2 * bits + 1)), latches=[], nexts=[], resets=[],
        outputs=[*outputs, *line], bad=[], constraints=[], justice=[], fairness=[], gates=gates, symbols="",
        comment=None,
    )


BITS = 11


def put_multipliers(room, commands, bits=BITS):
    """A multiplier, and what ABC makes of it."""
    design_rows.need_tools("berkeley-abc", "cadical")
    put(room, model_rows.binary(room, images.ascii_text(multiplier(bits)).decode()), AND)
    commands = f"read_aiger {room.here / 'old'}; {commands}; write_aiger {room.folder / 'new.aig'}"
    subprocess.run(["berkeley-abc", "-q", commands], check=True, capture_output=True)


def by_gates(commands, room):
    """What one solver's call does not decide is shown from the inputs on, and kept once."""
    put_multipliers(room, commands)
    shutil.copy(room.folder / "new.aig", room.here / "new")
    room.may_write.add("kept")
    said = room.run("--equal", "--limit", "100", "--keep", "kept", "old", "new")
    found = judge(said, [(f"o{it}", None) for it in range(2 * BITS)])
    kept = room.here / "kept"
    checked.need(len(list(kept.glob("*.drat"))) == 1, f"kept {sorted(os.listdir(kept))}", said)
    for script in sorted(kept.glob("*.check.sh"))[: len(found) : 7]:
        checked.need(checked.succeeds(str(script), room, room.folder), f"{script.name} fails", said)


def by_gates_changed(room):
    """With a gate changed near the inputs there are differences, and each is so."""
    put_multipliers(room, "strash; dc2")
    changed_gate(room, random.Random(3))
    shutil.copy(room.folder / "new.aig", room.here / "new")
    said = room.run("--equal", "--limit", "20", "old", "new")
    bad = [it for it in of_lines(said, checked.FRAMES) if it.answer == "reached"]
    checked.need(bad and said.status == 1, "no difference", said)
    checked.need(all(it.steps == 0 for it in bad) and differs_in(room, bad[0]), f"{bad[0]} is not so", said)


def lying_by_gates(body, room):
    """A solver that does not decide, and lies where it is asked gate by gate: no output that differs is equal."""
    put_multipliers(room, "strash; dc2", 4)
    changed_gate(room, random.Random(3))
    shutil.copy(room.folder / "new.aig", room.here / "new")
    steps = "".join(f"{it:08b}\n" for it in range(256))
    (room.folder / "steps").write_text(steps, encoding="ascii")
    ran = [ask(room, "aigsim", room.here / name, room.folder / "steps") for name in ("old", "new")]
    outputs = [[line.split(" ")[2] for line in it.stdout.decode().split("\n")[:256]] for it in ran]
    differ = {f"o{at}" for one, other in zip(*outputs) for at in range(8) if one[at] != other[at]}
    body = f'{stand_ins.FILES}grep -q inccnf "$clauses" || exec sleep 100\n{body}'
    changes = {"SOLVER": stand_ins.put(room.folder / "lies", "cadical", body), "ABC": "false"}
    said = room.run("--equal", "--limit", "0.5", "--jobs", "8", "old", "new", changes=changes)
    found = judge(said, [(f"o{it}", 0 if f"o{it}" in differ else None) for it in range(8)], checked.SAFE)
    checked.need(differ and any(it.answer == "unknown" for it in found), "it was not lied to", said)


GATE_LIES = {
    "no refutation": stand_ins.UNSAT,
    "an empty refutation": f': > "$refutation"; {stand_ins.UNSAT}',
    "any bytes": f'head -c 3000 /dev/urandom > "$refutation"; {stand_ins.UNSAT}',
    "a folder": f'rm -rf "$refutation"; mkdir "$refutation"; {stand_ins.UNSAT}',
    "wrong values": f"{stand_ins.SAT}; echo 'v 1 -2 99999999 x 0'; exit 10",
    "no values": f"{stand_ins.SAT}; exit 10",
    "that it failed": "exit 1",
}

# ---------------------------------------------------------------- Verilog

COUNTER = """module m(input clk, input reset, input up, output reg [3:0] count, output full);
  always @(posedge clk) if (reset) count <= 0; else if (up) count <= count + 1;
  assign full = count == 15;
endmodule
"""
OTHER_COUNTER = """module m(input up, input clk, input reset, output full, output [3:0] count);
  reg [3:0] left = 15;
  always @(posedge clk) if (reset) left <= 15; else left <= left - {3'd0, up};
  assign count = ~left, full = !(|left);
endmodule
"""
STARTED = COUNTER.replace("count,", "count = 0,")
NAMES = ["count[0]", "count[1]", "count[2]", "count[3]", "full"]
PARTS = """module half(input a, b, output s, c); assign s = a ^ b, c = a & b; endmodule
"""
ADDER = """module m(input [2:0] a, b, output [3:1] sum, output carry);
  assign {carry, sum} = a + b;
endmodule
"""
RIPPLE = """module m(input [2:0] b, a, output carry, output [3:1] sum);
  wire [3:0] c, d, e, s;
  assign c[0] = 0, carry = c[3], sum = s[2:0];
  genvar i;
  for (i = 0; i < 3; i = i + 1) begin
    half x(a[i], b[i], d[i], e[i]);
    wire f;
    half y(d[i], c[i], s[i], f);
    assign c[i + 1] = e[i] | f;
  end
endmodule
"""
SUMS = ["sum[1]", "sum[2]", "sum[3]", "carry"]
ASSUMED = """module m(input clk, a, b, output o);
  both: assume property (!(a && b));
  kept: assert property (!o || a || b);
  here: assert property (1);
  assign o = %s;
endmodule
"""
CLOCKED = "module m(input c, d, e, output reg q = 0);\n  always @(%s) q <= e;\nendmodule\n"
DESIGNS = {
    "an adder in two ways": ((ADDER, PARTS + RIPPLE), [], [(it, None) for it in SUMS]),
    "an adder that is wrong": (
        (ADDER, PARTS + RIPPLE.replace("e[i] | f", "e[i]")), [],
        [("sum[1]", None), ("sum[2]", None), ("sum[3]", 0), ("carry", 0)],
    ),
    "a counter in two ways": ((STARTED, OTHER_COUNTER), [], [(it, None) for it in NAMES]),
    "a counter that starts elsewhere": (
        (STARTED, OTHER_COUNTER.replace("left = 15", "left = 7")), [],
        [(it, None if it.startswith("count") and it != "count[3]" else 0 if it == "count[3]" else 7) for it in NAMES],
    ),
    "a counter with another reset": (
        (STARTED, OTHER_COUNTER.replace("left <= 15", "left <= 14")), [],
        [("count[0]", 1), ("count[1]", 2), ("count[2]", 4), ("count[3]", 8), ("full", 15)],
    ),
    "a counter without initial values": (
        (COUNTER, COUNTER.replace("count + 1", "1 + count")), [], [(it, None) for it in NAMES],
    ),
    "assumptions": (
        (ASSUMED % "a ^ b", ASSUMED % "a | b"), [],
        [("o", None), ("assertion kept", None), ("assertion here", None), ("assumption both of new.sv", None)],
    ),
    "an assumption that is dropped": (
        ((ASSUMED % "a ^ b").replace("  both: assume property (!(a && b));\n", ""), ASSUMED % "a | b"), [],
        [("o", 0), ("assertion kept", None), ("assertion here", None), ("assumption both of new.sv", 0)],
    ),
    "undriven bits": (
        ("module m(output [1:0] a, input b); assign a[0] = b; endmodule\n",) * 2, [], [("a[0]", None), ("a[1]", None)],
    ),
    "a clock that falls": ((CLOCKED % "posedge c", CLOCKED % "negedge c"), [], [("q", 1)]),
    "two clocks": ((CLOCKED % "posedge c", CLOCKED % "posedge d"), [], [("q", 1)]),
    "a word that is defined": (
        ("module m(output a); assign a = `A; endmodule\n", "module m(output a); assign a = 1; endmodule\n"),
        ["-D", "A=1"], [("a", None)],
    ),
}


def of_design(which, room):
    """Two designs, in lines and as an object, and what is kept."""
    design_rows.need_tools(*design_rows.TOOLS)
    (first, second), words, wanted = DESIGNS[which]
    (room.here / "old.sv").write_text(first, encoding="ascii")
    (room.here / "new.sv").write_text(second, encoding="ascii")
    room.may_write.add("kept")
    said = room.run("--equal", *words, "--keep", "kept", "--top", "m", "old.sv", "new.sv")
    found = judge(said, wanted)
    judge_kept(room, room.here / "kept", found, said)
    judge(room.run("--equal", "--json", *words, "--top", "m", "old.sv", "new.sv"), wanted)


def two_tops(room):
    """Two modules of one file, or of two; and a design of several files."""
    design_rows.need_tools(*design_rows.TOOLS)
    other = RIPPLE.replace("module m", "module n")
    for name, text in (("a.sv", ADDER), ("b.sv", other), ("half,1.sv", PARTS), ("all.sv", ADDER + PARTS + other)):
        (room.here / name).write_text(text, encoding="ascii")
    (room.here / "half.sv").write_text(PARTS, encoding="ascii")
    wanted = [(it, None) for it in SUMS]
    for words in (["all.sv"], ["a.sv", "b.sv,half.sv"], ["all.sv", "all.sv"]):
        judge(room.run("--equal", "--top", "m", "--top", "n", *words), wanted)
    judge(room.run("--equal", "--top", "n", "--top", "m", "all.sv"), [("carry", None), *wanted[:3]])
    judge(room.run("--equal", "--top", "half", "half,1.sv", "half.sv"), [("s", None), ("c", None)])


def ports(first, second, patterns, room):
    """Designs whose ports are not the same are refused by name."""
    design_rows.need_tools("yosys", "cadical")
    (room.here / "old.sv").write_text(first, encoding="ascii")
    (room.here / "new.sv").write_text(second, encoding="ascii")
    said = room.run("--equal", "--top", "m", "old.sv", "new.sv")
    checked.refused(said, *patterns)


PORTS = {
    "an input more": (ADDER, ADDER.replace("a, b,", "a, b, c,"), [r"old\.sv has no input c\[0\], c\[1\], c\[2\]"]),
    "an input less": (ADDER.replace("a, b,", "a, b, c,"), ADDER, [r"new\.sv has no input c\[0\]"]),
    "another range": (ADDER, ADDER.replace("[3:1]", "[2:0]"), [r"new\.sv has no output sum\[3\]"]),
    "a syntax error": (ADDER, "module m(", [r"new\.sv:1"]),
    "another top": (ADDER, ADDER.replace("module m", "module n"), ["m"]),
    "a loop": (ADDER, "module m(input [2:0] a, b, output [3:1] sum, output carry);\n"
               "  assign {carry, sum} = {sum, carry} + a; endmodule\n", ["loop"]),
}


def left_out(room):
    """Assertions that one design alone has are named."""
    design_rows.need_tools(*design_rows.TOOLS)
    (room.here / "old.sv").write_text(ASSUMED % "a", encoding="ascii")
    (room.here / "new.sv").write_text((ASSUMED % "a").replace("here:", "there:"), encoding="ascii")
    said = room.run("--equal", "--top", "m", "old.sv", "new.sv")
    judge(said, [("o", None), ("assertion kept", None), ("assumption both of new.sv", None)])
    for word in ("here of old.sv", "there of new.sv"):
        checked.need(f"assertion {word}" in said.err, f"{word} is not noted", said)


# ---------------------------------------------------------------- by chance


def changed(made, chance):
    """A circuit with one change, which may be none."""
    what = chance.choice(["gate", "output", "next", "reset", "constraint", "nothing", "nothing"])
    if what == "gate" and made.gates:
        gates, at = list(made.gates), chance.randrange(len(made.gates))
        own, left, right = gates[at]
        gates[at] = (own, left ^ 1, right)
        return dataclasses.replace(made, gates=gates)
    if what == "output" and made.outputs:
        return dataclasses.replace(made, outputs=[made.outputs[0] ^ 1, *made.outputs[1:]])
    if what == "next" and made.nexts:
        return dataclasses.replace(made, nexts=[made.nexts[0] ^ 1, *made.nexts[1:]])
    if what == "reset" and made.resets:
        return dataclasses.replace(made, resets=[chance.choice("01x"), *made.resets[1:]])
    if what == "constraint":
        constraint = 2 * chance.choice([0, *made.inputs, *made.latches]) + chance.randrange(2)
        return dataclasses.replace(made, constraints=made.constraints[1:] or [constraint])
    return made


def rewritten(made, chance):
    """The circuit by other variables, with gates in another order, and some of them written in another way."""
    gates, spare = [], itertools.count(made.largest + 1)
    for own, left, right in made.gates:
        if chance.random() < 0.3:
            first, second = 2 * next(spare), 2 * next(spare)
            # twice the same, and a conjunction with 1
            gates += [(first, left, right), (second, right, left), (own, first, second)]
        else:
            gates.append((own, right, left) if chance.randrange(2) else (own, left, right))
    largest = next(spare) - 1
    numbers = list(range(1, largest + 1))
    chance.shuffle(numbers)
    to = {0: 0, **dict(zip(range(1, largest + 1), numbers))}

    def now(literals):
        return [2 * to[it // 2] + it % 2 for it in literals]

    chance.shuffle(gates)
    return dataclasses.replace(
        made, largest=largest, inputs=[to[it] for it in made.inputs], latches=[to[it] for it in made.latches],
        nexts=now(made.nexts), outputs=now(made.outputs), bad=now(made.bad), constraints=now(made.constraints),
        gates=[tuple(now(gate)) for gate in gates],
    )


def pair(at):
    """Two small circuits, of which the second may have a fault."""
    chance = random.Random(at)
    while True:
        made = images.circuit(chance, most_latches=3, most_inputs=2, most_gates=8)
        own = sorted({*made.inputs, *made.latches, *(gate[0] // 2 for gate in made.gates)})
        to = {0: 0, **{it: number for number, it in enumerate(own, 1)}}

        def now(literals):
            return [2 * to[it // 2] + it % 2 for it in literals]

        first = dataclasses.replace(
            made, largest=len(own), inputs=[to[it] for it in made.inputs], latches=[to[it] for it in made.latches],
            nexts=now(made.nexts), outputs=now(made.outputs), bad=now(made.bad), constraints=now(made.constraints),
            justice=[], fairness=[], gates=[tuple(now(it)) for it in made.gates], symbols="", comment=None,
        )
        if first.outputs or first.bad:
            return first, rewritten(changed(first, chance), chance)


def first_differences(first, second):
    """The first step of a difference at each place, then of each constraint of the second that fails, by all states of
    both side by side."""
    orders = [images.placed(it.gates) for it in (first, second)]
    every = ["".join(it) for it in itertools.product("01", repeat=len(first.inputs))]
    open_ = [[at for at, it in enumerate(made.resets) if it == "x"] for made in (first, second)]
    starts = [["".join(it) for it in itertools.product(*("01" if x == "x" else x for x in made.resets))]
              for made in (first, second)]
    here = {(x, y) for x in starts[0] for y in starts[1] if all(x[i] == y[j] for i, j in zip(*open_))}
    places = len(first.outputs) + len(first.bad)
    found, seen = [None] * (places + len(second.constraints)), set()
    for step in itertools.count():
        behind = set()
        for (x, y), given in itertools.product(here, every):
            shown = []
            for made, order, state in ((first, orders[0], x), (second, orders[1], y)):
                _, line, following = traces.step(made, order, state, given)
                _, _, outputs, _, bad, kept = line.split(" ")
                shown.append((outputs + bad, kept, following))
            if "0" in shown[0][1]:
                continue
            for place, (one, other) in enumerate(zip(shown[0][0], shown[1][0])):
                if one != other and found[place] is None:
                    found[place] = step
            for at, value in enumerate(shown[1][1]):
                if value == "0" and found[places + at] is None:
                    found[places + at] = step
            behind.add((shown[0][2], shown[1][2]))
        seen |= here
        here = behind - seen
        if not here:
            return found


def by_chance(at, room):
    """Two models made by chance, in text or binary, with the tools themselves or with stand-ins of them."""
    first, second = pair(at)
    tools = honest if at % 4 == 0 or not shutil.which("cadical") or not shutil.which("berkeley-abc") else real
    put(room, images.ascii_text(first), images.ascii_text(second))
    names = [f"o{it}" for it in range(len(first.outputs))] + [f"b{it}" for it in range(len(first.bad))]
    names += [f"assumption c{it} of new" for it in range(len(second.constraints))]
    wanted = list(zip(names, first_differences(first, second)))
    words = ["--json"] if at % 2 else []
    said = room.run("--equal", *words, "--jobs", "1", "old", "new", changes=tools(room))
    try:
        judge(said, wanted, kept=reached.kept(first))
    except checked.Wrong as why:
        raise checked.Wrong(f"{why}; of {images.ascii_text(first)} and {images.ascii_text(second)}") from why


def rows():
    each = functools.partial
    for which in PAIRS:
        yield f"equal: {which}, by stand-ins", each(of_pair, which, honest)
        yield f"equal: {which}", each(of_pair, which, real)
    yield "equal for some steps", bounded
    for called, of in BY_NAME.items():
        yield f"equal by name: {called}", each(by_name, *of)
    for called, (first, second, patterns) in NOT_BY_NAME.items():
        yield f"equal by name: {called}", each(no_pair, ["--by-name"], first, second, patterns)
    for called, (first, second, patterns) in COUNTS.items():
        yield f"equal: {called}", each(no_pair, [], first, second, patterns)
    for status, of in ((checked.USAGE, USAGE), (checked.TROUBLE, MISSING)):
        for called, (words, patterns) in of.items():
            yield f"equal, usage: {called}", each(usage, status, words, patterns)
    for at, said in enumerate(stand_ins.SOLVER_LIES):
        yield f"equal: the solver gives {said}", each(lying, "SOLVER", said, [*LIED_OF][at % 3])
    for at, said in enumerate(stand_ins.ABC_LIES):
        yield f"equal: ABC gives {said}", each(lying, "ABC", said, [*LIED_OF][1 + at % 2])
    for which in LIED_OF:
        yield f"equal: the solver turned round, of {which}", each(turned_solver, which)
        yield f"equal: no ABC, of {which}", each(without, "ABC", which)
        yield f"equal: no solver, of {which}", each(without, "SOLVER", which)
    for at, (called, of) in enumerate(tool_rows.AIGER.items()):
        yield f"equal: {called}", each(failing_aiger, *of, [*LIED_OF][at % 3])
    yield "equal: aiger makes no miter", each(failing_aiger, "aigmiter", "", 1, "equal")
    yield "equal: the solver sleeps", slow_solver
    for name, number in itertools.product(("YOSYS", "ABC", "SOLVER", "AIGER"), (signal.SIGINT, signal.SIGTERM)):
        yield f"equal: {number.name} while {name} runs", each(interrupted, name, number)
    for called, names in model_rows.SYMBOLS.items():
        yield f"equal: symbols {called}", each(symbols, names)
    for called, of in FILES.items():
        yield f"equal: files {called}", each(files, *of)
    yield "equal: other names at one place", others_named
    for at, which in enumerate(SHORTER):
        yield f"equal: {which} of ABC", each(by_abc, which, at, False)
        yield f"equal: {which} of ABC, changed", each(by_abc, which, at, True)
    yield "equal: gate by gate, dc2", each(by_gates, SHORTER["dc2"])
    yield "equal: gate by gate, resyn2", each(by_gates, SHORTER["resyn2"])
    yield "equal: gate by gate, changed", by_gates_changed
    for called, body in GATE_LIES.items():
        yield f"equal: gate by gate, the solver gives {called}", each(lying_by_gates, body)
    for which in DESIGNS:
        yield f"equal designs: {which}", each(of_design, which)
    for called, of in PORTS.items():
        yield f"equal designs: {called}", each(ports, *of)
    yield "equal designs: two tops", two_tops
    yield "equal designs: assertions of one alone", left_out
    for at in range(BY_CHANCE):
        yield f"equal: pair {at} by chance", each(by_chance, at)
