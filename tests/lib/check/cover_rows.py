"""Rows of covers, of left sides that are to be met, and of modes: what is said of designs, what is kept, and the status."""
import functools
import json
import re
import subprocess

from lib.check import checked, design_rows, model_rows

HEAD = "module m(input clk, input a, input b);\nreg [3:0] c = 0;\nalways @(posedge clk) if (a) c <= c + 1;\n"
# of each design its lines behind the head, and of each cover what is said
COVERS = {
    "one that is reached": (["seen: cover property (c == 7);"], [("m.seen", 4, "covered at 7")]),
    "one in the first step": (["seen: cover property (b);"], [("m.seen", 4, "covered at 0")]),
    "one that no run reaches": (["none: cover property (c == 3 && c == 4);"], [("m.none", 4, "never")]),
    "one that an assumption forbids": (
        ["assume property (!b);", "none: cover property (b);", "seen: cover property (c == 2);"],
        [("m.none", 5, "never"), ("m.seen", 6, "covered at 2")],
    ),
    "one without a label": (["cover property (c == 2);"], [("m.cover", 4, "covered at 2")]),
    "one under a condition": (
        ["always @(posedge clk) if (c == 3) seen: cover (b);"], [("m.seen", 4, "covered at 4")]
    ),
    "one that is 1": (["seen: cover property (1);"], [("m.seen", 4, "covered at 0")]),
    "one that is 0": (["none: cover property (0);"], [("m.none", 4, "never")]),
    "several, of which some are reached": (
        [f"at{it}: cover property (c == {it});" for it in range(0, 16, 5)] + ["none: cover property (c > 15);"],
        [(f"m.at{it}", 4 + it // 5, f"covered at {it}") for it in range(0, 16, 5)] + [("m.none", 8, "never")],
    ),
    "two instances": (
        ["part one(clk, a); part two(clk, a && b);", "endmodule", "module part(input clk, input go); reg s = 0;",
         "always @(posedge clk) s <= s | go;", "on: cover property (s);"],
        [("m.one.on", 8, "covered at 1"), ("m.two.on", 8, "covered at 1")],
    ),
    "the same twice": (
        ["one: cover property (c == 2);", "two: cover property (c == 2);"],
        [("m.one", 4, "covered at 2"), ("m.two", 5, "covered at 2")],
    ),
    "one beside assertions that fail": (
        ["broken: assert property (c != 1);", "seen: cover property (c == 2);"], [("m.seen", 5, "covered at 2")]
    ),
}


def put(room, lines):
    (room.here / "m.sv").write_text(HEAD + "\n".join(lines) + "\nendmodule\n", encoding="ascii")


def need_lines(said, wanted):
    """That these are the lines, whatever file is named behind an answer."""
    lines = [re.sub(r", kept/\S+$", "", it) for it in said.out.splitlines()[:-1]]
    checked.need(lines == wanted, f"{wanted} are due", said)


def of_covers(which, room):
    """What is said of each cover, in lines and as an object, and that what is kept shows it."""
    design_rows.need_tools(*design_rows.TOOLS)
    lines, wanted = COVERS[which]
    put(room, lines)
    room.may_write.add("kept")
    said = room.run("--mode", "cover", "--keep", "kept", "--top", "m", "m.sv")
    need_lines(said, [f"{name} (m.sv:{line}): {answer}" for name, line, answer in wanted])
    status = checked.KEPT if all(it[2].startswith("covered") for it in wanted) else checked.BROKEN
    checked.need(said.status == status, f"status {status} is due", said)
    checked.need(len(list((room.here / "kept").glob("*.check.sh"))) == sum(it[2] == "never" for it in wanted), "scripts", said)
    for script in (room.here / "kept").glob("*.check.sh"):
        checked.need(checked.succeeds(str(script), room, room.folder), f"{script.name} fails", said)
    for name, _, answer in wanted:
        if answer.startswith("covered"):
            step, run = answer.split()[-1], room.here / "kept" / f"{name}.aiw"
            model = checked.model_of(room.here / "kept")
            told = subprocess.run([room.program, "aigsim", "--witness", model, run], capture_output=True, text=True, check=False)
            checked.need(told.stdout == f"confirmed {step}\n", f"{name} has a run that {told}", said)
    said = room.run("--mode", "cover", "--json", "--top", "m", "m.sv")
    found = [(it["name"], it["answer"], it.get("steps")) for it in json.loads(said.out)["covers"]]
    due = [(name, answer.split(" at ")[0], int(answer.split()[-1]) if " at " in answer else None) for name, _, answer in wanted]
    checked.need(found == due and said.status == status, f"{due} is due", said)


LEFT = [
    "always @(posedge clk) if (c == 5) met: assert (c < 6);",
    "always @(posedge clk) if (c == 5 && c == 6) unmet: assert (c < 6);",
    "plain: assert property (c < 16);",
    "always @* if (b) first: assert (c < 16);",
    "always @(posedge clk) if (a) if (c == 2) nested: assert (b || !b);",
]
# the words beside the design, and of each assertion what is said, with its left side
LEFT_SIDES = {
    "all": (LEFT, [
        "m.met (m.sv:4): never", "m.met (m.sv:4), left side: met at 6",
        "m.unmet (m.sv:5): never", "m.unmet (m.sv:5), left side: never met",
        "m.plain (m.sv:6): never",
        "m.first (m.sv:7): never", "m.first (m.sv:7), left side: met at 0",
        "m.nested (m.sv:8): never", "m.nested (m.sv:8), left side: met at 3",
    ], checked.VACUOUS),
    "all that are met": (LEFT[:1] + LEFT[2:4], [
        "m.met (m.sv:4): never", "m.met (m.sv:4), left side: met at 6", "m.plain (m.sv:5): never",
        "m.first (m.sv:6): never", "m.first (m.sv:6), left side: met at 0",
    ], checked.KEPT),
    "one that fails": (["always @(posedge clk) if (c == 1) fails: assert (b);"], [
        "m.fails (m.sv:4): reached at 2", "m.fails (m.sv:4), left side: met at 2",
    ], checked.BROKEN),
    "one that an assumption forbids": (["assume property (!b);", "always @(posedge clk) if (b) p: assert (c < 3);"], [
        "m.p (m.sv:5): never", "m.p (m.sv:5), left side: never met",
    ], checked.VACUOUS),
}


def of_left_sides(which, room):
    """Whether the condition of each assertion is met."""
    design_rows.need_tools(*design_rows.TOOLS)
    lines, wanted, status = LEFT_SIDES[which]
    put(room, lines)
    said = room.run("--cover-asserts", "--top", "m", "m.sv")
    need_lines(said, wanted)
    checked.need(said.status == status, f"status {status} is due", said)
    quiet = room.run("--mode", "cover", "--cover-asserts", "--quiet", "--top", "m", "m.sv")
    need_lines(quiet, [it for it in wanted if "left side" in it])


MIXED = [
    "p: assert property (c < 16);", "f: assert property (c != 3);", "s: assert property (s_eventually a);",
    "v: cover property (c == 4);",
]
P, F = "m.p (m.sv:4): {}", "m.f (m.sv:5): reached at 3"
# of each mode what is said, the last line, and the status
MODES = {
    "bmc": ([P.format("none within 50"), F], "2 assertions: 1 none within 50, 1 reached", checked.BROKEN),
    "prove": ([P.format("never"), F], "2 assertions: 1 never, 1 reached", checked.BROKEN),
    "live": (["m.s (m.sv:6): lasso at "], "1 liveness assertion: 1 lasso", checked.BROKEN),
    "cover": (["m.v (m.sv:7): covered at 4"], "1 cover: 1 covered", checked.KEPT),
}


def of_mode(mode, room):
    """What a mode asks, and nothing else."""
    design_rows.need_tools(*design_rows.TOOLS)
    put(room, MIXED)
    lines, last, status = MODES[mode]
    said = room.run("--mode", mode, "--top", "m", "m.sv")
    found = said.out.splitlines()
    checked.need(len(found) == len(lines) + 1, "other lines", said)
    checked.need(all(it.startswith(due) for it, due in zip(found, [*lines, last])), f"{lines} are due", said)
    checked.need((found[-1], said.status) == (last, status), f"{last}, {status} are due", said)


def without_mode(room):
    """Without a mode covers are left out, with a note for each."""
    design_rows.need_tools(*design_rows.TOOLS)
    put(room, MIXED)
    said = room.run("--top", "m", "m.sv")
    checked.need(re.search(r"m\.v \(m\.sv:7\) is left out: it is a cover", said.err), "the cover is not noted", said)
    checked.need(len(said.out.splitlines()) == 4, "three assertions are due", said)


def nothing_to_ask(mode, words, room):
    """A design that has nothing of the kind that a mode asks for: it is said, and nothing is answered."""
    design_rows.need_tools("yosys", "cadical")
    put(room, ["p: assert property (c < 16);"] if mode != "prove" else ["v: cover property (c == 1);"])
    said = room.run("--mode", mode, "--top", "m", "m.sv")
    checked.refused(said, words)


def of_model(mode, wanted, room):
    """The modes of an AIGER model."""
    changes = model_rows.honest(room)
    text = "aag 2 1 1 0 0 2 0 1\n2\n4 2\n4\n0\n1\n4\n"
    (room.here / "model.aag").write_text(text, encoding="ascii")
    said = room.run("--mode", mode, "--frames", "5", "model.aag", changes=changes)
    found = [it.partition("): ")[2] for it in said.out.splitlines()[:-1]]
    checked.need(found == wanted and said.status == checked.BROKEN, f"{wanted} are due", said)


def bounded(which, room):
    """In the mode of bounds no answer is never, even where that needs no invariant."""
    changes = model_rows.honest(room)
    text, steps = model_rows.TEXTS[which]
    (room.here / "model.aag").write_text(text, encoding="ascii")
    said = room.run("--mode", "bmc", "--frames", "6", "model.aag", changes=changes)
    found = checked.judge(said, model_rows.named(text, steps, "model.aag"), checked.BOUNDED, 6)
    checked.need(not any(it.answer == "never" for it in found), "never is said", said)


def usage(words, patterns, room):
    design_rows.placed(room)
    (room.here / "model.aag").write_text(model_rows.TEXTS[model_rows.LATE][0], encoding="ascii")
    said = room.run(*words)
    checked.refused(said, *patterns, status=checked.USAGE)


USAGE = {
    "another mode": (["--mode", "all", "--top", "counter", "counter.sv"], ["mode"]),
    "covers of a model": (["--mode", "cover", "model.aag"], ["cover", "Verilog"]),
    "covers of two": (["--equal", "--mode", "cover", "model.aag", "model.aag"], ["--equal"]),
    "liveness of two": (["--equal", "--mode", "live", "model.aag", "model.aag"], ["--equal"]),
    "left sides of a model": (["--cover-asserts", "model.aag"], ["cover-asserts", "Verilog"]),
    "left sides of liveness": (["--mode", "live", "--cover-asserts", "--top", "counter", "counter.sv"], ["cover-asserts"]),
    "a mode twice, the last one wrong": (["--mode", "bmc", "--mode", "", "--top", "counter", "counter.sv"], ["mode"]),
}


def rows():
    each = functools.partial
    for which in COVERS:
        yield f"cover: {which}", each(of_covers, which)
    for which in LEFT_SIDES:
        yield f"left sides: {which}", each(of_left_sides, which)
    for mode in MODES:
        yield f"the mode {mode}", each(of_mode, mode)
    yield "covers without a mode", without_mode
    for mode, words in (("cover", "no cover"), ("live", "no liveness"), ("prove", "no assertion")):
        yield f"the mode {mode}, and nothing of it", each(nothing_to_ask, mode, words)
    yield "the mode bmc of a model", each(of_model, "bmc", ["reached at 1", "none within 5"])
    yield "the mode prove of a model", each(of_model, "prove", ["reached at 1", "never"])
    yield "the mode live of a model", each(of_model, "live", ["lasso at 1"])
    for which in model_rows.TEXTS:
        yield f"the mode bmc of a model with {which}", each(bounded, which)
    for called, (words, patterns) in USAGE.items():
        yield f"usage: {called}", each(usage, words, patterns)
