"""Rows of the command line: usage errors, help, version, and the same said in lines and as an object."""
import functools
import json

from lib.check import checked, model_rows, stand_ins
from lib.check.model_rows import LATE, TOKENS

USAGE = {
    "no words": ([], ["usage|file"]),
    "an unknown option": (["--nothing", "model.aag"], ["--nothing"]),
    "no model": (["--frames", "3"], ["usage|model|file"]),
    "no steps": (["--frames", "0", "model.aag"], ["frames"]),
    "steps below 0": (["--frames", "-1", "model.aag"], ["frames"]),
    "steps that are no number": (["--frames", "many", "model.aag"], ["frames"]),
    "steps with a point": (["--frames", "1.5", "model.aag"], ["frames"]),
    "steps of 1e9": (["--frames", "1e9", "model.aag"], ["frames"]),
    "steps without a number": (["model.aag", "--frames"], ["frames"]),
    "more steps than aiger takes": (["--frames", "1000001", "model.aag"], ["frames"]),
    "a time that is no number": (["--time", "long", "model.aag"], ["time"]),
    "a time below 0": (["--time", "-1", "model.aag"], ["time"]),
    "a time that is not a number": (["--time", "nan", "model.aag"], ["time"]),
    "a limit that is no number": (["--limit", "long", "model.aag"], ["limit"]),
    "a limit below 0": (["--limit", "-5", "model.aag"], ["limit"]),
    "no job": (["--jobs", "0", "model.aag"], ["jobs"]),
    "jobs that are no number": (["--jobs", "all", "model.aag"], ["jobs"]),
    "an unknown solver": (["-s", "glucose", "model.aag"], ["glucose", "cadical"]),
    "a solver without a name": (["model.aag", "-s"], ["solver|-s"]),
    "a path of an unknown solver": (["--solver", "/usr/bin/true", "model.aag"], ["true", "cadical"]),
    "two models": (["model.aag", "model.aag"], ["aiger-check: "]),
    "a model beside a design": (["--top", "m", "model.aag", "m.sv"], ["aiger-check: "]),
    "a design without a top": (["m.sv"], ["top"]),
    "a top without a name": (["m.sv", "--top"], ["top"]),
    "an empty top": (["--top", "", "m.sv"], ["top|module"]),
    "an empty word that is defined": (["-D", "", "--top", "m", "m.sv"], ["-D"]),
    "a folder to keep without a name": (["model.aag", "--keep"], ["keep"]),
    "an empty folder to keep": (["--keep", "", "model.aag"], ["keep"]),
}
MISSING = {
    "a model that is missing": (["none.aag"], [r"none\.aag"]),
    "a folder for a model": (["folder"], ["folder"]),
    "an empty name of a file": ([""], ["aiger-check: "]),
}


def put(room, which=LATE):
    text, steps = model_rows.TEXTS[which]
    (room.here / "model.aag").write_text(text, encoding="ascii")
    (room.here / "m.sv").write_text("module m;\n  one: assert property (1);\nendmodule\n", encoding="ascii")
    (room.here / "folder").mkdir()
    return model_rows.named(text, steps, "model.aag")


def usage(status, words, patterns, room):
    put(room)
    checked.refused(room.run(*words, changes=model_rows.honest(room)), *patterns, status=status)


OPTIONS = "--equal --by-name --top -D -I --frames --time --limit --jobs --solver -s --keep --json --quiet --help "
OPTIONS += "--version -P -f -F --clock --timeout --junit --expect "
VARIABLES = "AIGER YOSYS ABC SOLVER"


def help_(words, room):
    """The help names each option, and what is trusted; it needs no tool."""
    said = room.run(*words, changes={"PATH": "/nowhere", "AIGER": None})
    checked.need((said.status, said.err) == (0, ""), "another end", said)
    missing = [it for it in [*OPTIONS.split(), *VARIABLES.split()] if it not in said.out]
    checked.need(not missing, f"{missing} are not named", said)
    checked.need("trust" in said.out or "not proved" in said.out, "what is trusted is not said", said)
    checked.need(all(len(it) <= 100 for it in said.out.splitlines()), "a long line", said)


def version(words, room):
    said = room.run(*words, changes={"PATH": "/nowhere", "AIGER": None})
    checked.need((said.status, said.out, said.err) == (0, "aiger-check 1.7.0\n", ""), "another version", said)


def alike(which, room):
    """The lines and the object have the same answers in the same order, and the same status."""
    put(room, which)
    changes = model_rows.honest(room)
    lines, as_object = room.run("model.aag", changes=changes), room.run("--json", "model.aag", changes=changes)
    are_alike = checked.answers_of(lines) == checked.answers_of(as_object)
    checked.need(are_alike, f"{as_object} is another answer than", lines)
    checked.need(lines.status == as_object.status, f"{as_object} has another status than", lines)
    keys = {"never": set(), "none within": {"steps"}, "reached": {"steps"}, "unknown": {"reason"}}
    keys["vacuous"] = {"reason"}
    for it in json.loads(as_object.out)["assertions"]:
        checked.need(set(it) == {"name", "source", "answer"} | keys[it["answer"]], f"the keys of {it}", as_object)


def alike_kept(room):
    """With files that are kept, too."""
    put(room)
    changes = model_rows.honest(room)
    room.may_write.update({"kept", "other"})
    lines = room.run("--keep", "kept", "model.aag", changes=changes)
    as_object = room.run("--json", "--keep", "other", "model.aag", changes=changes)
    found = [[it.witness and it.witness.split("/") for it in checked.answers_of(said)] for said in (lines, as_object)]
    checked.need(all(it[0] == "kept" for it in found[0] if it), "a witness without its folder", lines)
    checked.need([it and it[1:] for it in found[0]] == [it and it[1:] for it in found[1]], f"{as_object} beside", lines)


def spelled(words, room):
    """Options in each of their spellings."""
    truths = put(room, TOKENS)
    checked.judge(room.run(*words, changes=model_rows.honest(room)), truths, checked.BOUNDED, 6)


SPELLED = [["--frames=6", "model.aag"], ["--frames", "6", "model.aag"], ["model.aag", "--frames", "6"]]
SPELLED += [["--jobs=2", "--frames=6", "--time=5", "--limit=60", "--quiet", "model.aag"]]
SPELLED += [["--frames", "6", "--", "model.aag"]]


def defined(words, room):
    """-D in each of its spellings."""
    model_rows.real(room)
    if not checked.is_there("yosys"):
        raise checked.Skipped("yosys is not installed")
    text = "module m(input clk);\n  reg [2:0] a = `A;\n  always @(posedge clk) a <= a;\n"
    text += "`ifdef B\n  low: assert property (a == 3);\n`endif\nendmodule\n"
    (room.here / "m.sv").write_text(text, encoding="ascii")
    said = room.run(*words, "--top", "m", "m.sv")
    checked.judge(said, [checked.Truth("m.low", "m.sv:5", None)])


DEFINED = [["-D", "A=3", "-D", "B"], ["-DA=3", "-DB"], ["-DB=1", "-D", "A=3'b011"]]
DEFINED += [["-D", "A=(1 + 2)", "-D", "B=\"b\""]]


def quiet(room):
    """Nothing but lines where no terminal is there, and it is to be quiet."""
    truths = put(room, TOKENS)
    said = room.run("--quiet", "model.aag", changes=model_rows.honest(room))
    checked.judge(said, truths)
    checked.need(said.err == "", "it is not quiet", said)


def without_terminal(room):
    """No progress where standard error is no terminal: only notes that begin with the program's name."""
    put(room, LATE)
    said = room.run("model.aag", changes=model_rows.honest(room))
    checked.need(all(it.startswith("aiger-check: ") for it in said.err.splitlines()), "another line", said)
    checked.need("\r" not in said.err and "\x1b" not in said.err, "progress", said)


def by_path(room):
    """A solver by its path, whose last part says which it is."""
    truths = put(room, TOKENS)
    changes = {**model_rows.honest(room), "SOLVER": None}
    file = stand_ins.honest_solver(room.folder / "a folder")
    checked.judge(room.run("-s", file, "model.aag", changes=changes), truths)
    checked.judge(room.run("--solver", file, "model.aag", changes={**changes, "SOLVER": "/no/such/solver"}), truths)


def rows():
    each = functools.partial
    for status, of in ((checked.USAGE, USAGE), (checked.TROUBLE, MISSING)):
        for called, (words, patterns) in of.items():
            yield f"usage: {called}", each(usage, status, words, patterns)
    for words in (["--help"], ["-h"], ["--help", "model.aag"]):
        yield f"help by {words}", each(help_, words)
    yield "version", each(version, ["--version"])
    for which in model_rows.TEXTS:
        yield f"lines and object of {which}", each(alike, which)
    yield "lines and object with files", alike_kept
    for words in SPELLED:
        yield f"spelled {words}", each(spelled, words)
    for words in DEFINED:
        yield f"defined {words}", each(defined, words)
    yield "quiet", quiet
    yield "without a terminal", without_terminal
    yield "a solver by its path", by_path
