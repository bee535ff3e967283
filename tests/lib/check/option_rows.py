"""Rows of options: lists of files, a limit of time for the whole, what is expected, reports of JUnit, what is kept twice,
and which notes are said."""
import functools
import json
import os
import subprocess
import sys
import time
from xml.etree import ElementTree

from lib.check import checked, design_rows, model_rows, stand_ins
from lib.check.checked import Truth
from lib.check.model_rows import LATE, NEVER, RING, TEXTS, TOKENS

COUNTER = """module m(input clk);
  reg [2:0] a = `START;
  always @(posedge clk) a <= a == `LAST ? `START : a + 1;
  low: assert property (a <= `TOP);
endmodule
"""
DEFINES = "`define START 1\n`define LAST 5\n"


def put(room, texts):
    """Files below the folder in which a row runs."""
    for name, text in texts.items():
        place = room.here / name
        place.parent.mkdir(parents=True, exist_ok=True)
        place.write_text(text, encoding="utf-8")


# ---------------------------------------------------------------- lists of files

# of a list its text, and how it is given
LISTED = {
    "a list": ({"l.f": "m.sv +define+START=1 +define+LAST=5 +define+TOP=5\n"}, ["-f", "l.f"]),
    "several in one": ({"l.f": "+define+START=1+LAST=5+TOP=5\nm.sv\n"}, ["-fl.f"]),
    "comments": (
        {"l.f": "# one\n// two m.sv\n/* three\n none.sv */ m.sv // four\n-D START=1 # five\n-DLAST=5\n-D\nTOP=5\n"},
        ["-f", "l.f"],
    ),
    "no line at its end, and tabs": ({"l.f": "\t-DSTART=1\t-DLAST=5 -DTOP=5\r\n\r\nm.sv"}, ["-f", "l.f"]),
    "a list in a list": ({"l.f": "-f in/k.f\nm.sv\n", "in/k.f": "-DSTART=1 -DLAST=5 -DTOP=5"}, ["-f", "l.f"]),
    "beside the command line": ({"l.f": "m.sv -DLAST=5"}, ["-D", "START=1", "-f", "l.f", "-D", "TOP=5"]),
    "two lists": ({"l.f": "m.sv", "k.f": "-DSTART=1 -DLAST=5 -DTOP=5"}, ["-f", "l.f", "-f", "k.f"]),
    "a list with a space in its name": ({"a list": "m.sv -DSTART=1 -DLAST=5 -DTOP=5"}, ["-f", "a list"]),
}


def listed(texts, words, room):
    design_rows.need_tools(*design_rows.TOOLS)
    put(room, {"m.sv": COUNTER, **texts})
    said = room.run("--quiet", "--top", "m", *words)
    checked.judge(said, [Truth("m.low", "m.sv:4", None)])


def beside(option, folder, works, room):
    """-f names files from where the program is started, -F from beside the list; so is it with folders to include."""
    design_rows.need_tools(*design_rows.TOOLS)
    text = '`include "d.vh"\n' + COUNTER
    put(room, {"src/m.sv": text, "src/inc/d.vh": DEFINES, "src/l.f": f"{folder}m.sv +incdir+{folder}inc -DTOP=4\n"})
    said = room.run("--quiet", "--top", "m", option, "src/l.f")
    if works:
        checked.judge(said, [Truth("m.low", "src/m.sv:5", 4)])
    else:
        checked.refused(said, r"m\.sv")


def beside_nested(room):
    """A list in a list is looked for as its files are; what is in it, as its own option says."""
    design_rows.need_tools(*design_rows.TOOLS)
    put(room, {"src/m.sv": COUNTER, "src/in/k.f": "-DSTART=1 -DLAST=5 -DTOP=5\n../m.sv", "src/l.f": "-F in/k.f"})
    said = room.run("--quiet", "--top", "m", "-F", "src/l.f")
    checked.judge(said, [Truth("m.low", "src/in/../m.sv:4", None)])
    put(room, {"src/in/k.f": "-DSTART=1 -DLAST=5 -DTOP=5\nsrc/m.sv", "src/l.f": "-f in/k.f"})
    checked.judge(room.run("--quiet", "--top", "m", "-F", "src/l.f"), [Truth("m.low", "src/m.sv:4", None)])


def in_order(room):
    """Files of lists stand where their list does."""
    design_rows.need_tools(*design_rows.TOOLS)
    put(room, {"a.vh": "`define A 1\n", "b.vh": "`undef A\n`define A 2\n", "l.f": "b.vh"})
    put(room, {"m.sv": "module m;\n one: assert property (`A == 1);\nendmodule\n"})
    for words, step in ((["a.vh", "-f", "l.f", "m.sv"], 0), (["-f", "l.f", "a.vh", "m.sv"], None)):
        checked.judge(room.run("--quiet", "--top", "m", *words), [Truth("m.one", "m.sv:2", step)])


# a list that is refused, and what is said of it
REFUSED_LISTS = {
    "a variable": ("$ROOT/m.sv", [r"l\.f:1", r"\$ROOT"]),
    "a variable in braces": ("m.sv\n\n+incdir+${INC}", [r"l\.f:3", r"\$\{INC\}"]),
    "a variable in parentheses": ("-f $(HERE)/k.f", [r"l\.f:1", r"\$\(HERE\)"]),
    "a library": ("m.sv -v lib.v", [r"l\.f:1", "-v"]),
    "a folder of a library": ("-y lib\nm.sv", [r"l\.f:1", "-y"]),
    "suffixes of a library": ("+libext+.v m.sv", [r"l\.f:1", "libext"]),
    "another option": ("m.sv -sverilog", [r"l\.f:1", "-sverilog"]),
    "an option of this program": ("--frames 3 m.sv", [r"l\.f:1", "--frames"]),
    "quotes": ('"m.sv"', [r"l\.f:1", "quotes"]),
    "a backslash": ("m.sv \\\n k.sv", [r"l\.f:1", "quotes"]),
    "a comment without an end": ("m.sv /* k.sv", [r"l\.f:1", "comment"]),
    "an option without a value": ("m.sv -D", [r"l\.f:1", "value"]),
    "itself": ("-f l.f m.sv", ["itself"]),
    "itself by another way": ("-f ./k.f", ["itself"]),
    "a list that is missing": ("-f none.f", [r"none\.f"]),
    "a file that is missing": ("none.sv", [r"none\.sv"]),
}


def refused_list(text, patterns, room):
    put(room, {"m.sv": COUNTER, "l.f": text, "k.f": "-F l.f"})
    checked.refused(room.run("--top", "m", "-f", "l.f", changes=model_rows.honest(room)), *patterns)


USAGE = {
    "a list without a name": (["--top", "m", "m.sv", "-f"], ["-f needs"]),
    "a list of models": (["-f", "models.f"], ["-f"]),
    "an empty list": (["--top", "m", "-f", "empty.f"], ["no file"]),
    "a list where a top is wanted": (["--top", "-f", "l.f", "m.sv"], ["-f or -F"]),
    "defines of two lists": (["--equal", "--top", "m", "-f", "l.f", "-f", "l.f"], ["both designs"]),
    "a list with a macro that is none": (["--top", "m", "-f", "odd.f"], ["-D"]),
    "an outcome that is none": (["--expect", "passed", "model.aag"], ["expect", "timeout"]),
    "an empty outcome": (["--expect", "pass,", "model.aag"], ["expect"]),
    "a report without a name": (["--junit", "", "model.aag"], ["junit"]),
    "no time": (["--timeout", "0", "model.aag"], ["timeout"]),
    "a time that is none": (["--timeout", "soon", "model.aag"], ["timeout"]),
    "a clock of a model": (["--clock", "clk", "model.aag"], ["--clock"]),
    "an odd clock": (["--clock", "a;shell b", "--top", "m", "m.sv"], ["--clock"]),
    "a parameter of a model": (["-P", "N=1", "model.aag"], ["-P"]),
    "a parameter without a value": (["-P", "N", "--top", "m", "m.sv"], ["-P"]),
    "a parameter with an odd name": (["-P", "a b=1", "--top", "m", "m.sv"], ["-P"]),
}


def usage(words, patterns, room):
    model_rows_put(room, LATE)
    put(room, {"m.sv": COUNTER, "models.f": "model.aag", "empty.f": "// m.sv\n", "l.f": "m.sv -DTOP=5"})
    put(room, {"odd.f": "m.sv +define+4=5"})
    checked.refused(room.run(*words, changes=model_rows.honest(room)), *patterns, status=checked.USAGE)


def two_lists(room):
    """With --equal a list is a design."""
    design_rows.need_tools(*design_rows.TOOLS)
    put(room, {"a.sv": "module m(input a, output b); n one(a, b); endmodule\n"})
    put(room, {"n.sv": "module n(input a, output b); assign b = !a; endmodule\n", "a.f": "a.sv n.sv"})
    put(room, {"b.sv": "module m(input a, output b); assign b = ~a; endmodule\n", "b.f": "// one\nb.sv\n"})
    said = room.run("--quiet", "--equal", "--top", "m", "-f", "a.f", "-f", "b.f")
    checked.need((said.status, said.out) == (checked.KEPT, "b: equal\n1 pair: 1 equal\n"), "another answer", said)


# ---------------------------------------------------------------- a limit of time for the whole, and what is expected


def model_rows_put(room, which):
    text, steps = TEXTS[which]
    (room.here / "model.aag").write_text(text, encoding="ascii")
    return model_rows.named(text, steps, "model.aag")


def late(name, words, room):
    """A tool that sleeps: what was found is said, the rest is unknown, in not much more than the time that was given."""
    truths, begun = model_rows_put(room, RING), time.monotonic()
    called = {"SOLVER": "cadical", "ABC": "berkeley-abc"}[name]
    changes = {**model_rows.honest(room), name: stand_ins.sleeping(room.folder / "slow", called, room.folder / "begun")}
    said = room.run("--timeout", "3", *words, "model.aag", changes=changes)
    found = checked.judge(said, truths, checked.SAFE)
    are_late = all(it.answer == "unknown" and it.reason == checked.LATE for it in found)
    checked.need(said.status == checked.TIMEOUT and are_late, "it is not late", said)
    checked.need(time.monotonic() - begun < 60, "it takes too long", said)
    stand_ins.need_ended(room.folder / "begun", said)


def late_yosys(words, room):
    """A Yosys that hangs is ended: there is no answer."""
    put(room, {"m.sv": COUNTER})
    slow = stand_ins.sleeping(room.folder / "slow", "yosys", room.folder / "begun")
    said = room.run("--timeout", "1", "--top", "m", *words, "m.sv", changes={**model_rows.honest(room), "YOSYS": slow})
    checked.refused(said, "no time left", status=checked.TIMEOUT)
    stand_ins.need_ended(room.folder / "begun", said)


def late_second(words, room):
    """Where the second front end has not ended in time nothing is said to be kept, and what is broken is said."""
    design_rows.need_tools(*design_rows.TOOLS)
    put(room, {"m.sv": COUNTER.replace("endmodule", "  high: assert property (a < 4);\nendmodule")})
    stand_ins.sleeping(room.folder / "slow", "iverilog", room.folder / "begun")
    changes = {"PATH": f"{room.folder / 'slow'}:{os.environ['PATH']}"}
    defined = ["-DSTART=1", "-DLAST=5", "-DTOP=5"]
    said = room.run(*words, "--timeout", "6", "--top", "m", *defined, "m.sv", changes=changes)
    found = {it.name: it.answer for it in checked.answers_of(said)}
    checked.need(found["m.low"] == "unknown" and found["m.high"] in ("reached", "unknown"), "another answer", said)
    due = checked.BROKEN if found["m.high"] == "reached" else checked.TIMEOUT
    checked.need(said.status == due, f"status {due} is due", said)
    stand_ins.need_ended(room.folder / "begun", said)


def late_pipe(room):
    """A pipe into which nobody writes is waited for no longer than a while."""
    os.mkfifo(room.here / "pipe")
    said = room.run("--timeout", "1", "pipe", changes=model_rows.honest(room))
    checked.refused(said, "no time left", status=checked.TIMEOUT)


def device(words, room):
    """A device is no file that has an end: it is refused, and no memory is filled."""
    design_rows.need_tools("yosys")
    put(room, {"m.sv": COUNTER})
    for name in ("/dev/zero", "/dev/urandom", "/dev/null"):
        said = room.run(*words, name, changes=model_rows.honest(room))
        checked.refused(said, f"{name}: ")


def late_but_broken(room):
    """A broken assertion counts before a late one; and a long time changes nothing."""
    changes, truths = model_rows.honest(room), model_rows_put(room, LATE)
    checked.judge(room.run("--timeout", "1000", "model.aag", changes=changes), truths)
    honest = stand_ins.runs("solver.py").removeprefix("exec ")
    body = f'{stand_ins.FILES}grep -q "^p cnf 1 " "$clauses" || sleep 400\n{honest} "$@"'
    changes = {"ABC": "false", "SOLVER": stand_ins.put(room.folder / "slow", "cadical", body)}
    said = room.run("--timeout", "3", "--frames", "8", "model.aag", changes=changes)
    found = checked.answers_of(said)
    due = checked.BROKEN if any(it.answer == "reached" for it in found) else checked.TIMEOUT
    checked.need(said.status == due, f"status {due} is due", said)


def late_and_kept(room):
    """What was found in time is kept, with its waveform, though the time is over."""
    changes, truths = model_rows.honest(room), model_rows_put(room, LATE)
    room.may_write.add("kept")
    said = room.run("--timeout", "60", "--keep", "kept", "model.aag", changes=changes)
    checked.judge_kept(room, room.here / "kept", checked.judge(said, truths), said)


EXPECTED = [
    (NEVER, "pass", checked.KEPT), (NEVER, "fail", checked.BROKEN), (NEVER, "fail,pass", checked.KEPT),
    (LATE, "fail", checked.KEPT), (LATE, "pass", checked.BROKEN), (LATE, "pass,unknown,timeout", checked.BROKEN),
    (LATE, "unknown,fail", checked.KEPT), (NEVER, "error,vacuous", checked.BROKEN),
]


def expects(which, outcomes, status, room):
    truths = model_rows_put(room, which)
    said = room.run("--quiet", "--expect", outcomes, "model.aag", changes=model_rows.honest(room))
    checked.need(said.status == status, f"status {status} is due", said)
    said.status = checked.status_of(checked.answers_of(said), checked.FRAMES)
    checked.judge(said, truths)


def expects_others(room):
    """Errors, unknown answers and late ones may be expected; a refused command line may not."""
    changes = {**model_rows.honest(room), "SOLVER": stand_ins.put(room.folder / "no", "cadical", "exit 0"), "ABC": "false"}
    model_rows_put(room, TOKENS)
    for words, status in (
        (["--expect", "unknown", "model.aag"], checked.KEPT), (["--expect", "pass", "model.aag"], checked.UNKNOWN),
        (["--expect", "error", "none.aag"], checked.KEPT), (["--expect", "pass", "none.aag"], checked.TROUBLE),
        (["--expect", "error", "--frames", "0", "model.aag"], checked.USAGE),
    ):
        said = room.run(*words, changes=changes)
        checked.need(said.status == status, f"status {status} is due", said)


# ---------------------------------------------------------------- JUnit


def read_report(room, name="report.xml"):
    """The one suite of a report, whose counts must be right."""
    root = ElementTree.parse(room.here / name).getroot()
    suites = list(root)
    checked.need(root.tag == "testsuites" and [it.tag for it in suites] == ["testsuite"], f"another report {root}")
    counts = {"tests": "testcase", "failures": "testcase/failure", "errors": "testcase/error"}
    for key, path in counts.items():
        checked.need(int(suites[0].get(key)) == len(suites[0].findall(path)), f"{key} is {suites[0].get(key)}")
    return suites[0]


def junit(which, room):
    """A test for each assertion, which fails exactly if the assertion is broken."""
    truths = model_rows_put(room, which)
    room.may_write.add("report.xml")
    said = room.run("--junit", "report.xml", "model.aag", changes=model_rows.honest(room))
    checked.judge(said, truths)
    suite = read_report(room)
    found = [(it.get("name"), it.get("file"), it.find("failure") is not None) for it in suite.findall("testcase")]
    wanted = [(it.name, it.source, it.answer == "reached") for it in checked.answers_of(said)]
    checked.need(found == wanted, f"the tests are {found}", said)
    told = [it.find("failure").get("message") for it in suite.findall("testcase") if it.find("failure") is not None]
    steps = [f"reached at {it.steps}" for it in checked.answers_of(said) if it.answer == "reached"]
    checked.need(told == steps, f"the failures say {told}", said)
    checked.need([it.name for it in room.here.iterdir() if it.name.startswith(".")] == [], "a file is left", said)


def junit_of_design(room):
    """File and line of each, and what was noted."""
    design_rows.need_tools(*design_rows.TOOLS)
    room.may_write.add("report.xml")
    put(room, {"m.sv": COUNTER})
    said = room.run("--top", "m", "-DSTART=1", "-DLAST=5", "-DTOP=4", "--junit", "report.xml", "m.sv")
    suite = read_report(room)
    (test,) = suite.findall("testcase")
    place = test.attrib == {"classname": "m", "name": "m.low", "file": "m.sv", "line": "4"}
    checked.need(place and test.find("failure").get("message") == "reached at 4", f"the test is {test.attrib}", said)
    checked.need("replay" in suite.find("system-err").text, "a note is missing", said)


def junit_of_unknown(room):
    """What is unknown is an error, and so is a run without an answer."""
    model_rows_put(room, TOKENS)
    room.may_write.add("report.xml")
    changes = {**model_rows.honest(room), "SOLVER": stand_ins.put(room.folder / "no", "cadical", "exit 0"), "ABC": "false"}
    said = room.run("--junit", "report.xml", "model.aag", changes=changes)
    (error,) = read_report(room).findall("testcase/error")
    checked.need(error.get("type") == "unknown" and error.get("message").startswith("unknown: "), "another error", said)
    said = room.run("--junit", "report.xml", "none.aag", changes=changes)
    (error,) = read_report(room).findall("testcase/error")
    checked.need(error.get("type") == "error" and "none.aag" in error.get("message"), "another error", said)
    checked.need(said.status == checked.TROUBLE, "another status", said)


def junit_without_answer(room):
    """Where there is no answer, or no end, the report has an error, and none of an earlier run is left."""
    changes = model_rows.honest(room)
    room.may_write.add("report.xml")
    put(room, {"none.aag": "aag 1 1 0 0 0\n2\n", "model.aag": TEXTS[NEVER][0]})
    os.mkfifo(room.here / "pipe")
    for words, kind, part in (
        (["none.aag"], "error", "bad state"), (["--equal", "none.aag", "none.aag"], "error", "no output"),
        (["--timeout", "1", "pipe"], "error", "not ended"),
    ):
        room.run("--junit", "report.xml", "model.aag", changes=changes)
        checked.need(not read_report(room).findall("testcase/error"), "an error of an answer")
        said = room.run("--junit", "report.xml", *words, changes=changes)
        (error,) = read_report(room).findall("testcase/error")
        checked.need(error.get("type") == kind and part in error.get("message"), f"another error {error.attrib}", said)
    put(room, {"m.sv": COUNTER})
    slow = stand_ins.sleeping(room.folder / "slow", "yosys", room.folder / "begun")
    words = ["--timeout", "1", "--junit", "report.xml", "--top", "m", "m.sv"]
    said = room.run(*words, changes={**changes, "YOSYS": slow})
    (error,) = read_report(room).findall("testcase/error")
    checked.need(error.get("type") == "timeout" and "no time left" in error.get("message"), "another error", said)


ODD = "<&>\"' \x01\x1b]]> \N{SNOWMAN} \udcff"


def junit_of_odd_names(room):
    """Names with what XML cannot have; a file that is a pipe or a folder; and a report that cannot be written."""
    changes = model_rows.honest(room)
    data = "aag 1 1 0 0 0 2\n2\n2\n3\nb0 ".encode() + ODD.encode("utf-8", "surrogateescape") + b"\nb1 two\n"
    (room.here / "model.aag").write_bytes(data)
    room.may_write.add("report.xml")
    said = room.run("--junit", "report.xml", "model.aag", changes=changes)
    names = [it.get("name") for it in read_report(room).findall("testcase")]
    checked.need(names[1] == "two" and names[0].startswith("<&>\"' \\x01\\x1b]]> \N{SNOWMAN}"), f"names {names}", said)
    (room.here / "folder").mkdir()
    for name in ("folder", "none/report.xml"):
        said = room.run("--junit", name, "model.aag", changes=changes)
        checked.need(said.status == checked.TROUBLE and name in said.err, "it is not said", said)


def junit_of_two(room):
    changes = model_rows.honest(room)
    put(room, {"old": "aag 2 2 0 2 0\n2\n4\n2\n4\n", "new": "aag 2 2 0 2 0\n2\n4\n2\n5\n"})
    room.may_write.add("report.xml")
    said = room.run("--equal", "--junit", "report.xml", "old", "new", changes=changes)
    tests = read_report(room).findall("testcase")
    found = [(it.get("name"), it.find("failure") is not None) for it in tests]
    checked.need(found == [("o0", False), ("o1", True)], f"the tests are {found}", said)


# ---------------------------------------------------------------- what is kept twice, and notes


def kept_twice(first, second, room):
    """What was kept of an assertion is no longer there once another answer is."""
    changes, kept = model_rows.honest(room), room.here / "kept"
    room.may_write.add("kept")
    for which in (first, second):
        (room.here / "model.aag").write_text(which, encoding="ascii")
        said = room.run("--keep", "kept", "model.aag", changes=changes)
        if (kept / "mine.txt").exists():
            checked.need((kept / "mine.txt").read_text(encoding="ascii") == "mine\n", "a file of the user's", said)
        (kept / "mine.txt").write_text("mine\n", encoding="ascii")
    (found,) = checked.answers_of(said)
    names = {it.name.partition(".")[2] for it in kept.glob("b0.*")}
    due = {"reached": {"aiw", "vcd"}, "never": {"drat", "pla", "check.sh"}}[found.answer]
    checked.need(names == due, f"kept {names}", said)


def kept_twice_and_unknown(room):
    """So it is where the second answer is unknown."""
    changes, kept = model_rows.honest(room), room.here / "kept"
    room.may_write.add("kept")
    (room.here / "model.aag").write_text("aag 1 1 0 0 0 1\n2\n0\n", encoding="ascii")
    room.run("--keep", "kept", "model.aag", changes=changes)
    checked.need((kept / "b0.check.sh").exists(), "nothing is kept", sorted(os.listdir(kept)))
    (room.here / "model.aag").write_text(TEXTS[TOKENS][0], encoding="ascii")
    no = stand_ins.put(room.folder / "no", "cadical", "exit 0")
    said = room.run("--keep", "kept", "model.aag", changes={"SOLVER": no, "ABC": "false"})
    checked.need("unknown" in said.out and not list(kept.glob("b0.*")), f"kept {sorted(os.listdir(kept))}", said)


def kept_of_all_twice(room):
    """What showed that all pairs are equal goes where they no longer are."""
    changes, kept = model_rows.honest(room), room.here / "kept"
    room.may_write.add("kept")
    put(room, {"old": "aag 1 1 0 1 0\n2\n2\n", "new": "aag 1 1 0 1 0\n2\n2\n"})
    room.run("--equal", "--keep", "kept", "old", "new", changes=changes)
    put(room, {"new": "aag 1 1 0 1 0\n2\n3\n"})
    said = room.run("--equal", "--keep", "kept", "old", "new", changes=changes)
    names = {it.name for it in kept.iterdir() if it.name.endswith(checked.KEPT_OF_ONE)}
    checked.need(names == {"o0.aiw", "o0.vcd", "o0.stimulus"}, f"kept {names}", said)


def kept_commands(words, again, room):
    """The script that is kept translates the same design again, and gives the same answers; nothing of it is stale."""
    design_rows.need_tools(*design_rows.TOOLS)
    put(room, {"a.sv": COUNTER, "b.sv": COUNTER.replace("a + 1", "1 + a"), "in/d.vh": DEFINES})
    room.may_write.add("kept")
    said = room.run("--frames", "9", *words, "--keep", "kept", "--top", "m", "-DSTART=1", "-DLAST=5", "-DTOP=4")
    text = (room.here / "kept" / "commands.sh").read_text(encoding="utf-8")
    for part in ("aiger-check 1.", "-DTOP=4", "yosys", "cadical", "abc, "):
        checked.need(part in text, f"{part} is not in {text}", said)
    program = stand_ins.put(room.folder / "again", "aiger-check", f'exec {sys.executable} {checked.CHECK} "$@"')
    settings = room.settings({"AIGER_CHECK": program})
    script = str(room.here / "kept" / "commands.sh")
    ran = subprocess.run(["sh", script], env=settings, cwd=room.folder, capture_output=True, text=True, check=False)
    checked.need((ran.returncode, ran.stdout) == (said.status, again(room.here / "kept")), f"came {ran}", said)
    checked.need(not any(room.temporary.iterdir()), "something is left", ran)
    designs = {it.name for it in (room.here / "kept").glob("design-*")}
    room.run("--frames", "9", *words, "--keep", "kept", "--top", "m", "-DSTART=1", "-DLAST=5", "-DTOP=4")
    checked.need(designs == {it.name for it in (room.here / "kept").glob("design-*")}, "another design", said)
    file = next((room.here / "kept").glob("design-*/copy0/**/*.sv"))
    file.write_text(file.read_text(encoding="utf-8").replace("a <= `TOP", "a <= 1"), encoding="utf-8")
    ran = subprocess.run(["sh", script], env=settings, cwd=room.folder, capture_output=True, text=True, check=False)
    checked.need(ran.returncode == 1 and ran.stdout == "model.aig: FAILED\n", f"another design is taken: {ran}", said)


def model_again(kept):
    return f"b0 ({checked.model_of(kept).name}): reached at 4\n1 assertion: 1 reached\n"


def kept_commands_of_model(room):
    """Of a model it searches again; the programs that ran are listed."""
    changes, kept = model_rows.honest(room), room.here / "kept"
    model_rows_put(room, TOKENS)
    room.may_write.add("kept")
    said = room.run("--keep", "kept", "model.aag", changes=changes)
    program = stand_ins.put(room.folder / "again", "aiger-check", f'exec {sys.executable} {checked.CHECK} "$@"')
    settings = room.settings({**changes, "AIGER_CHECK": program})
    words = ["sh", str(kept / "commands.sh")]
    ran = subprocess.run(words, env=settings, cwd=room.folder, capture_output=True, text=True, check=False)
    due = said.out.replace("model.aag", checked.model_of(kept).name)
    checked.need((ran.returncode, ran.stdout) == (said.status, due), f"came {ran}", said)
    listed_ = (kept / "commands.txt").read_text(encoding="utf-8")
    checked.need("aigtoaig" in listed_ and "cadical" in listed_ and str(room.temporary) not in listed_, listed_, said)


def kept_together_twice(room):
    """So does what showed that no bad state is reached."""
    changes, kept = model_rows.honest(room), room.here / "kept"
    room.may_write.add("kept")
    put(room, {"model.aag": "aag 6 2 2 0 2 2\n2\n4\n6 12 1\n8 10\n10\n8\n10 6 8\n12 6 2\n"})
    first = room.run("--keep", "kept", "model.aag", changes=changes)
    checked.need(first.status == checked.KEPT, "it is broken", first)
    was_there = (kept / "together.drat").exists()
    put(room, {"model.aag": "aag 2 2 0 0 0 2\n2\n4\n2\n4\n"})
    said = room.run("--keep", "kept", "model.aag", changes=changes)
    names = {it.name for it in kept.iterdir() if it.name.endswith(checked.KEPT_OF_ONE)}
    checked.need(names == {f"b{at}.{it}" for at in (0, 1) for it in ("aiw", "vcd")}, f"kept {names}", said)
    checked.need(was_there, "nothing showed all at once", first)


NOTED = """module m(input clk, input two, input d);
  reg a = 0, b = 0;
  always @(posedge clk) a <= d;
  always @(negedge two) b <= d;
  one: assert property (!(a && b));
endmodule
"""


def noted(room):
    """A note that changes what an answer means is said with --quiet too, and all notes stand in the object."""
    design_rows.need_tools(*design_rows.TOOLS)
    put(room, {"m.sv": NOTED})
    plain = room.run("--top", "m", "m.sv")
    quiet = room.run("--quiet", "--top", "m", "m.sv")
    for said in (plain, quiet):
        checked.need("a step is one of a global clock" in said.err, "how steps are counted is not said", said)
    checked.need("replay" in plain.err and "replay" not in quiet.err, "another note", quiet)
    lines = [it.removeprefix("aiger-check: ") for it in plain.err.splitlines()]
    for words in (["--json"], ["--json", "--quiet"]):
        said = room.run(*words, "--top", "m", "m.sv")
        checked.need(json.loads(said.out)["notes"] == lines, f"{lines} are the notes", said)


def noted_of_tools(room):
    """That a program is missing changes no answer that is given, so --quiet drops it."""
    model_rows_put(room, LATE)
    changes = {**model_rows.honest(room), "ABC": "/no/such/abc"}
    said = room.run("model.aag", changes=changes)
    checked.need("not found: /no/such/abc" in said.err, "it is not said", said)
    said = room.run("--quiet", "--json", "model.aag", changes=changes)
    checked.need(said.err == "" and "/no/such/abc" in json.loads(said.out)["notes"][0], "another note", said)


def nothing_compared(first, second, status, words, room):
    """With nothing to compare there is no success, whatever the assumptions are."""
    put(room, {"old": first, "new": second})
    said = room.run("--equal", "old", "new", *words, changes=model_rows.honest(room))
    checked.need(said.status == status, f"status {status} is due", said)
    checked.need("there is no output to compare" in said.err, "it is not said", said)
    checked.need(words or said.out.splitlines()[-1].startswith("0 pairs"), "another sum", said)


NOTHING = "aag 1 1 0 0 0\n2\n"
ASSUMED = "aag 1 1 0 0 0 0 1\n2\n2\n"
OTHER = "aag 1 1 0 0 0 0 1\n2\n3\n"
NEVER_BAD, REACHED_BAD = "aag 1 1 0 0 0 1\n2\n0\n", "aag 1 1 0 0 0 1\n2\n2\n"


def rows():
    each = functools.partial
    for called, of in LISTED.items():
        yield f"lists: {called}", each(listed, *of)
    for option, folder, works in (("-f", "", False), ("-f", "src/", True), ("-F", "", True), ("-F", "src/", False)):
        yield f"lists: {option} with files in {folder!r}", each(beside, option, folder, works)
    yield "lists: lists in lists elsewhere", beside_nested
    yield "lists: the order of files", in_order
    for called, of in REFUSED_LISTS.items():
        yield f"lists: refused is {called}", each(refused_list, *of)
    for called, of in USAGE.items():
        yield f"usage of options: {called}", each(usage, *of)
    yield "lists: two designs", two_lists
    for name, words in (("SOLVER", []), ("ABC", []), ("SOLVER", ["--json"]), ("SOLVER", ["--jobs", "1"])):
        yield f"no time left: {name} sleeps, {words}", each(late, name, words)
    for words in ([], ["--json"], ["--equal", "m.sv"]):
        yield f"no time left: Yosys hangs, {words}", each(late_yosys, words)
    yield "no time left, and something is broken", late_but_broken
    yield "no time left, behind a pipe", late_pipe
    for words in ([], ["--json"]):
        yield f"no time left, the second front end hangs, {words}", each(late_second, words)
    yield "a device for a model", each(device, [])
    yield "a device for a list", each(device, ["--top", "m", "m.sv", "-f"])
    yield "time enough, and kept", late_and_kept
    for which, outcomes, status in EXPECTED:
        yield f"expected of {which}: {outcomes}", each(expects, which, outcomes, status)
    yield "expected: errors and what is unknown", expects_others
    for which in (LATE, NEVER, TOKENS):
        yield f"JUnit of {which}", each(junit, which)
    yield "JUnit of a design", junit_of_design
    yield "JUnit of what is unknown", junit_of_unknown
    yield "JUnit without an answer", junit_without_answer
    yield "JUnit of odd names", junit_of_odd_names
    yield "JUnit of two designs", junit_of_two
    for first, second in ((NEVER_BAD, REACHED_BAD), (REACHED_BAD, NEVER_BAD), (NEVER_BAD, NEVER_BAD)):
        yield f"kept twice: {first!r}, then {second!r}", each(kept_twice, first, second)
    yield "kept twice: then unknown", kept_twice_and_unknown
    yield "kept twice: all pairs, then none", kept_of_all_twice
    yield "kept twice: all bad states, then none", kept_together_twice
    yield "kept commands of a design", each(kept_commands, ["a.sv"], model_again)
    two = "assertion low: equal\n1 pair: 1 equal\n"
    yield "kept commands of two designs", each(kept_commands, ["--equal", "a.sv", "b.sv"], lambda kept: two)
    yield "kept commands of a model", kept_commands_of_model
    yield "notes that --quiet keeps, and all in an object", noted
    yield "notes that --quiet drops", noted_of_tools
    for first, second, status in (
        (NOTHING, NOTHING, checked.TROUBLE), (ASSUMED, ASSUMED, checked.TROUBLE),
        (NOTHING, ASSUMED, checked.BROKEN), (OTHER, ASSUMED, checked.BROKEN), (ASSUMED, NOTHING, checked.TROUBLE),
    ):
        for words in ([], ["--json"]):
            yield f"nothing compared: {first!r}, {second!r}, {words}", each(nothing_compared, first, second, status, words)
