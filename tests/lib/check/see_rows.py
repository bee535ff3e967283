"""Rows of what is asked and how it is said: --only, --sort, colours at terminals."""
import functools
import json
import os
import re
import subprocess
import sys

from lib.check import checked, design_rows, model_rows, stand_ins
from lib.check.model_rows import TEXTS
from lib.check.option_rows import put

# bad states that are reached in steps 1 and 2, and two that never are; liveness that a lasso breaks
MODEL = """aag 3 1 2 0 0 4 0 1
2
4 2
6 4
4
6
0
0
1
6
b0 top.a.low
b1 top.b[0].low
b2 top.b[1].low
"""
LINES = {
    "top.a.low": "reached at 1",
    "top.b[0].low": "reached at 2",
    "top.b[1].low": "never",
    "b3": "never",
    "j0": "lasso at",
}
A, B0, B1, B3, J0 = LINES
CHOSEN = {
    ("b3",): [B3],
    ("top.*",): [A, B0, B1],
    ("top.b[0].low",): [B0],
    ("top.b[*].low",): [B0, B1],
    ("top.b[?].low",): [B0, B1],
    ("[bj][03]",): [A, B3, J0],
    ("j0", "b3"): [B3, J0],
    ("b0", "b2"): [A, B1],
    ("*.low", "top.a*"): [A, B0, B1],
    ("*",): [A, B0, B1, B3, J0],
}
# what fits no name, and which names are offered
REFUSED = {
    "low": "near it is top.a.low, top.b[0].low, top.b[1].low",
    "TOP.A.LOW": "near it is top.a.low",
    "top.a.lo": "near it is top.a.low, top.b[1].low, top.b[0].low",
    "b7": "there is top.a.low, top.b[0].low, top.b[1].low, b3, j0",
    "": "near it is top.a.low, top.b[0].low, top.b[1].low, b3, j0",
    "%%": "there is top.a.low, top.b[0].low, top.b[1].low, b3, j0",
}


def words_of(patterns):
    return [word for it in patterns for word in ("--only", it)]


def names_of(said):
    """The names of the lines, in their order, each of which must have its answer."""
    *lines, _ = said.out.splitlines()
    found = [re.fullmatch(r"(.*) \(model\.aag\): (.*)", it) for it in lines]
    checked.need(all(it and it[2].startswith(LINES[it[1]]) for it in found), "another line", said)
    return [it[1] for it in found]


def chosen(patterns, room):
    """What is named is asked, and nothing else; a note counts what is left out, with --quiet too."""
    put(room, {"model.aag": MODEL})
    changes, wanted = model_rows.honest(room), CHOSEN[patterns]
    said = room.run("--quiet", *words_of(patterns), "model.aag", changes=changes)
    checked.need(names_of(said) == wanted, f"{wanted} are due", said)
    live, count = J0 not in wanted, 4 - len([it for it in wanted if it != J0])
    parts = [f"{count} assertion{'s' * (count != 1)}"] * (count > 0) + ["1 liveness assertion"] * live
    note = f"aiger-check: left out by --only: {', '.join(parts)}\n"
    checked.need(said.err == (note if parts else ""), f"{note!r} is due", said)
    checked.need(said.status == int(set(wanted) & {A, B0, J0} != set()), "another status", said)
    object_ = json.loads(room.run("--json", *words_of(patterns), "model.aag", changes=changes).out)
    checked.need([it["name"] for it in object_["assertions"]] == wanted, f"{object_}", said)
    checked.need(not parts or note[len("aiger-check: ") : -1] in object_["notes"], f"{object_}", said)


def refused(pattern, room):
    put(room, {"model.aag": MODEL})
    said = room.run("--only", "top.*", "--only", pattern, "model.aag", changes=model_rows.honest(room))
    due = f"aiger-check: --only {pattern}: nothing that is asked has such a name; {REFUSED[pattern]}\n"
    checked.need((said.status, said.out, said.err) == (checked.TROUBLE, "", due), f"{due!r} is due", said)


def of_many(room):
    """Of many names the first are offered."""
    put(room, {"model.aag": "aag 0 0 0 0 0 9\n" + 9 * "0\n"})
    said = room.run("--only", "x", "model.aag", changes=model_rows.honest(room))
    checked.refused(said, "there is b0, b1, b2, b3, b4 and 4 more$")
    put(room, {"model.aag": "aag 0 0 0 0 0\n"})
    checked.refused(room.run("--only", "x", "model.aag", changes=model_rows.honest(room)), "there is none at all$")


def left_by_mode(room):
    """What a mode leaves out has no name to be asked by."""
    put(room, {"model.aag": MODEL})
    said = room.run("--mode", "live", "--only", "b3", "model.aag", changes=model_rows.honest(room))
    checked.refused(said, "near it is j0|there is j0")


def together_again(room):
    """What is kept of some is shown of these, and searched again by names that are patterns too."""
    put(room, {"model.aag": MODEL})
    changes, kept = model_rows.honest(room), room.here / "kept"
    room.may_write.add("kept")
    words = words_of([B0, B1, B3])
    said = room.run("--keep", "kept", *words, "model.aag", changes=changes)
    answers = checked.of_lines(said)
    checked.judge_kept(room, kept, [it for it in answers], said)
    program = stand_ins.put(room.folder / "again", "aiger-check", f'exec {sys.executable} {checked.CHECK} "$@"')
    settings = room.settings({**changes, "AIGER_CHECK": program})
    ran = subprocess.run(["sh", str(kept / "commands.sh")], env=settings, capture_output=True, text=True, check=False)
    again = [re.sub(r" \(live-\w+\.aig\)", "", it) for it in ran.stdout.splitlines()]
    due = [re.sub(r" \(model\.aag\)|, kept.*", "", it) for it in said.out.splitlines()]
    checked.need(again == due, f"{due} are due, {ran} came", said)


DESIGN = """module part(input clk, input go); reg [1:0] n = 0; always @(posedge clk) n <= n + go;
  full: assert property (n != 3); low: assert property (n < 4); endmodule
module top(input clk, input [1:0] go);
  genvar i; generate for (i = 0; i < 2; i = i + 1) begin : row part unit(clk, go[i]); end endgenerate
  none: assert property (go != 4); met: cover property (go == 3);
endmodule
"""


def in_design(room):
    """Of a design the same is said of what is asked; the second front end compares all."""
    design_rows.need_tools(*design_rows.TOOLS)
    put(room, {"top.sv": DESIGN})
    whole = room.run("--top", "top", "top.sv")
    said = room.run("--only", "top.row[*].unit.full", "--top", "top", "top.sv")
    due = [it for it in whole.out.splitlines() if ".full " in it]
    checked.need(len(due) == 2 and said.out.splitlines()[:-1] == due, f"{due} are due", said)
    checked.need("left out by --only: 3 assertions" in said.err, "a note is due", said)
    agree = r"\d+ steps, \d+ signals, \d+ assertions agree.*"
    checked.need(re.findall(agree, said.err) == re.findall(agree, whole.err), "other comparisons", said)
    said = room.run("--only", "*.none", "--top", "top", "top.sv")
    checked.need((said.status, said.out) == (0, "top.none (top.sv:5): never\n1 assertion: 1 never\n"), "", said)
    said = room.run("--only", "*.met", "--mode", "cover", "--top", "top", "top.sv")
    checked.need(said.out == "top.met (top.sv:5): covered at 0\n1 cover: 1 covered\n", "another cover", said)
    checked.refused(room.run("--only", "none", "--top", "top", "top.sv"), "near it is top.none$")


FIRST = "aag 3 2 0 2 1 0 0\n2\n4\n6\n2\n6 4 2\no0 both\no1 one\n"
SECOND = "aag 3 2 0 2 1 0 1\n2\n4\n6\n4\n3\n6 4 2\no0 both\no1 one\n"


def of_two(room):
    """Of two designs pairs are named as the first names them, and what the second assumes by its name."""
    put(room, {"old.aag": FIRST, "new.aag": SECOND})
    changes = model_rows.honest(room)
    said = room.run("--equal", "--only", "both", "old.aag", "new.aag", changes=changes)
    checked.need((said.status, said.out) == (0, "both: equal\n1 pair: 1 equal\n"), "one pair", said)
    checked.need("left out by --only: 1 pair, 1 assumption\n" in said.err, "a note is due", said)
    said = room.run("--equal", "--only", "c0", "--sort", "name", "--only", "o*", "old.aag", "new.aag", changes=changes)
    due = "one: differs at 0\nassumption c0 of new.aag: fails at 0\n1 pair: 1 differs; 1 assumption: 1 fails\n"
    checked.need((said.status, said.out) == (1, due), f"{due!r} is due", said)
    put(room, {"new.aag": SECOND.replace("\n4\n3\n", "\n4\n1\n")})
    said = room.run("--equal", "--only", "c0", "old.aag", "new.aag", changes=changes)
    due = "assumption c0 of new.aag: holds\n1 assumption: 1 holds\n"
    checked.need((said.status, said.out) == (0, due), f"{due!r} is due", said)
    said = room.run("--equal", "--only", "o0", "old.aag", "new.aag", changes=changes)
    checked.refused(said, "there is both, one, c0$")


# ---------------------------------------------------------------- sorted

# never, reached at 2 and at once, each twice
MANY = "aag 3 1 2 0 0 6\n2\n4 2\n6 4\n0\n6\n2\n1\n6\n0\nb0 n10\nb1 n9\nb2 m\nb3 z\nb4 n11\nb5 A\n"
SORTED = {
    "file": ["n10", "n9", "m", "z", "n11", "A"],
    "name": ["A", "m", "n9", "n10", "n11", "z"],
    "answer": ["m", "z", "n9", "n11", "n10", "A"],
}


def sorted_by(how, room):
    """Lines, the object and the report have one order; the sum is the same."""
    put(room, {"model.aag": MANY})
    changes, words = model_rows.honest(room), ["--sort", how] if how != "file" else []
    plain = room.run("model.aag", changes=changes).out.splitlines()
    room.may_write.add("report.xml")
    said = room.run(*words, "--junit", "report.xml", "model.aag", changes=changes)
    *lines, last = said.out.splitlines()
    checked.need([it.split()[0] for it in lines] == SORTED[how], f"{SORTED[how]} are due", said)
    checked.need(sorted(lines) == sorted(plain[:-1]) and last == plain[-1], "other lines", said)
    report = (room.here / "report.xml").read_text(encoding="utf-8")
    checked.need(re.findall(r'<testcase [^>]*\bname="([^"]*)"', report) == SORTED[how], report, said)
    object_ = json.loads(room.run("--json", *words, "model.aag", changes=changes).out)
    checked.need([it["name"] for it in object_["assertions"]] == SORTED[how], f"{object_}", said)


def unknown_in_between(room):
    """What is unknown stands behind what is broken."""
    put(room, {"model.aag": "aag 4 1 3 0 0 3\n2\n4 2\n6 4\n8 6\n0\n8\n2\n"})
    changes = {**model_rows.honest(room), "ABC": "false"}
    said = room.run("--sort", "answer", "--frames", "2", "--jobs", "1", "model.aag", changes=changes)
    found = [(it.split()[0], it.split(": ")[1]) for it in said.out.splitlines()[:-1]]
    checked.need(found == [("b2", "reached at 0"), ("b1", "none within 2"), ("b0", "never")], f"{found}", said)


# ---------------------------------------------------------------- colours

ESCAPE = re.compile(r"\033\[\d*m")
GREEN, RED, YELLOW = "\033[32m{}\033[0m", "\033[31m{}\033[0m", "\033[33m{}\033[0m"
COLOURED = (
    f"n10 (model.aag): {GREEN.format('never')}\nn9 (model.aag): {RED.format('reached at 2')}\n"
    f"m (model.aag): {RED.format('reached at 0')}\nz (model.aag): {RED.format('reached at 0')}\n"
    f"n11 (model.aag): {RED.format('reached at 2')}\nA (model.aag): {GREEN.format('never')}\n"
    "6 assertions: 2 never, 4 reached\n"
)


def at_terminal(room, *words, changes):
    """What a run says whose standard output is a terminal, and how it ends."""
    master, slave = os.openpty()
    try:
        said = room.run(*words, changes=changes, stdout=slave)
        os.set_blocking(master, False)
        said.out = os.read(master, 1 << 16).decode().replace("\r\n", "\n")
    finally:
        os.close(slave)
        os.close(master)
    return said


def colours(words, settings, is_terminal, are_due, room):
    put(room, {"model.aag": MANY})
    changes = {**model_rows.honest(room), "TERM": "xterm", "NO_COLOR": None, **settings}
    said = (functools.partial(at_terminal, room) if is_terminal else room.run)(*words, "model.aag", changes=changes)
    due = COLOURED if are_due else ESCAPE.sub("", COLOURED)
    checked.need(said.out == due, f"{due!r} is due", said)
    checked.need("\033" not in said.err, "colours of notes", said)


def no_colours_elsewhere(room):
    """An object and what a competition reads have none, whatever is asked for."""
    put(room, {"model.aag": MANY})
    changes = {**model_rows.honest(room), "TERM": "xterm"}
    for option in ("--json", "--competition"):
        said = at_terminal(room, option, "--color", "always", "model.aag", changes=changes)
        checked.need("\033" not in said.out and said.out, f"colours of {option}", said)


def yellow(room):
    """What is vacuous or unknown is yellow, and its reason is not; a file behind an answer is not red."""
    changes = model_rows.honest(room)
    put(room, {"model.aag": TEXTS["a constraint that is 0"][0]})
    said = room.run("--color", "always", "model.aag", changes=changes)
    checked.need(f": {YELLOW.format('vacuous')}: the" in said.out, "vacuous is yellow", said)
    put(room, {"model.aag": TEXTS[model_rows.NEVER][0]})
    said = room.run("--color", "always", "model.aag", changes={"SOLVER": "false/cadical", "ABC": changes["ABC"]})
    checked.need(f": {YELLOW.format('unknown')}: " in said.out, "unknown is yellow", said)
    put(room, {"model.aag": TEXTS[model_rows.LATE][0]})
    room.may_write.add("kept")
    said = room.run("--color", "always", "--keep", "kept", "model.aag", changes=changes)
    checked.need(f": {RED.format('reached at 3')}, kept/b0.aiw\n" in said.out, "reached is red", said)
    words = ["--equal", "--color", "always", "model.aag", "model.aag"]
    said = room.run(*words, changes=changes)
    checked.need(f"b0: {GREEN.format('equal')}\n" in said.out, "equal is green", said)


def colours_of_covers(room):
    design_rows.need_tools(*design_rows.TOOLS)
    put(room, {"top.sv": DESIGN.replace("met: cover", "unmet: cover property (go == 5); met: cover")})
    said = room.run("--color", "always", "--mode", "cover", "--top", "top", "top.sv")
    due = [f"unmet (top.sv:5): {RED.format('never')}", f"met (top.sv:5): {GREEN.format('covered at 0')}"]
    checked.need(all(f"top.{it}\n" in said.out for it in due), f"{due} are due", said)


# how colours are asked for, in which settings, at a terminal or not, and whether they are due
COLOURS = (
    ([], {}, True, True),
    ([], {}, False, False),
    ([], {"NO_COLOR": ""}, True, True),
    ([], {"NO_COLOR": "1"}, True, False),
    ([], {"NO_COLOR": "0"}, True, False),
    ([], {"TERM": "dumb"}, True, False),
    ([], {"TERM": None}, True, False),
    (["--color", "auto"], {}, True, True),
    (["--color", "auto"], {}, False, False),
    (["--color", "never"], {}, True, False),
    (["--color", "always"], {}, False, True),
    (["--color", "always"], {"NO_COLOR": "1", "TERM": "dumb"}, False, True),
    (["--quiet"], {}, True, True),
)
USAGE = (["--sort", "size"], ["--color", "yes"], ["--color"], ["--only"], ["--vcd", ""], ["--vcd", "model.aag"])


def usage(words, room):
    put(room, {"model.aag": MANY})
    checked.refused(room.run("model.aag", *words, changes=model_rows.honest(room)), words[0], status=checked.USAGE)


def rows():
    each = functools.partial
    for patterns in CHOSEN:
        yield f"only {' and '.join(patterns)}", each(chosen, patterns)
    for pattern in REFUSED:
        yield f"only, refused: {pattern!r}", each(refused, pattern)
    yield "only, refused: of many names", of_many
    yield "only, refused: what a mode leaves out", left_by_mode
    yield "only, kept and searched again", together_again
    yield "only, in a design", in_design
    yield "only, of two designs", of_two
    for how in SORTED:
        yield f"sorted by {how}", each(sorted_by, how)
    yield "sorted by answer: what is bounded", unknown_in_between
    for words, settings, is_terminal, are_due in COLOURS:
        place = "a terminal" if is_terminal else "a pipe"
        yield f"colours: {words} {settings} at {place}", each(colours, words, settings, is_terminal, are_due)
    yield "colours: not of objects", no_colours_elsewhere
    yield "colours: yellow", yellow
    yield "colours: of covers", colours_of_covers
    for words in USAGE:
        yield f"usage of what is shown: {words}", each(usage, words)
