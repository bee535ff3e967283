"""Rows of what the manual page promises and no other row asks: names of files, defaults, the order and the names of
assertions, what is kept, and solvers that write no refutation."""
import functools
import hashlib
import os
import re
import subprocess

from lib.check import checked, design_rows, model_rows, stand_ins, tool_rows
from lib.check.checked import Truth
from lib.check.model_rows import LATE, NEVER, TEXTS, TOKENS
from lib.check.option_rows import put
from lib.check.piece_rows import piece

ONE = "module m(input clk);\n  reg a = 0;\n  always @(posedge clk) a <= !a;\n  low: assert property (!a);\nendmodule\n"


def suffix(name, room):
    """Files of a design by each of these names."""
    design_rows.need_tools(*design_rows.TOOLS)
    put(room, {name: ONE})
    checked.judge(room.run("--quiet", "--top", "m", name), [Truth("m.low", f"{name}:4", 1)])


def in_order(room):
    """The lines come in the order of the files, and of their lines, whatever the order of modules and instances is."""
    design_rows.need_tools(*design_rows.TOOLS)
    leaf = "module {name}(input x);\n  {name}: assert property (!x);\n\n  assert property (x);\nendmodule\n"
    top = "module m(input x);\n  b second(x);\n  a first(x);\n  a third(x);\n  mine: assert property (x);\nendmodule\n"
    put(room, {"m.sv": top, "a.sv": leaf.format(name="a"), "b.sv": leaf.format(name="b")})
    places = {
        "m.sv": ["m.mine (m.sv:5)"], "b.sv": ["m.second.b (b.sv:2)", "m.second.assert (b.sv:4)"],
        "a.sv": ["m.first.a (a.sv:2)", "m.third.a (a.sv:2)", "m.first.assert (a.sv:4)", "m.third.assert (a.sv:4)"],
    }
    for files in (["b.sv", "a.sv", "m.sv"], ["m.sv", "a.sv", "b.sv"]):
        said = room.run("--quiet", "--top", "m", *files)
        lines = [it.rpartition(": ")[0] for it in said.out.splitlines()[:-1]]
        wanted = [it for name in files for it in places[name]]
        in_file = {name: sorted(it for it in lines if f"({name}:" in it) for name in files}
        checked.need(in_file == {name: sorted(places[name]) for name in files}, f"{wanted} are due", said)
        numbers = [re.search(r"\((.*):(\d+)\)", it).groups() for it in lines]
        due = sorted(numbers, key=lambda it: (files.index(it[0]), int(it[1])))
        checked.need(numbers == due, f"{due} is the order", said)


DEFAULTS = {"frames": 50, "time": 30.0, "limit": 300.0, "keep": None, "solver": None, "timeout": None, "junit": None}


def defaults(room):
    """What holds where an option is not given, as the manual says."""
    given = vars(piece("arguments").parse_arguments(["model.aag"]))
    came = {name: given[name] for name in DEFAULTS}
    checked.need(came == DEFAULTS and given["jobs"] == len(os.sched_getaffinity(0)), "other defaults", given)
    del room


def asks_nothing(words, room):
    """Help and version do nothing else."""
    said = room.run(*words, "--keep", "kept", "--junit", "report.xml", "none.aag", changes={"PATH": "/nowhere", "AIGER": None})
    checked.need(said.status == 0 and not said.err, "another end", said)


def digests(words, names, room):
    """What a kept model is called is the first digits of its SHA-256."""
    changes = model_rows.honest(room)
    put(room, {"old": "aag 1 1 0 1 0\n2\n2\n", "new": "aag 1 1 0 1 0\n2\n2\n", "late.aag": TEXTS[LATE][0]})
    put(room, {"live.aag": "aag 2 1 1 0 0 0 0 1 0\n2\n4 2\n1\n4\n"})
    room.may_write.add("kept")
    said = room.run("--keep", "kept", *words, changes=changes)
    models = sorted((room.here / "kept").glob("*.aig"))
    checked.need([it.name.partition("-")[0] for it in models] == names, f"{names} are due", said)
    for it in models:
        digest = hashlib.sha256(it.read_bytes()).hexdigest()
        checked.need(it.stem.partition("-")[2] == digest[:16], f"{it.name} has the digest {digest}", said)


def alone(room):
    """What is kept is checked by aiger alone: no other tool is on the PATH."""
    changes, kept = model_rows.honest(room), room.here / "kept"
    put(room, {"model.aag": TEXTS[TOKENS][0]})
    room.may_write.add("kept")
    said = room.run("--keep", "kept", "model.aag", changes=changes)
    folder = tool_rows.few(room)
    for name in ("dirname", "sha256sum", "echo"):
        found = subprocess.run(["sh", "-c", f"command -v {name}"], capture_output=True, text=True, check=True).stdout.strip()
        if found.startswith("/"):
            os.symlink(found, os.path.join(folder, name))
    settings = {"PATH": folder, "AIGER": room.program}
    (script,) = kept.glob("*.check.sh")
    ran = subprocess.run(["sh", str(script)], env=settings, cwd=room.folder, capture_output=True, text=True, check=False)
    checked.need(ran.returncode == 0, f"it fails: {ran}", said)


MINISAT = 'for one; do case $one in -*) ;; *.cnf) in=$one ;; *) out=$one ;; esac; done\n'
MINISAT += '{solves} "$in" > "$out.text"; status=$?\n'
MINISAT += '[ $status = 10 ] && {{ echo SAT; sed -n "s/^v //p" "$out.text"; }} > "$out" || echo UNSAT > "$out"\n'
MINISAT += 'rm "$out.text"; exit $status'


def without_refutation(name, which, room):
    """With a solver that writes no refutation a run is found, and nothing is said to be kept."""
    text, steps = TEXTS[which]
    put(room, {"model.aag": text})
    solves = stand_ins.runs("solver.py").removeprefix("exec ")
    body = MINISAT.format(solves=solves) if name == "minisat" else f'{solves} "$@"'
    changes = {**model_rows.honest(room), "SOLVER": stand_ins.put(room.folder / "by", name, body)}
    said = room.run("--frames", "6", "model.aag", changes=changes)
    found = checked.judge(said, model_rows.named(text, steps, "model.aag"), checked.SAFE, 6)
    kinds = [it.answer for it in found]
    wanted = ["unknown" if it is None else "reached" for it in steps]
    checked.need(kinds == wanted, f"{wanted} are due", said)
    checked.need("writes no refutation" in said.err, "it is not said", said)


# of two designs: the first, the second, what is said, and what is noted
HALF = "module m(input clk, input a, output reg q = 0);\n  always @(posedge clk) q <= a;\n"
TWO = {
    "an assertion that one has": (
        HALF + "  one: assert property (q == q);\nendmodule\n", HALF + "endmodule\n", ["q: equal"], "assertion one of old.sv",
    ),
    "an assertion that both have": (
        HALF + "  one: assert property (!q);\nendmodule\n", HALF + "  one: assert property (q == 0);\nendmodule\n",
        ["assertion one: equal", "q: equal"], None,
    ),
    "a global clock of one": (
        HALF + "endmodule\n", HALF.replace("posedge", "negedge") + "endmodule\n", ["q: differs at"], "a step is one of a global clock",
    ),
    "an assumption of the second": (
        HALF + "endmodule\n", HALF + "  held: assume property (!a);\nendmodule\n",
        ["assumption held of new.sv: fails at 0", "q: equal"], None,
    ),
    "an assumption of the first": (
        HALF + "  held: assume property (!a);\nendmodule\n", HALF + "endmodule\n", ["q: equal"], None,
    ),
}


def of_two(first, second, lines, noted, room):
    design_rows.need_tools(*design_rows.TOOLS)
    put(room, {"old.sv": first, "new.sv": second})
    said = room.run("--equal", "--top", "m", "old.sv", "new.sv")
    came = sorted(said.out.splitlines()[:-1])
    fits = len(came) == len(lines) and all(it.startswith(line) for it, line in zip(came, sorted(lines)))
    checked.need(fits, f"{lines} are due", said)
    checked.need((noted or "") in said.err, f"{noted} is not noted", said)


def goes_out(room):
    """Of Verilog an input without a name tells in a lasso's waveform from where on what is asked for never comes."""
    design_rows.need_tools(*design_rows.TOOLS)
    text = "module m(input clk, input d);\n  reg a = 0;\n  always @(posedge clk) a <= d;\n"
    put(room, {"m.sv": text + "  come: assert property (s_eventually a);\nendmodule\n"})
    room.may_write.add("kept")
    said = room.run("--keep", "kept", "--top", "m", "m.sv")
    dump = (room.here / "kept" / "m.come.vcd").read_text(encoding="latin-1")
    inputs = dict(re.findall(r"\$var wire 1 (i\d+) (\S+) \$end", dump))
    unnamed = [code for code, name in inputs.items() if name == code]
    checked.need(len(unnamed) == 1, f"the inputs are {inputs}", said)
    changes, step, marked = [], None, None
    for line in dump.partition("$enddefinitions $end")[2].splitlines():
        step = int(line[1:]) if line[:1] == "#" else step
        changes += [(step, line[0], line[1:])] if line[:1] in ("0", "1") else []
        marked = step if line == f"1{unnamed[0]}" and marked is None else marked
    (register,) = re.findall(r"\$var reg 1 (l\d+) a \$end", dump) or re.findall(r"\$var reg 1 (l0) \S+ \$end", dump)
    behind = [it for it in changes if it[2] == register and it[1] == "1" and it[0] >= (marked or 0)]
    checked.need(marked is not None and not behind, f"{unnamed} is 1 first at {marked}", dump)


CLOCKED_BY = """module m #(parameter N = 3, parameter [7:0] W = 1) (input clk, input [1:0] other, input d);
  reg [3:0] a = 0;
  always @(posedge clk) a <= a == N ? 0 : a + W;
  low: assert property (a < 5);
endmodule
"""
# what is given of clocks and parameters, and in which step the assertion fails or what is said
GIVEN = {
    "the clock": (["--clock", "clk"], None), "a clock and another": (["--clock", "other[1]", "--clock", "clk"], None),
    "another clock": (["--clock", "other"], "clk is a clock too"), "a clock that is none": (["--clock", "none"], "no such input"),
    "an output for a clock": (["--clock", "a"], "no such input"), "a parameter": (["-P", "N=7"], 5),
    "two parameters": (["-P", "N=9", "-P", "W=8'd3"], 2), "a parameter in bits": (["-P", "N=4'b0111"], 5),
    "a parameter twice": (["-P", "N=1", "-P", "N=7"], 5), "a parameter that is none": (["-P", "M=7"], "no such parameter"),
    "a parameter with words": (["-P", "N=7 shell touch hacked"], "is not"), "a parameter that is a sum": (["-P", "N=3+4"], "is not"),
}


def given(words, due, room):
    """Parameters of the top module, and clocks that are named."""
    design_rows.need_tools(*design_rows.TOOLS)
    put(room, {"m.sv": CLOCKED_BY})
    said = room.run(*words, "--top", "m", "m.sv")
    if isinstance(due, str):
        checked.refused(said, due)
        return
    checked.judge(said, [Truth("m.low", "m.sv:4", due)])


def given_of_two(words, status, due, room):
    """They are of both designs."""
    design_rows.need_tools(*design_rows.TOOLS)
    put(room, {"m.sv": CLOCKED_BY, "n.sv": CLOCKED_BY.replace("N = 3", "N = 4")})
    said = room.run("--equal", *words, "--top", "m", "m.sv", "n.sv")
    checked.need(said.status == status and due in said.out + said.err, f"{due} is due", said)


def rows():
    each = functools.partial
    for name in ("m.v", "m.sv", "m.vh", "m.svh", "M.SV", "a.b.v"):
        yield f"promised: a design named {name}", each(suffix, name)
    yield "promised: the order of lines", in_order
    yield "promised: defaults", defaults
    for words in (["--help"], ["--version"], ["-V"], ["-h"]):
        yield f"promised: {words} asks nothing", each(asks_nothing, words)
    for words, names in (
        (["late.aag"], ["model"]), (["live.aag"], ["live"]), (["--equal", "old", "new"], ["first", "miter", "second"]),
    ):
        yield f"promised: names of the models of {words}", each(digests, words, names)
    yield "promised: a script by aiger alone", alone
    for name in ("minisat", "picosat"):
        for which in (NEVER, LATE, TOKENS):
            yield f"promised: {name} for {which}", each(without_refutation, name, which)
    for called, of in TWO.items():
        yield f"promised of two: {called}", each(of_two, *of)
    for called, of in GIVEN.items():
        yield f"promised: {called}", each(given, *of)
    for words, status, due in (
        (["-P", "N=2"], checked.KEPT, "equal"), ([], checked.KEPT, "equal"), (["--clock", "clk"], checked.KEPT, "equal"),
        (["--clock", "d"], checked.TROUBLE, "clk is a clock too"), (["-P", "K=1"], checked.TROUBLE, "no such parameter"),
        (["-P", "N=8"], checked.KEPT, "equal"),
    ):
        yield f"promised of two: {words}", each(given_of_two, words, status, due)
    yield "promised: from where on it never comes", goes_out
