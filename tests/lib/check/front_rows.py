"""Rows of what stands before the model: which files are read, and what of Verilog Yosys takes more kindly than the
standard. Nothing of it may be lost without a word, and no assertion may be said never to fail by Yosys's choice."""
import functools
import os
import subprocess

from lib.check import checked, design_rows

HEAD = "module m(input clk, input [3:0] d, input [1:0] s);\n"
TAIL = "\nendmodule\n"
COUNTER = (
    "module part(input clk, input go, output reg [3:0] count); initial count = 0;\n"
    "always @(posedge clk) if (go) count <= count + 1; endmodule\n"
)


def inside(text):
    return HEAD + text + TAIL


def written(room, files):
    for name, text in files.items():
        path = room.here / name
        path.parent.mkdir(parents=True, exist_ok=True)
        path.write_text(text, encoding="utf-8")


def ran(room, text, *words):
    design_rows.need_tools(*design_rows.TOOLS)
    written(room, text if isinstance(text, dict) else {"m.sv": text})
    return room.run(*words, "--top", "m", "m.sv")


def answers(text, wanted, room):
    """The answer of each assertion, by its name without that of the top module."""
    said = ran(room, text)
    found = {it.name.partition(".")[2]: it.answer for it in checked.answers_of(said)}
    checked.need(found == wanted, f"{wanted} is due", said)
    broken = "reached" in wanted.values()
    checked.need(said.status == (checked.BROKEN if broken else checked.KEPT), "another status", said)


def refused(text, patterns, room):
    """A design that is refused, with the place and what is wrong."""
    checked.refused(ran(room, text), *patterns, status=checked.TROUBLE)


def noted(text, patterns, room):
    """A design of which something is told besides the answers: in one note each."""
    said = ran(room, text)
    for pattern in patterns:
        notes = [it for it in said.err.splitlines() if pattern in it]
        checked.need(len(notes) == 1, f"{len(notes)} notes have {pattern!r}", said)


def quiet_design(text, room):
    """A design of which nothing is told but what fails."""
    said = ran(room, text)
    notes = [it for it in said.err.splitlines() if "replay" not in it and "Icarus" not in it]
    checked.need(not notes, "it has a note", said)
    checked.need(said.status in (checked.KEPT, checked.BROKEN), "another status", said)


CHECKED = "a: assert property (d != 3);\n"
BOUND = {
    "an instance": inside(CHECKED) + "module chk(input c); assert property (c); endmodule\nbind m chk c(.c(d[0]));\n",
    "all instances of a part": COUNTER + inside(CHECKED + "wire [3:0] n; part p(clk, d[0], n);")
    + "module chk(input go); assert property (!go); endmodule\nbind part chk c(.go(go));\n",
    "by a name that is a port": inside(CHECKED) + "module chk(input d); assert property (d); endmodule\n"
    "bind m chk d_is(.d(clk));\n",
    "a module of parameters": inside(CHECKED)
    + "module chk #(parameter W = 1)(input [W-1:0] c); assert property (c != 3); endmodule\nbind m chk #(4) c(.c(d));\n",
    "by a macro": "`define CHECK(x) bind m chk c(.c(x));\n" + inside(CHECKED)
    + "module chk(input c); assert property (c); endmodule\n`CHECK(d[0])\n",
    "in an included file": {
        "m.sv": inside(CHECKED) + '`include "checks.svh"\n',
        "checks.svh": "module chk(input c); assert property (c); endmodule\nbind m chk c(.c(d[0]));\n",
    },
}
NO_BINDING = inside("reg bind_ = 0; // bind m chk c();\nwire unused = /* bind */ d[0];\n" + CHECKED)

LOST = {
    "a module that is nowhere": (
        inside(CHECKED) + "module chk(input c);\nx: assert property (c); assert property (!c); endmodule\n",
        ["module chk (m.sv:5) stands nowhere below the top: its 2 assertions are not checked"],
    ),
    "the modules of an included file": (
        {
            "m.sv": '`include "parts/chk.svh"\n' + inside(CHECKED),
            "parts/chk.svh": "\nmodule chk(input c); assert property (c); endmodule\n",
        },
        ["module chk (parts/chk.svh:2) stands nowhere below the top: its 1 assertion is not checked"],
    ),
    "a branch that is 0": (inside("if (0) begin\nx: assert property (0);\nend\n" + CHECKED), ["m.sv:3: no assertion"]),
    "a branch of a process": (
        inside("always @(posedge clk) begin if (0)\nassert (0); end\n" + CHECKED), ["m.sv:3: no assertion"]
    ),
    "a parameter that is 0": (
        inside("localparam CHECKS = 0; generate if (CHECKS)\nassert property (0); endgenerate\n" + CHECKED),
        ["m.sv:3: no assertion"],
    ),
    "a loop of no rounds": (
        inside("genvar i; for (i = 0; i < 0; i = i + 1) begin : row\nassert property (0); end\n" + CHECKED),
        ["m.sv:3: no assertion"],
    ),
    "a case of constants": (
        inside("generate case (2) 1:\nassert property (0);\n2: assert property (d != 5); endcase endgenerate\n"),
        ["m.sv:3: no assertion"],
    ),
    "a macro": (
        inside("`define CHECK(x) assert property (x);\nif (0) begin\n`CHECK(0)\nend\n`CHECK(d != 3)\n"),
        ["m.sv:4: no assertion"],
    ),
    "a task that is not called": (
        inside("task check; begin\nassert (0); end endtask\n" + CHECKED), ["m.sv:3: no assertion"]
    ),
}
KEPT_ALL = inside(
    """`ifdef NOWHERE
assert property (0);
`endif
// assert property (0);
wire [63:0] text = "assert";
genvar i; for (i = 0; i < 2; i = i + 1) begin : row assert property (d[i] || !d[i]); end
function f(input x); begin f = x; assert (x || !x); end endfunction
`define CHECK(x) assert (x); \\
  assert (x || !x);
always @(posedge clk) begin `CHECK(f(d[0])) end
"""
)

DRIVEN = {
    "a constant and an input": ("wire w; assign w = 0; assign w = d[0]; assert property (!w);", "w"),
    "a constant and a register": ("logic w; assign w = 0; always_ff @(posedge clk) w <= d[0]; assert property (!w);", "w"),
    "an input of more bits": ("wire [3:0] w = d; assign w = 2; assert property (d == 2);", "w"),
    "two constants": ("wire w; assign w = 0; assign w = 1; assert property (!w);", "w"),
    "bits that overlap": ("wire [3:0] w; assign w[2:0] = 2; assign w[3:2] = s; assert property (!w[2]);", "w"),
    "a loop whose parts overlap": (
        "wire [3:0] w; genvar i; for (i = 0; i < 3; i = i + 1) begin : g assign w[i +: 2] = i; end assert property (!w);", "w"
    ),
    "a constant and an instance": ("wire [3:0] w; part p(clk, d[0], w); assign w[3] = 0; assert property (!w[3]);", "w"),
    "a first value and an assignment": ("logic w = 1; assign w = d[0]; assert property (d[0]);", "w"),
    "a process and a constant": ("logic w; always_comb w = d[0]; assign w = 1; assert property (w);", "w"),
    "a constant and a latch": ("logic w; always @* if (s[0]) w = d[0]; assign w = 1; assert property (w);", "w"),
    "an input of a part": ("pinned p(d[0]); assert property (d[0]);", "in"),
}
PINNED = "module pinned(input in); assign in = 1; endmodule\n"
#: nets that have one driver, or whose drivers nobody reads
SINGLE = [
    "wire w = 0; wire [3:0] v; assign v[1:0] = d[1:0]; assign v[3:2] = 2; x: assert property (!w && v[3]);",
    "reg [3:0] q; genvar i; for (i = 0; i < 4; i = i + 1) begin : g always @(posedge clk) q[i] <= d[i]; end\n"
    "x: assert property (q == q);",
    "integer i; reg [3:0] a, b; always @* for (i = 0; i < 4; i = i + 1) a[i] = d[i];\n"
    "always @(posedge clk) for (i = 0; i < 3; i = i + 1) b[i] <= d[i]; x: assert property (a == d);",
    "reg r = 1; wire w = r; wire [1:0] v = {r, w}; x: assert property (v == 3);",
    "logic [1:0] c; always_comb begin c = 0; c[0] = d[0]; if (d[1]) c = 2; end x: assert property (!d[1] || c == 2);",
    "integer i; reg [1:0] a [0:2], b [0:2]; initial for (i = 0; i < 3; i = i + 1) a[i] = 1;\n"
    "initial for (i = 0; i < 3; i = i + 1) b[i] = 2; x: assert property (a[0] == 1 && b[2] == 2);",
    "function f(input x); f = !x; endfunction wire a = f(d[0]), b = f(f(d[0])); x: assert property (a != b);",
    "reg q; always @(posedge clk or posedge s[0]) if (s[0]) q <= 0; else q <= 1; x: assert property (q || !q);",
]

UNDECLARED = {
    "a name within an instance": ("wire [3:0] n; part p(clk, d[0], n);\na: assert property (p.count <= 8);", "p.count"),
    "a misspelt name": ("reg [3:0] count = 0; always @(posedge clk) count <= d;\na: assert property (cuont <= 8);", "cuont"),
    "a name from the top": ("wire [3:0] n; part p(clk, d[0], n);\na: assert property (m.p.count <= 8);", "m.p.count"),
    "bits of a name within an instance": (
        "wire [3:0] n; part p(clk, d[0], n);\nalways @(posedge clk) assert (p.count[3:2] == 0);", "p.count"
    ),
    "the target of an assignment": ("\nassign cuont = d; a: assert property (cuont == 0);", "cuont"),
    "what an instance is connected to": ("\npart p(clk, d[0], count); a: assert property (count == 0);", "count"),
    "a name in an assumption": ("\nassume property (cuont <= 8); a: assert property (d <= 8);", "cuont"),
}

NOBODY = {
    "a wire": ("wire w; a: assert property (!w);", "m.w (m.sv:2) is read and never driven"),
    "a register": ("reg r; a: assert property (!r);", "m.r (m.sv:2) is read and never driven"),
    "a bit": ("wire [3:0] w; assign w[2:0] = 0; a: assert property (!w[3]);", "m.w[3] (m.sv:2) is read and never"),
    "an input of an instance": (
        "wire [3:0] n; part p(.clk(clk), .count(n)); a: assert property (n == 0);", "m.p.go (m.sv:1) is read and never"
    ),
    "an instance of an empty module": (
        "wire w; empty e(d[0], w); a: assert property (!w);", "module empty (m.sv:1) has no body"
    ),
}

UNDEFINED = {
    "quotients": (
        "wire [3:0] q = d / s, r = d % s;\na: assert property (s != 0 || q == 15);\nb: assert property (s != 0 || r == d);\n"
        "ok: assert property (s == 0 || q * s + r == d && r < s);\nthird: assert property (d / 3 <= 5);",
        {"a": "reached", "b": "reached", "ok": "never", "third": "never"},
    ),
    "signed quotients": (
        "wire signed [3:0] n = d, b = $signed(s); wire signed [3:0] q = n / b, r = n % b;\nx: assert property (b != 0 || q == 1 || q == -1);\n"
        "y: assert property (b != 0 || r == n);\nok: assert property (b == 0 || n == -8 || q * b + r == n);",
        {"x": "reached", "y": "reached", "ok": "never"},
    ),
    "a quotient in a register": (
        "reg [3:0] q = 0; reg zero = 0; always @(posedge clk) begin q <= 7 % s; zero <= s == 0; end\n"
        "a: assert property (!zero || q == 7);\nb: assert property (zero || q < 3);",
        {"a": "reached", "b": "never"},
    ),
    "a case that promises one": (
        "reg [1:0] y; always @* (* parallel_case *) case (1'b1) s[0]: y = 1; s[1]: y = 2; default: y = 0; endcase\n"
        "both: assert property (s != 3 || y == 3);\nfirst: assert property (s != 3 || y == 1);",
        {"both": "reached", "first": "never"},
    ),
    "a unique case": (
        "reg [1:0] y; always_comb unique case (1'b1) s[0]: y = 1; s[1]: y = 2; endcase\n"
        "both: assert property (s != 3 || y == 3);\nnone: assert property (s != 0 || y == 0);\n"
        "other: assert property (s != 0 || y == 2);\none: assert property (s != 1 || y == 1);",
        {"both": "reached", "none": "reached", "other": "reached", "one": "never"},
    ),
    "a unique0 case": (
        "reg [1:0] y; always_comb begin y = 0; unique0 casez (s) 2'b?1: y = 1; 2'b1?: y = 2; endcase end\n"
        "both: assert property (s != 3 || y == 3);\nnone: assert property (s != 0 || y == 0);",
        {"both": "reached", "none": "never"},
    ),
    "a comment that promises one": (
        "reg [1:0] y; always @* case (1'b1) // synopsys parallel_case\ns[0]: y = 1; s[1]: y = 2; default: y = 0; endcase\n"
        "both: assert property (s != 3 || y == 3);",
        {"both": "reached"},
    ),
    "a full case": (
        "reg [1:0] y; always @* (* full_case *) case (s) 0: y = 1; 1: y = 2; endcase\n"
        "a: assert property (s != 3 || y == 1);\nb: assert property (s != 3 || y == 2);\nc: assert property (s != 1 || y == 2);",
        {"a": "reached", "b": "reached", "c": "never"},
    ),
    "a priority case": (
        "reg [1:0] y; always_comb priority case (1'b1) s[0]: y = 1; s[1]: y = 2; endcase\n"
        "both: assert property (s != 3 || y == 1);\nnone: assert property (s != 0 || y == 2);",
        {"both": "never", "none": "reached"},
    ),
    "bits out of range": (
        "wire [4:1] b = 0; wire [5:0] six = 0;\nlow: assert property (b[s] == 0);\nup: assert property (six[d +: 2] == 0);\n"
        "down: assert property (six[d -: 2] == 0);\nin: assert property (d > 4 || six[d +: 2] == 0);\n"
        "fixed: assert property (six[5 +: 2] == 0);",
        {"low": "reached", "up": "reached", "down": "reached", "in": "never", "fixed": "reached"},
    ),
    "words out of range": (
        "reg [1:0] words [1:5]; integer i; initial for (i = 1; i < 6; i = i + 1) words[i] = 0;\n"
        "all: assert property (words[d] == 0);\nin: assert property (d < 1 || d > 5 || words[d] == 0);",
        {"all": "reached", "in": "never"},
    ),
}


def beside(room):
    """An include beside the source wins over one of the current folder, and so do nested ones; -I comes behind."""
    text = "`include \"limits.svh\"\nmodule m(input [3:0] d); a: assert property (`WIDE || d <= 3); endmodule\n"
    files = {
        "sub/m.sv": text, "sub/limits.svh": '`include "deep/wide.svh"\n', "sub/deep/wide.svh": '`include "more.svh"\n',
        "sub/deep/more.svh": "`define WIDE 1\n", "limits.svh": "`define WIDE 0\n", "more.svh": "`define WIDE 0\n",
        "deep/wide.svh": "`define WIDE 0\n", "other/limits.svh": "`define WIDE 0\n", "sub/more.svh": "`define WIDE 0\n",
    }
    design_rows.need_tools(*design_rows.TOOLS)
    written(room, files)
    said = room.run("-I", "other", "--top", "m", "sub/m.sv")
    checked.judge(said, [checked.Truth("m.a", "sub/m.sv:2", None)])


def searched(room):
    """Folders of -I come in their order, before the current one."""
    text = "`include \"limits.svh\"\nmodule m(input [3:0] d); a: assert property (d != `LIMIT); endmodule\n"
    files = {"sub/m.sv": text, "limits.svh": "`define LIMIT 1\n", "one/limits.svh": "`define LIMIT 16\n"}
    files["two/limits.svh"] = "`define LIMIT 2\n"
    design_rows.need_tools(*design_rows.TOOLS)
    written(room, files)
    checked.judge(room.run("-Ione", "-Itwo", "--top", "m", "sub/m.sv"), [checked.Truth("m.a", "sub/m.sv:2", None)])
    checked.judge(room.run("-Itwo", "-Ione", "--top", "m", "sub/m.sv"), [checked.Truth("m.a", "sub/m.sv:2", 0)])
    checked.judge(room.run("--top", "m", "sub/m.sv"), [checked.Truth("m.a", "sub/m.sv:2", 0)])


def own_names(room):
    """Files of the user's by names that one might take."""
    text = '`include "defines.vh"\n`include "undefined.v"\nmodule m(input [3:0] d);\na: assert property (d != `LIMIT + `MORE);'
    files = {"m.sv": text + "\nendmodule\n", "defines.vh": "`define LIMIT 8\n", "undefined.v": "`define MORE 8\n"}
    design_rows.need_tools(*design_rows.TOOLS)
    written(room, files)
    checked.judge(room.run("-DOTHER=1", "--top", "m", "m.sv"), [checked.Truth("m.a", "m.sv:4", None)])


def hidden_define(value, room):
    """A value of -D leaves the next one as it is."""
    text = "module m(input [3:0] d);\n`ifdef SECOND\na: assert property (d != `SECOND);\n`endif\nendmodule\n"
    said = ran(room, text, "-D", f"FIRST={value}", "-DSECOND=16")
    checked.judge(said, [checked.Truth("m.a", "m.sv:3", None)])


def words_beside(room):
    """The words of a memory are those beside the source, whoever names them."""
    ram = 'module ram #(parameter FILE = "default.hex")(input [1:0] at, output [3:0] word);\nreg [3:0] words [0:3];\n'
    ram += "initial $readmemh(FILE, words); assign word = words[at]; endmodule\n"
    files = {
        "sub/m.sv": 'module m(input [1:0] s); reg [3:0] own [0:3]; initial $readmemh("data/own.hex", own);\n'
        'wire [3:0] word; ram #("other.hex") r(s, word);\nfirst: assert property (own[s] == 1);\n'
        "second: assert property (word == 2);\nendmodule\n",
        "ram.sv": ram, "sub/data/own.hex": "1 1 1 1\n", "data/own.hex": "3 3 3 3\n",
        "other.hex": "2 2 2 2\n", "default.hex": "4\n",
    }
    design_rows.need_tools(*design_rows.TOOLS)
    written(room, files)
    said = room.run("--top", "m", "sub/m.sv", "ram.sv")
    checked.judge(said, [checked.Truth("m.first", "sub/m.sv:3", None), checked.Truth("m.second", "sub/m.sv:4", None)])


def lines_of(room):
    """Directives of lines change no place, and none can make a run wait for a pipe."""
    os.mkfifo(room.here / "pipe")
    text = 'module m(input [3:0] d);\n`line 7 "pipe" 0\nassert property (d != 3);\n`line 99 "other.sv" 0\n'
    said = ran(room, text + "b: assert property (d <= 15);\nendmodule\n")
    checked.judge(said, [checked.Truth("m.assert", "m.sv:3", 0), checked.Truth("m.b", "m.sv:5", None)])


def device(name, how, room):
    """What has no end is refused by its name, wherever it stands."""
    design_rows.need_tools(*design_rows.TOOLS)
    words, text = ["--top", "m", "m.sv"], inside(CHECKED)
    path = f"/dev/{name}"
    if name == "pipe":
        path = "pipe.sv"
        os.mkfifo(room.here / path)
    if how == "given":
        os.symlink(path, room.here / "zero.sv")
        words.append("zero.sv")
    elif how == "included":
        text = f'`include "{path}"\n' + text
    else:
        text = inside(f'reg [1:0] words [0:3]; initial $readmemh("{path}", words);\n' + CHECKED)
    written(room, {"m.sv": text})
    checked.refused(room.run(*words), "not a regular file", "zero" if how == "given" else name, status=checked.TROUBLE)


def large(room):
    """A file larger than 64 MB is refused, and its size is said."""
    written(room, {"m.sv": inside(CHECKED)})
    with open(room.here / "large.sv", "wb") as file:
        file.truncate((64 << 20) + 1)
    design_rows.need_tools(*design_rows.TOOLS)
    checked.refused(room.run("--top", "m", "m.sv", "large.sv"), r"large\.sv.*64 MB", status=checked.TROUBLE)


def foreign(room):
    """No function of a library is called."""
    text = 'module m; import "DPI-C" function void exit(int x);\ninitial exit(0); endmodule\n'
    checked.refused(ran(room, text), r"m\.sv: exit is imported", status=checked.TROUBLE)


def places(room):
    """Words in comments and strings are no assertion, and those of a loop stand in its order."""
    text = (
        "module m(input clk, input [3:0] d); genvar i;\nwire [63:0] text = \"assert\"; /* assert\n assert */ assert property\n"
        "(d != 3); /* cover */ always @(posedge clk) begin /* assert */\n  // assert\n  assert (d != 4); end\n"
        "for (i = 1; i < 4; i = i + 1) begin : row\nassert property (i == 3 || d[0] || !d[0]);\nalways @* assert (i != 2 || d != 7);\n"
        "end endmodule\n"
    )
    said = ran(room, text)
    found = [(it.source.rpartition(":")[2], it.answer) for it in checked.answers_of(said)]
    never, reached = "never", "reached"
    wanted = [("3", reached), ("6", reached), *[("8", never)] * 3, ("9", never), ("9", reached), ("9", never)]
    checked.need(found == wanted, f"{wanted} is due", said)


def late(room):
    """A Yosys that does not end is ended, and that is said."""
    design_rows.need_tools(*design_rows.TOOLS)
    written(room, {"m.sv": inside(CHECKED), "sleeper": "#!/bin/sh\nexec sleep 100\n"})
    (room.here / "sleeper").chmod(0o755)
    script = (
        "import sys; sys.path.insert(0, sys.argv[1]); from pathlib import Path\n"
        "from aiger_check.faults import Trouble; from aiger_check.front.sources import Sources\n"
        "from aiger_check.front.yosys import Yosys; from aiger_check.tools.processes import Children\n"
        "sources = Sources(['m.sv'], [], [], Path(sys.argv[2]))\n"
        "try:\n  with Yosys(str(Path('sleeper').absolute()), Children(), sources, 0.5) as yosys: yosys.do('proc')\n"
        "except Trouble as why: print(why)\n"
    )
    words = ["python3", "-B", "-c", script, os.path.dirname(checked.CHECK), str(room.temporary)]
    said = subprocess.run(words, cwd=room.here, capture_output=True, text=True, check=False, timeout=60)
    checked.need(said.stdout == "Yosys did not end in 0.5 s\n", "it is not said", said)


def rows():
    each = functools.partial
    for name, text in BOUND.items():
        yield f"front: bind of {name}", each(refused, text, [r"(m\.sv|checks\.svh):\d+: bind is not", "put the instance"])
    yield "front: no bind", each(quiet_design, NO_BINDING)
    for name, (text, patterns) in LOST.items():
        yield f"front: no answer in {name}", each(noted, text, patterns)
    yield "front: each assertion has an answer", each(quiet_design, KEPT_ALL)
    for name, (text, net) in DRIVEN.items():
        whole = COUNTER + PINNED + inside(text)
        yield f"front: several drivers, {name}", each(refused, whole, [rf"m\.sv:\d+: {net} has several drivers"])
    for at, text in enumerate(SINGLE):
        yield f"front: one driver {at}", each(answers, inside(text), {"x": "never"})
    for name, (text, net) in UNDECLARED.items():
        whole = COUNTER + inside(text)
        yield f"front: not declared, {name}", each(refused, whole, [rf"m\.sv:5: {net} is not declared here"])
    for name, (text, pattern) in NOBODY.items():
        whole = ("" if "part" not in text else COUNTER) + ("module empty(input in, output out); endmodule\n\n" * ("empty" in text))
        whole += inside(text)
        yield f"front: never driven, {name}", each(noted, whole, [pattern])
        yield f"front: never driven, {name}, is free", each(answers, whole, {"a": "reached"})
    for name, (text, wanted) in UNDEFINED.items():
        yield f"front: undefined, {name}", each(answers, inside(text), wanted)
    yield "front: included files beside the source", beside
    yield "front: included files in other folders", searched
    yield "front: files by our own names", own_names
    for value in ("1'\\", "/*", '"', "//", "1\\", "`", "a b", ";", "#", "é"):
        yield f"front: -D with {value}", each(hidden_define, value)
    yield "front: words of memories", words_beside
    yield "front: directives of lines", lines_of
    for name in ("zero", "pipe"):
        for how in ("given", "included", "of words"):
            yield f"front: {name} {how}", each(device, name, how)
    yield "front: a file that is too large", large
    yield "front: a function of a library", foreign
    yield "front: places of assertions", places
    yield "front: a Yosys that does not end", late
