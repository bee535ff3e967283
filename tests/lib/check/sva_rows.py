"""Rows of concurrent assertions: each form that is taken, with one that never fails and one that fails in a known step,
and each construct that is not taken, with its place and what to write."""
import functools
import re

from lib.check import checked, design_rows
from lib.check.checked import Truth


# n counts 0, 1, 2, 3, 4, 5, and stays there
HEAD = """module m(input clk, input rst, input [3:0] a, input b, input c);
  parameter P = 2; localparam ZERO = 0;
  reg [2:0] n = 0; always @(posedge clk) if (n != 5) n <= n + 1;
"""
E = "@(posedge clk)"

# of each form assertions, each with the step in which it fails, or None
FORMS = {
    "an expression": [
        (f"assert property ({E} n != 6);", None),
        (f"assert property ({E} n != 3);", 3),
        (f"assert property ({E} n - 3'd7 + b);", None),
        (f"assert property ({E} n + 3'd4);", 4),
    ],
    "an implication": [
        (f"assert property ({E} n == 2 |-> !n[0]);", None),
        (f"assert property ({E} n == 2 |-> n[0]);", 2),
        (f"assert property ({E} n == 2 |=> n == 3);", None),
        (f"assert property ({E} n == 2 |=> n == 4);", 3),
        (f"assert property ({E} n == 1 |=> n == 2 |=> n == 3 |-> n[1]);", None),
        (f"assert property ({E} n == 1 |=> n == 2 |=> n == 3 |-> !n[1]);", 3),
    ],
    "a delay": [
        (f"assert property ({E} n == 1 |-> ##2 n == 3);", None),
        (f"assert property ({E} n == 1 |-> ##2 n == 4);", 3),
        (f"assert property ({E} n == 1 ##1 n == 2 ##2 n == 4 |-> n == 4);", None),
        (f"assert property ({E} n == 1 ##1 n == 2 ##2 n == 4 |-> n == 3);", 4),
        (f"assert property ({E} n == 1 |-> ##P n == 3);", None),
        (f"assert property ({E} n == 1 |-> ##(P + 1) n == 3);", 4),
        (f"assert property ({E} n == 1 |-> ##ZERO n == 1);", None),
        (f"assert property ({E} n == 0 ##ZERO n == 1 |-> 0);", None),
        (f"assert property ({E} n == 1 |-> ##ZERO n == 2);", 1),
        (f"assert property ({E} ##3 n >= 3);", None),
        (f"assert property ({E} ##3 n != 5);", 5),
    ],
    "overlapping attempts": [
        (f"assert property ({E} b ##2 c |-> ##1 1);", None),
        (f"assert property ({E} n < 3 |-> ##2 n != 4);", 4),
        (f"assert property ({E} n < 3 |-> ##3 n > 2);", None),
    ],
    "a delay of several lengths": [
        (f"assert property ({E} n == 1 |-> ##[1:3] n == 4);", None),
        (f"assert property ({E} n == 1 |-> ##[1:3] n == 5);", 4),
        (f"assert property ({E} n == 1 ##[1:3] n == 4 |-> n == 4);", None),
        (f"assert property ({E} n == 1 ##[1:3] n[0] |-> n == 5);", 3),
    ],
    "a repetition": [
        (f"assert property ({E} n == 5 [*3] |-> n == 5);", None),
        (f"assert property ({E} (n > 1)[*3] |-> n == 5);", 4),
        (f"assert property ({E} n == 1 |=> (n[1])[*2]);", None),
        (f"assert property ({E} n == 1 |=> (n[1])[*3]);", 4),
    ],
    "not, and, or": [
        (f"assert property ({E} not (n == 1 ##1 n == 3));", None),
        (f"assert property ({E} not (n == 1 ##1 n == 2));", 2),
        (f"assert property ({E} (n == 1 |=> n == 2) and (n == 2 |=> n == 3));", None),
        (f"assert property ({E} (n == 1 |=> n == 2) and (n == 2 |=> n == 4));", 3),
        (f"assert property ({E} n != 1 or (##1 n == 2));", None),
        (f"assert property ({E} n == 1 or n == 2 |=> n == 3 or n == 2);", None),
        (f"assert property ({E} n == 1 or n == 2 |=> n == 2);", 3),
        (f"assert property ({E} not n == 4);", 4),
        (f"assert property ({E} n == 1 implies n[0]);", None),
        (f"assert property ({E} n == 1 iff n[0]);", 3),
        (f"assert property ({E} if (n == 2) (##1 n == 3) else n != 6);", None),
        (f"assert property ({E} if (n == 2) (##1 n == 4) else n != 6);", 3),
    ],
    "what was before": [
        (f"assert property ({E} n == 3 |-> $past(n) == 2 && $past(n, 2) == 1);", None),
        (f"assert property ({E} n == 3 |-> $past(n) == 1);", 3),
        (f"assert property ({E} n == 4 |-> $fell(n[0]) && $rose(n[2]) && $changed(n));", None),
        (f"assert property ({E} n == 1 |-> $fell(n[0]));", 1),
        (f"assert property ({E} n == 3 |-> $stable(n[1]));", None),
        (f"assert property ({E} n == 2 |-> $stable(n));", 2),
        # nothing is known of what was before the first step
        (f"assert property ({E} !$stable(n));", 0),
        (f"assert property ({E} $past(n) == 0);", 0),
        (f"assert property ({E} $rose(n[0]) |-> n[0]);", None),
    ],
    "counts of ones": [
        (f"assert property ({E} n == 4 |-> $onehot(n) && $onehot0(n) && $countones(n) == 1);", None),
        (f"assert property ({E} $onehot(n));", 0),
        (f"assert property ({E} $onehot0(n));", 3),
        (f"assert property ({E} $countones(n) < 3);", None),
    ],
    "disable iff": [
        (f"assert property ({E} disable iff (n == 3) n != 3);", None),
        (f"assert property ({E} disable iff (n == 2) n != 3);", 3),
        (f"assert property ({E} disable iff (n == 2) n == 1 |=> ##1 n == 4);", None),
        (f"assert property ({E} disable iff (n == 3) n == 1 |=> ##1 n == 4);", None),
        (f"assert property ({E} disable iff (n == 4) n == 1 |=> ##1 n == 4);", 3),
        (f"assert property ({E} disable iff (n == 0) n == 1 |=> ##1 n == 4);", 3),
        (f"assert property ({E} disable iff (n) n == 1 |=> n == 4);", None),
    ],
    "actions": [
        (f'assert property ({E} n != 3) else $error("n is %0d at %t", n, $time);', 3),
        (f"assert property ({E} n != 6) else begin : bad $display(\"no\"); $fatal(1, \"%m\"); end", None),
        (f'assert property ({E} n != 4) $info("yes"); else $warning;', 4),
        ('assert property (n != 2) else $error("no");', 2),
        ("always @* if (b) assert (n != 6) else $error; else assert (n != 7);", None),
    ],
    "names and lines": [
        (f"property p; {E} n == 2 |=> n == 4; endproperty assert property (p);", 3),
        (f"property q; n == 2 |=> n == 3; endproperty : q assert property ({E} disable iff (rst) q);", None),
        (f"sequence s; n == 1 ##1 n == 2; endsequence assert property ({E} s |=> n == 4);", 3),
        (f"property r; disable iff (n == 3) n != 3; endproperty assert property ({E} r) else $error(\"r\");", None),
        (f"property u; {E} s ##1 n == 3; endproperty assert property ({E} n == 1 |-> u);", None),
        ("property v; @(posedge clk) n != 3; endproperty assert property (v);", 3),
    ],
    "blocks": [
        (f"for (genvar i = 0; i < 1; i = i + 1) begin : g assert property ({E} n != 3 + i); end", 3),
        (f"generate if (P == 2) begin : h assert property ({E} n == 1 |-> ##P n == 3); end endgenerate", None),
        (f"case (P) 1: begin assert property ({E} 0); end default: begin assert property ({E} n != 2); end endcase", 2),
    ],
    "assumptions": [
        (f"assume property ({E} b |=> c);", ()),
        (f"assume property ({E} disable iff (rst) a[0] |-> ##2 a[1]);", ()),
        (f"assume property ({E} !a[2]);", ()),
        (f"assert property ({E} b |=> c);", None),
        (f"assert property ({E} !a[2]);", None),
        (f"assert property ({E} a[0] && !rst ##1 !rst ##1 !rst |-> a[1]);", None),
        (f"assert property ({E} a[0] && !rst ##1 1 ##1 !rst |-> a[1]);", 2),
        (f"assert property ({E} b |-> c);", 0),
    ],
}


def lines_of(assertions):
    """The text of a design, and what is so of it. Two assertions of a line are told by their order."""
    lines = [f"  {text}" for text, _ in assertions]
    first = HEAD.count("\n") + 1
    truths = []
    for at, (text, step) in enumerate(assertions):
        if step != ():
            truths.append(Truth(name_of(text), f"m.sv:{first + at}", step))
    return HEAD + "\n".join(lines) + "\nendmodule\n", truths


def name_of(text):
    block = re.search(r"begin : (g|h) ", text)
    return f"m.{block[1]}{'[0]' if block[1] == 'g' else ''}.assert" if block else "m.assert"


def form(name, room):
    """The answers of one form."""
    design_rows.need_tools(*design_rows.TOOLS)
    text, truths = lines_of(FORMS[name])
    (room.here / "m.sv").write_text(text, encoding="ascii")
    said = room.run("--json", "--quiet", "--top", "m", "m.sv")
    answers = {(it.source, it.answer, it.steps) for it in checked.answers_of(said)}
    for truth in truths:
        wanted = "never" if truth.step is None else "reached"
        found = [it for it in answers if it[0] == truth.source]
        # of two assertions in a line one may be another
        checked.need(any(it[1] == wanted and it[2] == truth.step for it in found), f"{truth} has {found}", said)
        if len(found) == 1 and truth.step is None:
            checked.need(found[0][1] == "never", f"{truth} has {found}", said)
    checked.need(len({it[0] for it in answers}) == len(truths), "other assertions", said)


DEFAULTS = """module m(input clk, input rst, input b);
  default clocking @(posedge clk); endclocking
  default disable iff (rst || b);
  reg [2:0] n = 0; always @(posedge clk) if (n != 5) n <= n + 1;
  one: assert property (n == 2 |=> n == 4);
  two: assert property (disable iff (1'b0) n == 2 |=>
         n == 4) else $error("two");
  three: assert property (@(posedge clk) n != 3 || !b);
  for (genvar i = 0; i < 2; i = i + 1) begin : g
    four: assert property (n == i |=> n == i + 1 + i);
  end
  property p;
    n == 1 |-> ##2 n == 3;
  endproperty
  five: assert property (p);
  six: assert property (!b);
endmodule
"""


def defaults(room):
    """A clock and a condition by default, and the names of assertions of loops."""
    design_rows.need_tools(*design_rows.TOOLS)
    (room.here / "m.sv").write_text(DEFAULTS, encoding="ascii")
    steps = {"one": 3, "two": 3, "three": None, "g[0].four": None, "g[1].four": 2, "five": None, "six": None}
    lines = {"one": 5, "two": 6, "three": 8, "g[0].four": 10, "g[1].four": 10, "five": 15, "six": 16}
    truths = [Truth(f"m.{name}", f"m.sv:{lines[name]}", step) for name, step in steps.items()]
    checked.judge(room.run("--top", "m", "m.sv"), truths)


def clocks(room):
    """An assertion is asked at the edges of its clock alone, where there are several."""
    design_rows.need_tools(*design_rows.TOOLS)
    text = """module m(input clk, input other, input b);
  reg low = 0; always @(negedge clk) low <= b;
  reg [1:0] n = 0; always @(posedge other) n <= n + 1;
  reg seen = 0; always @(posedge clk) seen <= low;
  kept: assert property (@(posedge clk) low |=> seen);
  held: assert property (@(posedge other) n == 1 |=> n == 2);
  half: assert property (@(negedge clk) 1 |=> seen == low);
  lost: assert property (@(posedge clk) low |=> low);
  other_clock: assert property (@(posedge clk) n == 1 |=> n == 1);
endmodule
"""
    (room.here / "m.sv").write_text(text, encoding="ascii")
    said = room.run("--frames", "12", "--quiet", "--top", "m", "m.sv")
    for name in ("kept", "held", "half", "lost", "other_clock"):
        pattern = "reached" if name in ("lost", "other_clock") else "n"
        found = re.search(rf"^m\.{name} \(m\.sv:\d+\): (.*)$", said.out, re.MULTILINE)
        checked.need(found and re.match("never|none within 12" if pattern == "n" else pattern, found[1]), name, said)


def one_more_clock(room):
    """A clock that assertions alone have is a clock."""
    design_rows.need_tools(*design_rows.TOOLS)
    text = """module m(input clk, input other, input b);
  reg last = 0; always @(posedge clk) last <= b;
  never_at_its_edge: assert property (@(posedge other) last |=> 1);
  reached: assert property (@(posedge other) !last);
endmodule
"""
    (room.here / "m.sv").write_text(text, encoding="ascii")
    said = room.run("--frames", "12", "--top", "m", "m.sv")
    checked.need("several clocks" in said.err, "clocks are not told", said)
    checked.need("m.reached (m.sv:4): reached" in said.out, "another answer", said)


def long_assumption(room):
    """What can be disabled between two edges is refused, where edges are not steps."""
    design_rows.need_tools("yosys")
    text = """module m(input clk, input other, input rst, input b, input c);
  reg x = 0; always @(posedge other) x <= b;
  sure: assume property (@(posedge clk) disable iff (rst) b |=> c);
  k: assert property (@(posedge clk) x |=> c);
endmodule
"""
    (room.here / "m.sv").write_text(text, encoding="ascii")
    checked.refused(room.run("--top", "m", "m.sv"), "disable iff of assumption sure is not taken")


def liveness(room):
    """What must come behind an edge."""
    design_rows.need_tools(*design_rows.TOOLS)
    text = HEAD.replace("!= 5) n <= n + 1", "!= 5 || b) n <= n == 5 ? 0 : n + 1") + """
  up: assert property (@(posedge clk) n == 1 |-> s_eventually n == 4);
  five: assert property (@(posedge clk) s_eventually n == 5);
  four: assert property (@(posedge clk) s_eventually n == 4);
  again: assert property (@(posedge clk) n == 5 |=> s_eventually n == 0);
  off: assert property (@(posedge clk) disable iff (n == 3) n == 1 |-> s_eventually n == 7);
  late: assert property (@(posedge clk) disable iff (n == 0) n == 1 |-> s_eventually n == 7);
endmodule
"""
    (room.here / "m.sv").write_text(text, encoding="ascii")
    has = {"up": False, "five": False, "four": True, "again": True, "off": False, "late": True}
    truths = [Truth(f"m.{name}", f"m.sv:{5 + at}", None, it) for at, (name, it) in enumerate(has.items())]
    checked.judge(room.run("--top", "m", "m.sv"), truths)


def dead_branch(room):
    """What is not compiled is not refused."""
    design_rows.need_tools(*design_rows.TOOLS)
    text = HEAD + f"""`ifdef NOWHERE
  x: assert property ({E} b throughout c);
  bind m n o(.*);
`else
  x: assert property ({E} n != 3);
`endif
endmodule
"""
    (room.here / "m.sv").write_text(text, encoding="ascii")
    checked.judge(room.run("--top", "m", "m.sv"), [Truth("m.x", "m.sv:8", 3)])
    checked.refused(room.run("-DNOWHERE", "--top", "m", "m.sv"), r"m\.sv:5: throughout is not taken; write it as")


def included_macro(room):
    """A macro of another file, out of which assertions come."""
    design_rows.need_tools("yosys")
    (room.here / "checks.svh").write_text(
        "`define CHECK(n, e) n: assert property (@(posedge clk) e)\n`define FINE(e) assert property (e)\n",
        encoding="ascii",
    )
    text = '`include "checks.svh"\n' + HEAD + "  `FINE(n != 6);\n  `CHECK(low, n != 3);\nendmodule\n"
    (room.here / "m.sv").write_text(text, encoding="ascii")
    checked.refused(room.run("--top", "m", "m.sv"), r"m\.sv:6: `CHECK, out of which an assertion comes, is not taken")


def rows():
    each = functools.partial
    for name in FORMS:
        yield f"concurrent assertions: {name}", each(form, name)
    for called, row in (
        ("defaults", defaults),
        ("several clocks", clocks),
        ("a clock of assertions alone", one_more_clock),
        ("an assumption that can be disabled", long_assumption),
        ("liveness", liveness),
        ("a branch that is not compiled", dead_branch),
        ("a macro of another file", included_macro),
    ):
        yield f"concurrent assertions: {called}", row
