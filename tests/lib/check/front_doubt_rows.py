"""Rows of processes that a simulation may take in another way than Yosys, of parameters and clocks that are named: what
may be so by Yosys's choice alone is never said to hold."""
import functools

from lib.check import checked, design_rows
from lib.check.front_rows import inside, ran, written

LISTS = {
    "a name is missing": "reg y; always @(s) y = s[0] & d[0];",
    "a bit alone is named": "reg y; always @(d[0] or s) y = s[0] & d[1];",
    "a level of the clock": "reg y; always @(clk) y = s[0] & d[0];",
    "a name of a condition is missing": "reg y; always @(d) if (s[0]) y = d[0]; else y = 0;",
    "an index is missing": "reg y; always @(d) begin y = 0; y = d[s]; end",
    "in a part": "wire y; part p(d, y);",
}
PART = "module part(input [3:0] d, output reg y); always @(d[0]) y = d[0] & d[1]; endmodule\n"
WHOLE = [
    "reg y; always @(s or d) y = s[0] & d[0];",
    "reg y; always @(s, d) begin y = 0; if (s[0]) y = d[0]; end",
    "reg y; always @* y = s[0] & d[0];",
    "reg y; always @(*) y = s[0] & d[0];",
    "logic y; always_comb y = s[0] & d[0];",
    "reg y; reg t; integer i; always @(s, d) begin t = d[0]; for (i = 0; i < 2; i = i + 1) t = t; y = t & s[0]; end",
    "localparam K = 1; reg y; always @(s, d) y = (s[0] & d[0]) == K;",
]
RACES = {
    "another register": "reg a = 0, b = 0; always @(posedge clk) a = d[0]; always @(posedge clk) b <= a;",
    "a condition": "reg a = 0, b = 0; always @(posedge clk) a = d[0]; always @(posedge clk) if (a) b <= 1;",
    "an assumption": "reg a = 0, b = 0; always @(posedge clk) begin a = d[0]; b <= a; end\n"
    "always @(posedge clk) begin assume (a != d[3]); end",
    "bits": "reg [1:0] a = 0; reg b = 0; always @(posedge clk) a[0] = d[0]; always @(posedge clk) b <= a[0];",
    "what an assumption reads": "reg a = 0, b = 0; always @(posedge clk) a = d[0]; always @(posedge clk) b <= a;\n"
    "assume property (b == 0);",
}
NO_RACES = [
    "reg a = 0, b = 0; always @(posedge clk) begin a = d[0]; b <= a; end x: assert property (b || !b);",
    "integer i; reg [1:0] a = 0, b = 0; always @(posedge clk) for (i = 0; i < 2; i = i + 1) a[i] <= d[i];\n"
    "always @(posedge clk) for (i = 0; i < 2; i = i + 1) b[i] <= d[i]; x: assert property (a == b);",
    "reg a = 0, b; always @(posedge clk) a = d[0]; always @* b = a; x: assert property (b == a);",
]


def doubted(text, pattern, room):
    """An assertion that is unknown, with the reason; what does not depend on it is shown."""
    said = ran(room, text)
    found = {it.name.partition(".")[2]: it for it in checked.answers_of(said)}
    checked.need(found["x"].answer == "unknown" and pattern in found["x"].reason, f"{pattern!r} is due", said)
    checked.need("free" not in found or found["free"].answer == "never", "another one is not shown", said)
    checked.need(said.status == checked.UNKNOWN, "another status", said)


def sure(text, room):
    """One that is shown."""
    said = ran(room, text)
    checked.need([it.answer for it in checked.answers_of(said)] == ["never"], "it is not shown", said)


FILL = "integer i, j; initial for (i = 0; i < 3; i = i + 1) for (j = 0; j < 4; j = j + 1)"
ARRAYS = {
    "an inner index": f"reg [1:0] w [0:2][0:3]; {FILL} w[i][j] = 0; x: assert property (w[0][d[2:0]] == 0);",
    "the inner one of three": "reg w [0:1][0:2][0:1]; x: assert property (w[0][s][0] == w[0][s][0] || d > 15);\n"
    "always @(posedge clk) w[0][s][1] <= w[0][s][0];",
    "a size by its number": "reg w [2][3]; always @(posedge clk) w[0][s] <= 1; x: assert property (w[1][0] || d <= 15);",
    "where it is written": "reg w [0:2][0:2]; reg q = 0, r = 0; always @(posedge clk) begin w[0][s] <= d[0];\n"
    "q <= w[1][0]; r <= w[1][0]; end x: assert property (q == r);",
}
SURE_ARRAYS = [
    f"reg [1:0] w [0:2][0:3]; {FILL} w[i][j] = 0; x: assert property (w[1][s] == 0);",
    "reg w [0:1][0:3]; reg q = 0, r = 0; always @(posedge clk) begin w[1][s] <= d[1]; q <= w[1][0]; r <= w[1][0]; end\n"
    "x: assert property (q == r);",
]
PARAMETERS = {
    "W=4": ("reached", "reached", "never"),
    "W=2": ("never", "reached", "never"),
    'NAME="a b;c"': ("never", "never", "never"),
    "K=8'hff": ("never", "reached", "reached"),
    "K=-1": ("never", "reached", "reached"),
}
WITH_PARAMETERS = (
    'module m #(parameter W = 2, parameter NAME = "abc", parameter [7:0] K = 3)(input [W-1:0] d);\n'
    'a: assert property (d != 7);\nb: assert property (NAME == "a b;c");\nc: assert property (K != 8\'hff);\nendmodule\n'
)
NO_PARAMETERS = {
    "NONE=3": "-P NONE: the top module has no such parameter",
    "W=abc": "-P W: abc is not a number",
    "W=4;shell touch hacked": "-P W: 4;shell touch hacked is not a number",
    "W=99999999999": "-P W: 99999999999 is not a number",
    'NAME="a"b"': "-P NAME: ",
}


def with_parameter(word, wanted, room):
    said = ran(room, WITH_PARAMETERS, "-P", word)
    found = tuple(it.answer for it in checked.answers_of(said))
    checked.need(found == wanted, f"{wanted} is due", said)


def without_parameter(word, message, room):
    said = ran(room, WITH_PARAMETERS, "-P", word)
    checked.need(said.status == checked.TROUBLE and message in said.err and not said.out, "it is not refused", said)


TWO_CLOCKS = (
    "module m(input clk, input other, input [1:0] c); reg a = 0, b = 0;\nalways @(posedge clk) a <= 1;\n"
    "always @(posedge other) b <= 1; x: assert property (a + b < 3);\nendmodule\n"
)


def clocks(words, message, room):
    """Clocks that are named: any other one is refused."""
    design_rows.need_tools(*design_rows.TOOLS)
    written(room, {"m.sv": TWO_CLOCKS})
    said = room.run(*words, "--top", "m", "m.sv")
    if message:
        checked.need(said.status == checked.TROUBLE and message in said.err and not said.out, "it is not refused", said)
    else:
        checked.judge(said, [checked.Truth("m.x", "m.sv:3", None)])


def rows():
    each = functools.partial
    last = "\nx: assert property (y == (s[0] & d[0]) || y != (s[0] & d[0]));\nfree: assert property (d <= 15);"
    for name, text in LISTS.items():
        row = each(doubted, PART * ("part" in text) + inside(text + last), "it reads: write always @*")
        yield f"front: a list of a process, {name}", row
    for at, text in enumerate(WHOLE):
        yield f"front: a whole list {at}", each(sure, inside(text + "\nx: assert property (y == (s[0] & d[0]));"))
    last = "\nreg q = 0, r = 0; always @(posedge clk) begin q <= b; r <= b; end\nx: assert property (q == r);\n"
    for name, text in RACES.items():
        more = "" if "assume" in text else "free: assert property (d <= 15);"
        yield f"front: a race with {name}", each(doubted, inside(text + last + more), "write <=")
    for at, text in enumerate(NO_RACES):
        yield f"front: no race {at}", each(sure, inside(text))
    for name, text in ARRAYS.items():
        yield f"front: an array, {name}", each(doubted, inside(text), "an index of w may be out of range")
    for at, text in enumerate(SURE_ARRAYS):
        yield f"front: an index within {at}", each(sure, inside(text))
    for word, wanted in PARAMETERS.items():
        yield f"front: -P {word}", each(with_parameter, word, wanted)
    for word, message in NO_PARAMETERS.items():
        yield f"front: no -P {word}", each(without_parameter, word, message)
    both = ["--clock", "clk", "--clock", "other"]
    yield "front: clocks that are named", each(clocks, both, None)
    yield "front: no clock is named", each(clocks, [], None)
    yield "front: a clock that is not named", each(clocks, both[:2], "other is a clock too")
    yield "front: a clock that is none", each(clocks, [*both, "--clock", "none"], "--clock none: the design has no such input")
