"""Rows of what depends on the order of things at one edge, and of what Yosys reads and takes in a way of its own: none of
it is said to hold by Yosys's choice."""
import functools

from lib.check import checked
from lib.check.front_doubt_rows import doubted
from lib.check.front_rows import answers, inside, noted, ran, refused

REFUSED = {
    "a delay in an initial block": ("reg r; initial begin r = 0;\n#10 r = 1; end a: assert property (r);", "m.sv:3: a delay"),
    "a delay of no time": ("reg r; initial begin r = 0;\n#0 r = 1; end a: assert property (r);", "m.sv:3: a delay"),
    "a delay of a process": ("reg q; always @(posedge clk)\n#1 q <= d; a: assert property (q);", "m.sv:3: a delay"),
    "a delay within an assignment": ("reg q; always @(posedge clk)\nq = #1 d; a: assert property (q);", "m.sv:3: a delay"),
    "a clock by delays": ("reg c = 0; always\n#5 c = ~c; a: assert property (!c);", "m.sv:3: a delay"),
    "a delay by a parameter": ("localparam T = 3; reg r; initial\n#(T) r = 1; a: assert property (r);", "m.sv:3: a delay"),
    "a late first value": ("reg r; initial\nr <= #2 1; a: assert property (r);", "m.sv:3: a delay"),
    "a first value of an input": ("logic r = d[0]; a: assert property (r == d[0]);", "m.sv:2: r begins with"),
    "a first value of two": ("int r = d + s; a: assert property (r == d + s);", "m.sv:2: r begins with"),
    "an initial block of an input": ("reg r; initial r = !d[0]; a: assert property (r != d[0]);", "m.sv:2: r begins with"),
    "an initial block of another": ("reg r, t; initial r = t; initial t = 1; a: assert property (r);", "m.sv:2: r begins with"),
    "an initial choice": ("reg r; initial if (d[0]) r = 0; else r = 1; a: assert property (r);", "m.sv:2: r begins with"),
    "a first value in a loop": (
        "genvar i; for (i = 0; i < 2; i = i + 1) begin : g logic r = d[i];\nassert property (r == d[i]); end", "begins with"
    ),
    "an attribute of first values": ("(* init = 1 *) reg r; a: assert property (r);", "m.sv:2: the attribute init"),
    "one beside another": ("(* keep, init = 1'b1 *) reg r; a: assert property (r);", "m.sv:2: the attribute init"),
    "an attribute of ports": ("(* defaultvalue = 1 *) wire w; a: assert property (w);", "m.sv:2: the attribute defaultvalue"),
    "a negative value of an enum": ("enum int {A, B = -1} e; assign e = B; a: assert property (!(e < 0));", "m.sv:2: a negative"),
    "a port twice": ("wire o; inner u(.i(d[0]), .i(1'b0),\n.o(o)); a: assert property (!o);", "m.sv:2: i is connected twice"),
    "a gate taken for another": ("wire z;\nnotif0 u(z, d[0], s[0]); a: assert property (z);", "m.sv:3: notif0"),
    "a pasted promise": (
        "`define P(x) x``_case\nreg y; always @* (* `P(parallel) *) case (d[0]) 0: y = 1; 1: y = 0; endcase", "m.sv:3: a macro makes"
    ),
}
INNER = "module inner(input i, output o); assign o = i; endmodule\n"
FINE = [
    "reg q = 0; always @(posedge clk) q <= #1 0; wire #2 w = q; x: assert property (!w);",
    "reg [3:0] r, t; initial begin t = 3; r = t + 1; end always @(posedge clk) t <= t; x: assert property (r == 4 && t == 3);",
    "localparam P = 3; logic [3:0] r = P * 2; always @(posedge clk) r <= r; x: assert property (r == 6);",
    "reg [3:0] r; function [3:0] f(input [3:0] i); f = i + 1; endfunction initial r = f(3);\n"
    "always @(posedge clk) r <= r; x: assert property (r == 4);",
    "logic [3:0] r; always_comb r = d; x: assert property (r == d);",
    "reg y; always_comb begin y = 0; unique /* one */ case (s) 0: y = 1; 1: y = 1; default: ; endcase end\n"
    "x: assert property (y == (s < 2));",
    "`define ONE unique\nreg [1:0] y; always_comb `ONE case (1'b1) s[0]: y = 1; s[1]: y = 2; default: y = 0; endcase\n"
    "x: assert property (s != 3 || y == 1);",
]
#: what is z may be anything
FLOATING = {
    "an assignment": "wire z = s[0] ? d[0] : 1'bz;",
    "a gate": "wire z; bufif1 u(z, d[0], s[0]);",
    "a gate that is inverted": "wire z; notif1 u(z, ~d[0], s[0]);",
    "a process": "reg z; always @* if (s[0]) z = d[0]; else z = 1'bz;",
    "bits of a word": "wire [1:0] w = {d[1], s[0] ? d[0] : 1'bz}; wire z = w[0];",
}
BOTH_WAYS = {
    "a constant of a part": ("module part(inout o); assign o = 0; endmodule\n", "wire w; part p(w); assign w = d[0];"),
    "a constant of the whole": ("module part(inout o, input i); assign o = i; endmodule\n", "wire w; part p(w, d[0]); assign w = 0;"),
    "two parts": ("module part(inout o, input i); assign o = i; endmodule\n", "wire w; part p(w, d[0]); part q(w, 1'b0);"),
    "a part of a part": (
        "module low(inout o); assign o = 1; endmodule\nmodule part(inout o); low l(o); endmodule\n", "wire w; part p(w); assign w = d[0];"
    ),
    "bits in another order": (
        "module part(inout [1:0] o, input i); assign o[0] = i; endmodule\n", "wire [1:0] w; part p({w[0], w[1]}, d[0]); assign w[1] = 0;"
    ),
}
COUNT = "module count(input clk, output reg [1:0] c); initial c = 0; always @(posedge clk) c = c + 1; endmodule\n"
LATER = "module later(input clk, input [1:0] c, output reg [1:0] q); initial q = 3; always @(posedge clk) q <= c; endmodule\n"
RACES = {
    "of a part": "wire [1:0] c; count p(clk, c); reg [1:0] q = 3; always @(posedge clk) q <= c;",
    "with a part": "reg [1:0] c = 0; wire [1:0] q; later p(clk, c, q); always @(posedge clk) c = c + 1;",
    "of two parts": "wire [1:0] c, q; count p(clk, c); later r(clk, c, q);",
    "through an assignment": "reg [1:0] c = 0, q = 3; wire [1:0] n = c; always @(posedge clk) c = c + 1; always @(posedge clk) q <= n;",
    "of always_ff": "wire [1:0] c; count p(clk, c); logic [1:0] q = 3; always_ff @(posedge clk) q <= c;",
    "by a memory": "reg [1:0] w [0:3]; reg [1:0] q = 0; wire [1:0] c = q + 2'd1; always @(posedge clk) w[s] = 0;\n"
    "always @(posedge clk) q <= w[d[1:0]];",
}
CLOCKS = {
    "a divided one": "reg k = 0, t = 0, q = 0; always @(posedge clk) begin k <= ~k; t <= ~t; end always @(posedge k) q <= t;",
    "one divided twice": "reg k = 0, l = 0, t = 0, q = 0; always @(posedge clk) begin k <= ~k; t <= ~t; end\n"
    "always @(posedge k) l <= ~l; always @(posedge l) q <= t;",
    "one of a counter": "reg [1:0] t = 0; reg q = 0; wire k = t == 2; always @(posedge clk) t <= t + 1;\n"
    "always @(posedge k) q <= t[1];",
    "an enable": "reg k = 0, t = 0, q = 0; always @(posedge clk) begin k <= ~k; t <= ~t; end always @(posedge k) if (t) q <= 1;",
    "a gated one": "reg t = 1, q = 0; wire k = clk & t; always @(posedge clk) t <= 0; always @(posedge k) q <= 1;",
    "one gated by a choice": "reg t = 1, q = 0; wire k = t ? clk : 1'b0; always @(posedge clk) t <= 0; always @(posedge k) q <= 1;",
}
LOADED = {
    "an input": "reg [3:0] q = 0; always @(posedge clk or posedge s[0]) if (s[0]) q <= d; else q <= 0;",
    "set and reset": "reg q = 0; always @(posedge clk or posedge s[0] or posedge s[1]) if (s[0]) q <= 0; else if (s[1]) q <= 1; else q <= d;",
    "another register": "reg p = 0, q = 0; always @(posedge clk) p <= d[0]; always @(posedge clk or posedge s[0]) if (s[0]) q <= p;",
}
SURE_CLOCKS = [
    "reg e = 0; wire k = clk & e; reg q = 0, r = 0; always @(negedge clk) e <= s[0]; always @(posedge k) q <= d[0];\n"
    "always @(posedge k) r <= d[0]; x: assert property (q == r);",
    "reg e = 0, l = 0; always @* if (!clk) l = e; wire k = clk & l; reg q = 0, r = 0; always @(posedge clk) e <= s[0];\n"
    "always @(posedge k) q <= d[0]; always @(posedge k) r <= d[0]; x: assert property (q == r);",
    "reg k = 0, q = 0, r = 0; always @(posedge clk) k <= ~k; always @(negedge k) q <= ~q; always @(negedge k) r <= ~r;\n"
    "x: assert property (q == r);",
    "wire n = ~clk; reg q = 0, r = 0; always @(posedge n) q <= d[0]; always @(negedge clk) r <= d[0]; x: assert property (q == r);",
]


def two_writers(room):
    """Of two writes of one word a note says which counts."""
    text = "reg w [0:3]; integer i; initial for (i = 0; i < 4; i = i + 1) w[i] = 0;\nalways @(posedge clk) w[s] <= d[0];\n"
    noted(inside(text + "always @(posedge clk) w[d[1:0]] <= 1;\nx: assert property (w[0] || d <= 15);"),
          ["m.sv:2: w is written by several processes"], room)


def promised(room):
    """A promise that a macro of the command line makes."""
    text = "reg [1:0] y; always @* (* `PROMISE *) case (1'b1) s[0]: y = 1; s[1]: y = 2; default: y = 0; endcase"
    said = ran(room, inside(text + "\na: assert property (s != 3 || y == 3);"), "-D", "PROMISE=parallel_case")
    checked.refused(said, r"m\.sv:2: a macro makes parallel_case", status=checked.TROUBLE)


def rows():
    each = functools.partial
    for name, (text, pattern) in REFUSED.items():
        yield f"order: refused, {name}", each(refused, INNER + inside(text) if "inner" in text else inside(text), [pattern_of(text, pattern)])
    for at, text in enumerate(FINE):
        yield f"order: taken {at}", each(answers, inside(text), {"x": "never"})
    for name, text in FLOATING.items():
        whole = inside(f"{text}\na: assert property (z == d[0]);\nx: assert property (!s[0] || z == d[0]);")
        yield f"order: z by {name}", each(answers, whole, {"a": "reached", "x": "never"})
    for name, (part, text) in BOTH_WAYS.items():
        whole = part + inside(text + " a: assert property (w == 0);")
        yield f"order: both ways, {name}", each(refused, whole, ["w has several drivers"])
    for name, text in RACES.items():
        last = "\nx: assert property (q + 2'd1 == c);\nfree: assert property (d <= 15);"
        yield f"order: a race {name}", each(doubted, COUNT + LATER + inside(text + last), "write <=")
    for name, text in CLOCKS.items():
        last = "\nx: assert property (!q || t);\nfree: assert property (d <= 15);"
        yield f"order: clock, {name}", each(doubted, inside(text + last), "the clock k" if "l <=" not in text else "the clock l")
    for name, text in LOADED.items():
        last = "\nx: assert property (!s[0] || q == d);\nfree: assert property (d <= 15);"
        last = last.replace("q == d", "q == p") if "p <=" in text else last.replace("q == d", "!q") if "s[1])" in text else last
        yield f"order: loaded with {name}", each(doubted, inside(text + last), "is set or loaded asynchronously")
    for at, text in enumerate(SURE_CLOCKS):
        yield f"order: a clock of the design {at}", each(answers, inside(text), {"x": "never"})
    yield "order: two processes write a memory", two_writers
    yield "order: a promise of the command line", promised


def pattern_of(text, pattern):
    """The message, in the line that it has behind the module of a part."""
    return pattern.replace("m.sv:2", "m.sv:3") if "inner" in text else pattern
