"""Rows of what is not taken of concurrent assertions: each construct with its place and what to write. No tool is
needed."""
import functools
import re
import sys

from lib.check import checked

sys.path.append(str(checked.TOP / "python"))
from aiger_check.front.sva.rewriting import macros_of, rewritten

E = "@(posedge clk)"
REGISTERS = "write it as registers"

# items of a module, each with what is not taken of it and what to write instead
REFUSED = {
    f"assert property ({E} a throughout b ##1 c);": ("throughout", REGISTERS),
    f"assert property ({E} a |-> b ##1 (c throughout d));": ("throughout", REGISTERS),
    f"assert property ({E} (a ##1 b) within (c ##3 d));": ("within", REGISTERS),
    f"assert property ({E} (a ##1 b) intersect (c ##1 d));": ("intersect", REGISTERS),
    f"assert property ({E} first_match(a ##[1:2] b) |-> c);": ("first_match", REGISTERS),
    f"assert property ({E} a |-> b until c);": ("until", REGISTERS),
    f"assert property ({E} a |-> b s_until c);": ("s_until", REGISTERS),
    f"assert property ({E} a until_with b);": ("until_with", REGISTERS),
    f"assert property ({E} a [->2] |-> b);": ("[->", REGISTERS),
    f"assert property ({E} a [=2] |-> b);": ("[=", REGISTERS),
    f"assert property ({E} a [+] |-> b);": ("[+]", REGISTERS),
    f"assert property ({E} a [*] ##1 b |-> c);": ("this repetition", "a number from 1 to 64"),
    f"assert property ({E} a [*0:2] ##1 b |-> c);": ("this repetition", "a number from 1 to 64"),
    f"assert property ({E} a [*0] ##1 b |-> c);": ("this repetition", "a number from 1 to 64"),
    f"assert property ({E} a [*P] ##1 b |-> c);": ("this repetition", "a number from 1 to 64"),
    f"assert property ({E} a ##[1:$] b |-> c);": ("##[1:$]", "two numbers"),
    f"assert property ({E} a ##[1:P] b |-> c);": ("##[1:P]", "two numbers"),
    f"assert property ({E} a ##[*] b |-> c);": ("##[*]", "two numbers"),
    f"assert property ({E} a ##[3:1] b |-> c);": ("##[3:1]", "two numbers"),
    f"assert property ({E} a ##99999 b |-> c);": ("a delay of 99999 steps", "a counter"),
    f"assert property ({E} a |-> ##[1:3] b ##1 c);": ("##[M:N] in front of more", "write what follows"),
    f"assert property ({E} a |-> strong(b ##1 c));": ("strong", "leave it out"),
    f"assert property ({E} a |-> weak(b ##1 c));": ("weak", "leave it out"),
    f"assert property ({E} a |-> nexttime b);": ("nexttime", "##1"),
    f"assert property ({E} a |-> s_nexttime b);": ("s_nexttime", "##1"),
    f"assert property ({E} a |-> always b);": ("always", "leave it out"),
    f"assert property ({E} a |-> eventually [1:3] b);": ("eventually", "s_eventually"),
    f"assert property ({E} (a |-> s_eventually b) and c);": ("s_eventually here", "alone"),
    f"assert property ({E} not s_eventually b);": ("s_eventually inside|s_eventually", ""),
    f"cover property ({E} s_eventually b);": ("s_eventually of cover", "assert or assume"),
    f"assert property ({E} a |-> s_eventually b ##1 c);": ("## inside an expression", ""),
    f"assert property ({E} accept_on(a) b |=> c);": ("accept_on", "disable iff"),
    f"assert property ({E} reject_on(a) b);": ("reject_on", REGISTERS),
    f"assert property ({E} a #-# b);": ("#-#", REGISTERS),
    f"assert property ({E} a |-> s.triggered);": (".triggered", REGISTERS),
    f"assert property ({E} case (a) 1: b; endcase);": ("case", "if and else"),
    f"assert property ({E} (a, x = b) |-> c == x);": ("an assignment (=)", "always block"),
    f"assert property ({E} a++ |-> c);": ("an assignment (++)", "always block"),
    f"assert property ({E} a ##1 @(posedge d) b);": ("a second clock", "one assertion for each"),
    "assert property (@(posedge clk or posedge d) a);": ("an assertion of several clocks", "one assertion for each"),
    "assert property (@(posedge clk iff a) b);": ("a condition of the clock", "|->"),
    "assert property (@(clk) b);": ("a clock without posedge", "posedge clk"),
    "assert property (@clk b);": ("a clock without posedge", "posedge clk"),
    "assert property (@(posedge (clk && a)) b);": ("a clock that is an expression", "an assign"),
    "assert property (@(posedge !clk) b);": ("a clock that is an expression", "an assign"),
    "assert property (@(posedge $global_clock) b);": ("this clock", "of a clock of the design"),
    "assert property (a |-> b);": ("an assertion without a clock", "@(posedge clk)"),
    "assert property (a |=> s_eventually b);": ("an assertion without a clock", "@(posedge clk)"),
    "assert property (disable iff (a) b);": ("an assertion without a clock", "@(posedge clk)"),
    "assert property (not a);": ("an assertion without a clock", "@(posedge clk)"),
    f"assert property ({E} disable iff ($rose(a)) b);": ("$rose in disable iff", "a register"),
    f"assert property ({E} disable (a) b);": ("this disable", "disable iff (rst)"),
    f"assert property ({E} (a |-> b) |-> c);": ("a property on the left of |->", "a sequence"),
    f"assert property ({E} not a |-> b);": ("a property on the left of |->", "a sequence"),
    f"assert property ({E} (a ##1 b) and (c ##1 d) |-> a);": ("a property on the left of |->", "a sequence"),
    f"assert property ({E} (a ##1 b) or (c ##2 d));": ("or of two properties of several steps", REGISTERS),
    f"assert property ({E} (a |=> b) or (c |=> d));": ("or of two properties of several steps", REGISTERS),
    f"assert property ({E} (a |=> b) iff c);": ("iff of properties of several steps", REGISTERS),
    f"assert property ({E} not (a |=> b));": ("not of a property of several steps", "write what must hold"),
    f"assert property ({E} not (a ##[1:2] b));": ("not of a property of several steps", "write what must hold"),
    f"assert property ({E} a ##1 (b |-> c));": ("a property inside a sequence", "a sequence of expressions"),
    f"assert property ({E} a && (b |-> c));": ("|-> inside an expression", "apart"),
    f"assert property ({E} a ##1 not b);": ("not inside an expression", "apart"),
    f"assert property ({E} );": ("nothing in the place of an expression", ""),
    f"assert property ({E} a |-> );": ("nothing in the place of an expression", ""),
    f"assert property ({E} $isunknown(a));": ("$isunknown", "nothing is x in a model"),
    f"assert property ({E} $sampled(a));": ("$sampled", "leave it out"),
    f"assert property ({E} $countbits(a, 1) == 1);": ("$countbits", "as an expression"),
    f"assert property ({E} $past(a, 1, b));": ("$past with these arguments", "no clock and no condition"),
    f"assert property ({E} $past(a, 1, , {E}));": ("a second clock|$past with these", ""),
    f"assert property ({E} $rose(a, {E}));": ("a second clock|$rose with these", ""),
    f"assert property ({E} $past(a, 0));": ("$past of no step", "the value itself"),
    f"assert property ({E} $past($past(a)));": ("$past of $past(..)", "an assign"),
    f"assert property ({E} $stable(f(a)));": ("$stable of f(..)", "an assign"),
    f"assert property ({E} a -> b);": ("->", "!a || b"),
    f"assert property ({E} a <-> b);": ("<->", "!a == !b"),
    f"assert property ({E} a inside {{1, 2}});": ("inside", "comparisons"),
    f"assert property ({E} a dist {{1 := 2}});": ("dist", ""),
    f"cover property ({E} not a);": ("a cover of this property", "registers and a cover"),
    f"cover property ({E} if (a) b);": ("a cover of this property", "registers and a cover"),
    f"cover property ({E} (a |-> b) and c);": ("a property on the left|a cover of this property", ""),
    f"cover sequence ({E} a ##1 b);": ("cover sequence", "cover property"),
    f"expect ({E} a);": ("expect", "assert property"),
    f"assert property ({E} a) else q <= 1;": ("the action q", "$error"),
    f"assert property ({E} a) count++;": ("the action count", "$error"),
    f'assert property ({E} a) else begin $error("x"); q = 1; end': ("the action q", "$error"),
    f'assert property ({E} a) else $error("%d", f(a));': ("f in an action", "signals alone"),
    f'assert property ({E} a) else $error("%d", q++);': ("++ in an action", "signals alone"),
    f"assert property ({E} a) $finish;": ("the action $finish", "$error"),
    f'assert property ({E} a) else `uvm_error("a", "b")': ("the action `uvm_error", "$error"),
    f"if (P) assert property ({E} a |=> b);": ("an assertion alone under if, else or for", "begin and end"),
    f"if (P) begin end else assert property ({E} a |=> b);": (
        "an assertion alone under if, else or for", "begin and end",
    ),
    f"for (genvar i = 0; i < 2; i++) assert property ({E} a |=> b);": ("an assertion alone under", "begin and end"),
    f"case (P) 1: assert property ({E} a |=> b); endcase": ("an assertion alone under", "begin and end"),
    f"always {E} assert property ({E} a);": ("a concurrent assertion in a procedure", "outside of the always block"),
    f"always {E} assert property (a |=> b);": ("a concurrent assertion in a procedure", "outside of the always block"),
    f"always {E} if (a) begin x: assert property (a |=> b); end": ("a concurrent assertion in a procedure", "outside"),
    f"initial assert property ({E} a);": ("a concurrent assertion in a procedure", "outside of the always block"),
    "assert #0 (a);": ("assert #0", "assert property"),
    "global clocking @(posedge clk); endclocking": ("global clocking", "at each assertion"),
    "default clocking cb @(posedge clk); input a; endclocking": ("a clocking block with signals", "at each assertion"),
    "default clocking cb;": ("a default clocking that was not declared before", "at each assertion"),
    f"property p(x); {E} x; endproperty assert property (p(a));": ("p inside an expression", "alone"),
    f"property p; bit x; {E} (a, x = b) |=> x; endproperty assert property (p);": (
        "p, which has variables,", "stands for",
    ),
    f"property p; {E} a |=> p; endproperty assert property (p);": ("a property of itself|a second clock", ""),
    "property p; a |=> p; endproperty assert property (@(posedge clk) p);": ("a property of itself", ""),
    f"property p; {E} a; endproperty assert property (@(posedge d) p);": ("a second clock", "one of both places"),
    f"property p; {E} a; endproperty assert property (@(posedge d) b |-> p);": ("a second clock", ""),
    f"property p; {E} a; endproperty assert property (p || b);": ("p inside an expression", "alone"),
    f"property p; {E} a; endproperty wire q = p;": ("p here", "alone"),
    f"property p; {E} a; endproperty begin : g assert property (p); end": (
        "p, which is declared outside", "stands for",
    ),
    f"property p; {E} a; endproperty property p; b; endproperty assert property (p);": (
        "p, which is declared twice,", "",
    ),
    "checker k(a); endchecker": ("checker", "as a module"),
    f"assert property ({E} a\n`ifdef X\n && b\n`endif\n);": ("a directive inside an assertion", "around the whole"),
    f"`ifdef X\nproperty p; {E} a; endproperty\n`endif\nassert property (p);": ("p, which depends on `ifdef,", ""),
    f"`ifdef X\ndefault disable iff (a);\n`endif\nassert property ({E} b);": ("depends on `ifdef", "at the assertion"),
    f"`define A(e) assert property ({E} e)\n`A(a);": ("`A, out of which an assertion comes,", "itself in its place"),
    f"`define A(e) \\\n  x: assert property \\\n ({E} e)\n`define B(e) `A(e)\n`B(a);": (
        "`B, out of which", "in its place",
    ),
    "`define A(e) assert property (e) else $error\n`A(a);": ("`A, out of which an assertion comes,", "in its place"),
    "`define A(e) assume property (e)\ndefault disable iff (a);\n`A(b);": (
        "`A beside default clocking", "in its place",
    ),
    "`define A(n, e) n: assert property (e);\n`A(x, a |-> b)": ("`A of a property", "itself in its place"),
    "`define A(n, e) n: assert property (e);\n`A(x, not a)": ("`A of a property", "itself in its place"),
    '`include "x.svh"\ndefault disable iff (a);': ("`include beside default clocking", "elsewhere"),
    "default disable iff (a);\nassert property (b);": ("an assertion without a clock", "@(posedge clk)"),
    "`define DIS disable iff (a)\nassert property (@(posedge clk) `DIS b);": ("`DIS of a property", "in its place"),
    "`define EDGE @(posedge clk)\nassert property (`EDGE b |=> c);": ("`EDGE of a property", "in its place"),
    "`define P a |-> b\n`define Q `P\nassert property (@(posedge clk) c || `Q);": ("`Q of a property", "in its place"),
    "`ifdef X\nclocking cb @(posedge a); endclocking\n`else\nclocking cb @(posedge b); endclocking\n`endif\n"
    "assert property (@(cb) c);": ("cb, which depends on `ifdef,", "at each assertion"),
    "`ifdef X\nclocking cb @(posedge a); endclocking\n`endif\ndefault clocking cb;": ("cb, which depends on", ""),
    f"default disable iff (a);\nalways {E} assert property (b);": ("a concurrent assertion in a procedure", "outside"),
}
# what stands outside of a module
OUTSIDE = {
    f"interface i(input clk); logic a; assert property ({E} a |=> a); endinterface": "assertion inside interface",
    f"program p(input clk); assert property ({E} clk |=> clk); endprogram": "assertion inside program",
    f"package p; property q; {E} a; endproperty endpackage": "property outside of a module",
    f"property q; {E} a; endproperty": "property outside of a module",
}


def refuses(item, construct, hint, _):
    """What is not taken is told with its line, and Yosys ends there."""
    text = f"module m(input clk, a, b, c, d);\n  parameter P = 1;\n{item}\nendmodule\n"
    judge(text, construct, hint, range(3, 3 + item.count("\n") + 1))


def judge(text, construct, hint, lines):
    found = rewritten(text, "a file.sv")
    said = [str(it) for it in found.refused.values()]
    checked.need(said, "nothing is refused", text)
    pattern = r"a file\.sv:(\d+): (.*?) is not taken; (.*)"
    parts = [re.fullmatch(pattern, it) for it in said]
    checked.need(all(parts), "another form", said)
    named = [it for it in parts if any(word in it[2] for word in construct.split("|") if word) or construct in it[2]]
    checked.need(any(int(it[1]) in lines and hint in it[3] for it in named), f"{construct}: {hint} is not said", said)
    for marker in found.refused:
        checked.need(f"`{marker} " in found.text, "Yosys would go on", found.text)
    checked.need(found.text.count("\n") == text.count("\n"), "lines moved", found.text)


def outside(text, construct, _):
    judge(text + "\n", construct, "", range(1, 2))


LEFT = """// assert property (@(posedge clk) a throughout b);
/* property p; */ module m(input clk, a, b); wire x = a ? b : a;
  string s = "assert property (@(posedge clk) a within b);";
  always @(posedge clk) begin : here x1: assert (a); assume (b); cover (a && b); end
  assert property (a); always @* assert property (a); live: assert property (s_eventually b); \\assert  u(clk);
  initial assume (a); assume property (eventually a); cover property (a); restrict property (b);
`define EACH(e) always @(posedge clk) assert property (e);
`EACH(a)
`ifdef X
  `FINE(a |-> b)
  always @(posedge clk or negedge a) begin
`else
  always @(posedge clk) begin wait fork; disable fork;
`endif
    if (a) assert (b); else assume (a);
  end
`BEGIN if (a) begin assert (b); end `END
  assert property (b);
  generate
`ifdef X
  if (1) begin : g
`else
  if (0) begin : h
`endif
  end
  endgenerate
  assert (a); assert final (a);
endmodule
"""
# what is rewritten there shows that each scope has ended
AFTER = LEFT.replace("assert (a); assert final (a);", "x: assert property (@(posedge clk) a);")


def left(_):
    """What Yosys takes as it is stays so, letter by letter."""
    found = rewritten(LEFT, "m.sv")
    checked.need(found.text == LEFT and not found.taken and not found.refused, "it is changed", found)
    found = rewritten(AFTER, "m.sv")
    is_labelled = re.search(r" x : assert property \(\w+asked\);", found.text)
    checked.need(len(found.taken) == 1 and not found.refused and is_labelled, "the scope is another", found)


def lines(_):
    """Each line stays where it is, and each assertion begins in its own."""
    text = """module m(input clk, a, b);
  x: assert property (
    @(posedge clk) // why
    disable iff (a) /* and
    more */ b
    |=> a) else
    $error("no"); wire after;
  property p;
    @(posedge clk) b;
  endproperty : p wire then;
  y: assert
     property (p);
endmodule
"""
    found = rewritten(text, "m.sv")
    came, wanted = found.text.split("\n"), text.split("\n")
    checked.need(len(came) == len(wanted), "lines moved", found.text)
    for at, words in ((2, "x : assert"), (7, "wire after;"), (10, "wire then;"), (11, "y : assert"), (13, "endmodule")):
        near = came[at - 1]
        is_there = words in near or words == "wire after;" and words in found.text
        checked.need(is_there, f"{words} is not in {at}", found.text)
    checked.need([(it.line, it.label) for it in found.taken] == [(2, "x"), (11, "y")], "other lines", found.taken)


def odd_texts(_):
    """Whatever a text is, it has an answer, and lines stay."""
    whole = "\n".join([*REFUSED, *OUTSIDE, LEFT])
    pieces = [whole[at : at + size] for size in (7, 40, 300) for at in range(0, len(whole) - size, 61)]
    for piece in pieces:
        for text in (piece, f"module m; {piece}", f"module m;\n{piece}\nendmodule", f"assert property ({piece}"):
            found = rewritten(text, "x")
            checked.need(found.text.count("\n") == text.count("\n"), "lines moved", text)
    checked.need(macros_of("`define A(x) x + \\\n 1\n`define B")["A"].split() == ["(x)", "x", "+", "1"], "a macro", "")


def rows():
    each = functools.partial
    for item, (construct, hint) in REFUSED.items():
        yield f"not taken: {item}", each(refuses, item, construct, hint)
    for text, construct in OUTSIDE.items():
        yield f"not taken: {text}", each(outside, text, construct)
    yield "assertions that are left as they are", left
    yield "lines of assertions", lines
    yield "assertions in odd texts", odd_texts
