"""Rows of --reset: designs beside the same with a reset that is written by hand, and what is refused."""
import functools
import re

from lib.check import checked, design_rows

# registers without initial value; clocked and other assertions, liveness; each is right behind a reset alone
SYNCHRONOUS = """module top(input clk, input rst, input go);
  reg [2:0] count;
  reg was;
  always @(posedge clk) if (rst) count <= 0; else if (go && count < 5) count <= count + 1;
  always @(posedge clk) was <= rst;
  fits: assert property (count < 6);
  three: assert property (count != 3);
  begun: assert property (!was);
  active: assert property (!rst);
  always @(posedge clk) if (AFTER) seen: assert (count < 6);
  always @(posedge clk) if (AFTER) four: assert (count != 4);
  assume property (s_eventually go);
  full: assert property (s_eventually count == 5);
  empty: assert property (s_eventually count == 0);
endmodule
"""
ASYNCHRONOUS = SYNCHRONOUS.replace("rst", "rst_n").replace(
    "@(posedge clk) if (rst_n)", "@(posedge clk or negedge rst_n) if (!rst_n)"
)
BOTH_EDGES = SYNCHRONOUS.replace("always @(posedge clk) was", "always @(negedge clk) was")
ANSWERS = {"fits": "never", "seen": "never", "full": "holds", "empty": "lasso"}
# a register that counts the steps of the model, and what a user would write with it
BY_HAND = """
  (* {attribute} *) reg global_clock;
  reg [{last}:0] done = 0;
  always @(posedge {clock}) done <= {{done, 1'b1}};
  assume property (rst{low} == {active}done[{last}]);
"""


def by_hand(text, low, steps):
    """The design with a reset of so many steps that is written by hand."""
    active = "" if low else "!"
    clock, attribute = ("global_clock", "gclk") if "negedge clk" in text else ("clk", "unused")
    names = {"clock": clock, "attribute": attribute, "low": "_n" if low else ""}
    added = BY_HAND.format(last=steps - 1, active=active, **names)
    text = text.replace("AFTER", f"done[{steps - 1}]")
    text = re.sub(r"assert property \((?!s_)(.*)\);", rf"assert property (!done[{steps - 1}] || (\1));", text)
    return text.replace("endmodule", added + "endmodule")


def said_of(room, text, *words):
    (room.here / "top.sv").write_text(text, encoding="ascii")
    said = room.run("--quiet", "--frames", "12", *words, "--top", "top", "top.sv")
    return {it.name: (it.answer, it.steps if it.answer == "reached" else None) for it in checked.of_lines(said)}


def beside(text, low, steps, room):
    """What is said with the option, and by hand."""
    design_rows.need_tools(*design_rows.TOOLS)
    option = ["--reset", "!rst_n" if low else "rst", "--reset-steps", str(steps)]
    came, wanted = said_of(room, text.replace("AFTER", "1"), *option), said_of(room, by_hand(text, low, steps))
    checked.need(came == wanted, f"{came} with the option, {wanted} by hand")
    for name, answer in ANSWERS.items() if text is not BOTH_EDGES else ():
        checked.need(came[f"top.{name}"][0] == answer, f"{name} is not {answer}: {came}")


def hinted(room):
    """Without it what fails at once names the registers and the option."""
    design_rows.need_tools(*design_rows.TOOLS)
    (room.here / "top.sv").write_text(SYNCHRONOUS.replace("AFTER", "1"), encoding="ascii")
    said = room.run("--quiet", "--top", "top", "top.sv")
    for name, register in (("fits", "count"), ("seen", "count"), ("begun", "was")):
        words = rf"top.{name} \(top.sv:\d+\) fails at once, and register {register} has no initial value: --reset NAME"
        checked.need(re.search(words, said.err), f"{name} has no hint", said)
    checked.need("top.active (" not in said.err, "a hint where no register is", said)
    said = room.run("--top", "top", "--reset", "rst", "top.sv")
    checked.need("fails at once" not in said.err, "a hint behind a reset", said)


def refused(words, why, status, room):
    design_rows.need_tools(*design_rows.TOOLS)
    (room.here / "top.sv").write_text(SYNCHRONOUS.replace("AFTER", "1").replace("go;", "[1:0] go;"), encoding="ascii")
    (room.here / "model.aag").write_text("aag 0 0 0 0 0 1\n0\n", encoding="ascii")
    checked.refused(room.run(*words), why, status=status)


REFUSED = [
    ("no such input", ("--reset", "reset", "--top", "top", "top.sv"), "no such input", checked.TROUBLE),
    ("a register", ("--reset", "was", "--top", "top", "top.sv"), "no such input", checked.TROUBLE),
    ("a word", ("--reset", "count", "--top", "top", "top.sv"), "no such input", checked.TROUBLE),
    ("no name", ("--reset", "!", "--top", "top", "top.sv"), "--reset", checked.USAGE),
    ("a name of two words", ("--reset", "a b", "--top", "top", "top.sv"), "--reset", checked.USAGE),
    ("of a model", ("--reset", "rst", "model.aag"), "Verilog", checked.USAGE),
    ("of two designs", ("--equal", "--reset", "rst", "--top", "top", "top.sv", "top.sv"), "one design", checked.USAGE),
    ("no steps", ("--reset", "rst", "--reset-steps", "0", "--top", "top", "top.sv"), "number", checked.USAGE),
    ("steps alone", ("--reset-steps", "2", "--top", "top", "top.sv"), "--reset", checked.USAGE),
]


def rows():
    designs = [("synchronous", SYNCHRONOUS, False), ("asynchronous", ASYNCHRONOUS, True), ("two edges", BOTH_EDGES, False)]
    for called, text, low in designs:
        for steps in (1, 2, 5):
            yield f"reset: {called}, {steps} steps", functools.partial(beside, text, low, steps)
    yield "reset: a hint", hinted
    for called, *row in REFUSED:
        yield f"reset refused: {called}", functools.partial(refused, *row)
