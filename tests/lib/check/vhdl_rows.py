"""Rows of designs in VHDL: what is said of them, what ghdl loses and is refused for, and the Verilog that is made of
what ghdl writes."""
import functools
import os
import shutil

from lib.check import checked, design_rows
from lib.check.piece_rows import piece, refused

FOLDER = checked.TOP / "tests" / "vhdl"
TOOLS = ["ghdl", *design_rows.TOOLS]

COUNTER = {
    "counter.clocked (counter.vhd:20)": "never",
    "counter.assert (counter.vhd:21)": "reached at 4",
    "counter.fits (counter.vhd:25)": "never",
    "counter.smaller (counter.vhd:26)": "reached at 9",
}
PSL = {
    "psl.fits (psl.vhd:21)": "never",
    "psl.low (psl.vhd:22)": "reached at 5",
    "psl.handed (psl.vhd:24)": "never",
    "psl.never_both (psl.vhd:25)": "reached at 0",
}
WHOLE = {
    "whole.first.within_ (parts.vhd:33)": "never",
    "whole.second.within_ (parts.vhd:33)": "never",
    "whole.first.below (parts.vhd:34)": "reached at 3",
    "whole.second.below (parts.vhd:34)": "never",
    "whole.started (whole.vhd:37)": "reached at 2",
    "whole.same (whole.vhd:38)": "never",
    "whole.kept (whole.vhd:39)": "never",
    "whole.each_less (whole.vhd:41)": "never",
    "whole.each_less_2 (whole.vhd:41)": "reached at 1",
}
COVERED = {"psl.twice (psl.vhd:26)": "covered at 2", "psl.impossible (psl.vhd:27)": "never"}
BOUNDED = {key: value.replace("never", "none within 8") for key, value in COUNTER.items()}
BOUNDED["counter.smaller (counter.vhd:26)"] = "none within 8"
SAID = [
    ("a counter", ("--top", "counter", "counter.vhd"), COUNTER),
    ("a top in other letters", ("--top", "Counter", "counter.vhd"), {f"C{key[1:]}": it for key, it in COUNTER.items()}),
    ("a generic", ("--top", "counter", "-P", "LAST=11", "counter.vhd"),
     {**COUNTER, "counter.smaller (counter.vhd:26)": "reached at 11"}),
    ("few steps", ("--mode", "bmc", "--frames", "8", "--top", "counter", "counter.vhd"), BOUNDED),
    ("PSL", ("--top", "psl", "psl.vhd"), PSL),
    ("covers", ("--mode", "cover", "--top", "psl", "psl.vhd"), COVERED),
    ("several files", ("--top", "whole", "parts.vhd", "whole.vhd"), WHOLE),
    ("a list of files", ("--top", "whole", "-f", "whole.f"), WHOLE),
    ("a reset", ("--reset", "!rst_n", "--top", "whole", "parts.vhd", "whole.vhd"),
     {**WHOLE, "whole.started (whole.vhd:37)": "reached at 3"}),
]

HEAD = "library ieee;\nuse ieee.std_logic_1164.all;\nuse ieee.numeric_std.all;\n"


def design(body, declared="", ports="clk : in std_logic; a, b : in unsigned(7 downto 0); y : out unsigned(7 downto 0)"):
    """A small design, whose body begins in line 7."""
    head = f"{HEAD}entity top is port ({ports}); end top;\narchitecture rtl of top is {declared}\n"
    return f"{head}begin\n{body}\nend rtl;\n"


# of each assertion what is so in VHDL: a difference of the two tables would be a wrong answer
RIGHT = [
    ("a quotient with a sign", "  assert signed(a) / 2 <= 63; assert signed(a) / 2 > -64;", ["never", "reached at 0"]),
    ("the rest of a quotient",
     "  assert signed(a) rem 3 > -3; assert signed(a) mod 3 >= 0; assert signed(a) mod 3 < 2;",
     ["never", "never", "reached at 0"]),
    ("a shift with a sign", "  assert shift_right(signed(a), 7) = 0 or shift_right(signed(a), 7) = -1;", ["never"]),
    ("the last branch",
     "  with a(1 downto 0) select y <= x\"01\" when \"00\", x\"02\" when \"01\", x\"03\" when others;\n"
     "  assert y /= 0 and y < 4; assert y /= 3;", ["never", "reached at 0"]),
    ("what is smaller and larger", "  assert minimum(a, b) <= a and maximum(signed(a), signed(b)) >= signed(b);\n"
     "  assert abs signed(a) >= 0;", ["never", "reached at 0"]),
    ("resize with a sign", "  assert resize(signed(a), 4) >= 0 or signed(a) < 0; assert resize(signed(a), 4) >= 0;",
     ["never", "reached at 0"]),
    ("a severity", "  assert a < 9 severity note;", ["reached at 0"]),
    ("a signal that nobody drives", "  assert not (s = '1' and s = '0'); assert s = '0';", ["never", "reached at 0"]),
    ("what is left open", "  y <= a when b = 0 else (others => '-'); assert b > 0 or y = a; assert y = a;",
     ["never", "reached at 0"]),
    ("a loop", "  process(clk) begin if rising_edge(clk) then for i in 0 to 7 loop next when b(i) = '1';\n"
     "  found : assert a(i) = '0' or b /= 254; end loop; end if; end process;", ["reached at 1", *["never"] * 7]),
    ("an asynchronous reset", "  process(clk, b) begin if b(0) = '1' then null; elsif rising_edge(clk) then\n"
     "  assert b(0) = '0'; assert a < 9; end if; end process;", ["never", "reached at 1"]),
]
REFUSED = [
    ("wrong syntax", "  y <= a b;", r"top.vhd:7: "),
    ("a name that is not declared", "  y <= nobody;", 'top.vhd:7: no declaration for "nobody"'),
    ("an assertion in a procedure", "  check(a);", "top.vhd:5: an assertion in a function or procedure is not taken"),
    ("a strong operator", "  -- psl assert always (a(0) -> eventually! b(0)) @(rising_edge(clk));",
     "top.vhd:7: a strong operator"),
    ("rotation", "  y <= rotate_left(a, to_integer(b)); assert y < 9;", "top.vhd:7: rotate_left is not taken"),
    ("a number that does not fit", "  assert a < 300;", "the number 300 does not fit 8 bits"),
    ("a name between backslashes", "  y <= \\a b\\;", "top.vhd:7: the name \\a b\\ between backslashes"),
    ("two drivers", "  y <= a; y <= b; assert y < 9;", "top.vhd:"),
    ("a broken constant", "  assert 1 > 2 report \"one\";", "top.vhd:7: one: this assertion is broken before any step"),
    ("an array with two kinds of indices", "  process(clk) begin if rising_edge(clk) then w(to_integer(a(1 downto 0)))"
     " <= b; end if; end process; assert w(0) = 0;", "neither registers nor a memory"),
    ("PSL beside two edges", "  process(clk) begin if falling_edge(clk) then s <= a(0); end if; end process;\n"
     "  -- psl assert always s = '0' @(rising_edge(clk));", "PSL is not taken there"),
]
DECLARED = """signal s : std_logic; type ws is array (0 to 2) of unsigned(7 downto 0); signal w : ws;
  procedure check(x : unsigned) is begin assert x < 9; end;"""
NOTED = [
    ("a report", "  process(a) begin if a = 3 then report \"three\" severity error; end if; assert a = 3; end process;",
     "top.vhd:7: a report is no assertion"),
    ("nothing comes of it", "  assert 1 < 2; assert a < 9;", "top.vhd:7: no assertion comes of this"),
    ("a signal that nobody drives", "  assert s = '1';", "top.s (top.vhd:5) is read and never driven"),
    ("a warning of ghdl's", "  assert s = '1';", 'ghdl: top.vhd:5: signal "s" is never assigned'),
    ("a second front end", "  assert a < 9;", "what ghdl made of the VHDL is what Yosys"),
]


def placed(room):
    shutil.copytree(FOLDER, room.here, dirs_exist_ok=True)
    (room.here / "whole.f").write_text("parts.vhd // first\nwhole.vhd\n", encoding="ascii")


def answers(said):
    """What is said of each assertion or cover, in the order of the lines."""
    found = [line.rpartition(": ") for line in said.out.splitlines()[:-1]]
    return [(name, answer) for name, _, answer in found]


def is_said(words, wanted, room):
    design_rows.need_tools(*TOOLS)
    placed(room)
    said = room.run(*words)
    checked.need(answers(said) == list(wanted.items()), f"wanted {wanted}", said)
    is_broken = any(it.startswith("reached") for it in wanted.values()) or "cover" in words
    checked.need(said.status == (checked.BROKEN if is_broken else checked.KEPT), "its status", said)
    checked.need("differs at step" not in said.err, "a second front end differs", said)


def is_right(body, wanted, room):
    design_rows.need_tools(*TOOLS)
    (room.here / "top.vhd").write_text(design(body, "signal s : std_logic;"), encoding="ascii")
    said = room.run("--frames", "6", "--top", "top", "top.vhd")
    checked.need([answer for _, answer in answers(said)] == wanted, f"wanted {wanted}", said)


def is_refused(body, why, room):
    design_rows.need_tools(*TOOLS)
    (room.here / "top.vhd").write_text(design(body, DECLARED.replace("\n", " ")), encoding="ascii")
    said = room.run("--top", "top", "top.vhd")
    checked.need(said.status == checked.TROUBLE and not said.out, "its status", said)
    checked.need(why in said.err, f"{why!r} is not said", said)


def is_noted(body, words, room):
    design_rows.need_tools(*TOOLS)
    (room.here / "top.vhd").write_text(design(body, "signal s : std_logic;"), encoding="ascii")
    said = room.run("--frames", "6", "--top", "top", "top.vhd")
    checked.need(words in said.err, f"{words!r} is not said", said)


USAGE = [
    ("beside Verilog", ("--top", "counter", "counter.vhd", "other.sv"), "one design in Verilog and VHDL is not taken"),
    ("a macro", ("-D", "A=1", "--top", "counter", "counter.vhd"), "-D and -I are for Verilog"),
    ("a folder", ("-I", "here", "--top", "counter", "counter.vhd"), "-D and -I are for Verilog"),
    ("no top", ("counter.vhd",), "--top NAME is needed"),
]


def is_usage(words, why, room):
    placed(room)
    checked.refused(room.run(*words), why, status=checked.USAGE)


def other_top(room):
    design_rows.need_tools(*TOOLS)
    placed(room)
    checked.refused(room.run("--top", "nobody", "counter.vhd"), "cannot find entity or configuration nobody")
    checked.refused(room.run("--top", "counter", "-P", "NONE=1", "counter.vhd"), "no generic")
    checked.refused(room.run("--top", "counter", "lost.vhd"), "lost.vhd: No such file or directory")


def no_ghdl(room):
    """Without ghdl it is named, and how to have it."""
    design_rows.need_tools(*design_rows.TOOLS)
    placed(room)
    tools = {"ABC": shutil.which("berkeley-abc"), "YOSYS": shutil.which("yosys"), "SOLVER": shutil.which("cadical")}
    for changes in ({"GHDL": "/nonexistent"}, {**tools, "PATH": str(room.here), "GHDL": None}):
        said = room.run("--top", "counter", "counter.vhd", changes=changes)
        checked.refused(said, "VHDL needs ghdl")
        checked.need("install it" in said.err, "how to have it", said)


def other_ghdl(text, why, room):
    """A ghdl that fails, writes nothing, or something that is not known."""
    design_rows.need_tools(*design_rows.TOOLS)
    placed(room)
    (room.here / "ghdl").write_text(f"#!/bin/sh\n{text}\n", encoding="ascii")
    os.chmod(room.here / "ghdl", 0o755)
    said = room.run("--top", "counter", "counter.vhd", changes={"GHDL": str(room.here / "ghdl")})
    checked.refused(said, why)


def late(room):
    """The time for the whole ends ghdl too."""
    design_rows.need_tools(*design_rows.TOOLS)
    placed(room)
    (room.here / "ghdl").write_text("#!/bin/sh\nsleep 60\n", encoding="ascii")
    os.chmod(room.here / "ghdl", 0o755)
    changes = {"GHDL": str(room.here / "ghdl")}
    said = room.run("--timeout", "2", "--top", "counter", "counter.vhd", changes=changes)
    checked.need(said.status == checked.TIMEOUT and said.out == "0 assertions\n", "its status", said)


def kept(room):
    """The script has ghdl's version, and does all again, as long as ghdl writes the same."""
    design_rows.need_tools(*TOOLS)
    placed(room)
    room.may_write.add("kept")
    room.run("--keep", "kept", "--top", "counter", "counter.vhd")
    folder = room.here / "kept"
    script = (folder / "commands.sh").read_text(encoding="utf-8")
    checked.need("GHDL" in script and "--synth" in script, "the script has no ghdl", script)
    checked.need(checked.succeeds(folder / "counter.fits.check.sh", room, folder), "an answer is not checked again")


def equal(words, status, room):
    """Two designs, of which one may be in Verilog."""
    design_rows.need_tools(*TOOLS)
    placed(room)
    text = (FOLDER / "counter.vhd").read_text(encoding="ascii")
    (room.here / "other.vhd").write_text(text.replace("c + 1", "c - 15"), encoding="ascii")
    (room.here / "wrong.vhd").write_text(text.replace("c + 1", "c + 2"), encoding="ascii")
    (room.here / "counter.sv").write_text(VERILOG, encoding="ascii")
    said = room.run("--equal", "--top", "counter", *words)
    checked.need(said.status == status, "its status", said)


def wrong_netlist(old, new, wanted, room):
    """What ghdl's synthesis gets wrong is seen in its simulation: no answer builds on that."""
    design_rows.need_tools(*TOOLS)
    placed(room)
    real = shutil.which("ghdl")
    (room.here / "ghdl").write_text(
        f"#!/bin/sh\nif [ \"$1\" = --synth ]; then {real} \"$@\" | sed 's/{old}/{new}/'; else exec {real} \"$@\"; fi\n",
        encoding="ascii",
    )
    os.chmod(room.here / "ghdl", 0o755)
    said = room.run("--top", "counter", "counter.vhd", changes={"GHDL": str(room.here / "ghdl")})
    checked.need("agree with ghdl's simulation" not in said.err, "no difference is seen", said)
    found = [answer.split(":")[0] for _, answer in answers_of(said)]
    checked.need(found == wanted, f"wanted {wanted}", said)


def answers_of(said):
    """The names and the answers, of which some have a reason."""
    return [tuple(line.split(": ", 1)) for line in said.out.splitlines()[:-1]]


WRONG = [
    ("of a signal", ": [$]add", ": $sub", ["unknown", "unknown", "reached at 1", "reached at 1"]),
    ("of an assertion", "[$]val=3$", "$val=13", ["never", "unknown", "never", "reached at 9"]),
]
VERILOG = """module counter(input Clk, rst, go, output [3:0] q);
  reg [3:0] c = 0;
  always @(posedge Clk) if (rst) c <= 0; else if (c < 9 && go) c <= c + 1;
  assign q = c;
endmodule
"""
EQUAL = [
    ("in VHDL", ("counter.vhd", "other.vhd"), checked.KEPT),
    ("that differ", ("counter.vhd", "wrong.vhd"), checked.BROKEN),
    ("one in Verilog", ("counter.sv", "counter.vhd"), checked.KEPT),
]

NETLIST = """module {m2} $top
  module {m9} \\top
    input \\clk;
    input \\a[3:0];
    output \\y[3:0];
    # vhdl0.vhd:4:8
    instance \\top{i2}: \\top
      input \\top.\\y{p1} <- \\s.$o{n9w4}
      outputs \\top.\\clk{n1w1} \\top.\\a{n2w4}
    # vhdl0.vhd:9:3
    instance \\s{i3}: $signal
      input \\s.$i{p2} <- %4.$o{n8w4}
      outputs \\s.$o{n9w4}
    instance %3{i4}: $const_UB32
      parameters $val=5
      outputs %3.$o{n7w4}
    instance %4{i5}: KIND
      input %4.$a{p3} <- \\top.\\a{n2w4}
      input %4.$b{p4} <- %3.$o{n7w4}
      outputs %4.$o{n8w4}
    # vhdl0.vhd:12:5
    instance \\p.\\fits{i6}: $assert
      input \\p.\\fits.$cond{p5} <- \\top.\\clk{n1w1}
    connect \\top.\\clk{n1w1}
"""
WRITTEN = [("$add", "a + 4'b0101"), ("$sdiv", "$signed(a) / $signed(4'b0101)"), ("$asr", "$signed(a) >>> 4'b0101"),
           ("$umax", "a > 4'b0101 ? a : 4'b0101")]
UNKNOWN = [
    ("a gate", "KIND", "$rol", "rol: ghdl made this"),
    ("two drivers", "KIND", "$resolver", "resolver: a port that is driven both ways"),
    ("a number that does not fit", "$val=5", "$val=16", "the number 16 does not fit 4 bits"),
    ("a line", "parameters $val=5", "parameter of $val: 5", "a line that is not known"),
    ("a width", "n2w4}\n      input %4.$b", "n1w1}\n      input %4.$b", "widths that are not known"),
]


def written(room):
    """What a netlist becomes in Verilog, and the places of its assertions."""
    for kind, text in WRITTEN:
        modules = piece("front.vhdl.netlist").modules_of(NETLIST.replace("KIND", kind))
        made = piece("front.vhdl.verilog").verilog_of(modules, "top", "top", lambda _: "")
        checked.need(f"= {text};" in made.text, f"{text!r} is not written", made.text)
        at = made.text.split("\n").index("  always @* p_fits: assert (clk);") + 1
        checked.need(made.origins[at] == ("vhdl0.vhd", 12, 5), "the place of an assertion", made.origins)


def unknown(old, new, why, room):
    text = NETLIST.replace(old, new).replace("KIND", "$add")

    def act():
        modules = piece("front.vhdl.netlist").modules_of(text)
        piece("front.vhdl.verilog").verilog_of(modules, "top", "top", lambda _: "")

    refused(act, piece("faults").Trouble, why)


TEXT = """-- assert in a comment, and "assert" in a text
l1 : postponed Assert x = 'a' report "assert";
-- psl l2 : assert always x;
x <= std_logic'('1'); /* assert
 */ assert y;
function f(a : in integer) return integer is begin if a > 1 then assert b; end if; return 2; end f;
procedure p(a : integer);
assert z; component c is end component;
if a then report "one" severity error; report "two"; end if;
"""


def words(room):
    """Where the assertions of a source begin, and which of them subprograms have."""
    text = piece("front.vhdl.text").Text(TEXT, "t.vhd")
    found = [(it.line, it.column, it.is_in_subprogram) for it in text.asserted]
    wanted = [(2, 1, False), (3, 8, False), (5, 5, False), (6, 66, True), (8, 1, False)]
    checked.need(found == wanted, f"{found}, wanted {wanted}")
    checked.need(list(text.reports()) == [9], "the lines of reports", list(text.reports()))


def rows():
    for called, *row in SAID:
        yield f"vhdl: {called}", functools.partial(is_said, *row)
    for called, *row in RIGHT:
        yield f"vhdl is right of: {called}", functools.partial(is_right, *row)
    for called, *row in REFUSED:
        yield f"vhdl refused: {called}", functools.partial(is_refused, *row)
    for called, *row in NOTED:
        yield f"vhdl noted: {called}", functools.partial(is_noted, *row)
    for called, *row in USAGE:
        yield f"vhdl words: {called}", functools.partial(is_usage, *row)
    for called, *row in EQUAL:
        yield f"vhdl: two designs, {called}", functools.partial(equal, *row)
    for called, *row in UNKNOWN:
        yield f"vhdl piece: {called} that is not known", functools.partial(unknown, *row)
    for called, *row in WRONG:
        yield f"vhdl: a netlist that is wrong {called}", functools.partial(wrong_netlist, *row)
    yield "vhdl: no such entity, generic or file", other_top
    yield "vhdl: no ghdl", no_ghdl
    yield "vhdl: a ghdl that fails", functools.partial(other_ghdl, "echo broken >&2; exit 3", "ghdl: broken")
    yield "vhdl: a ghdl that says nothing", functools.partial(other_ghdl, "exit 0", "ghdl wrote no module")
    yield "vhdl: a ghdl of another kind", functools.partial(other_ghdl, "echo what", "a line that is not known")
    yield "vhdl: no time left for ghdl", late
    yield "vhdl: kept", kept
    yield "vhdl piece: a netlist in Verilog", written
    yield "vhdl piece: words", words
