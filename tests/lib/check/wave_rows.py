"""Rows of waveforms of whole designs: their values are those of Icarus, which runs the same inputs; their scopes and
names are those of the design, and programs for waveforms read them."""
import functools
import re
import shutil
import subprocess

from lib.check import checked, design_rows, model_rows, stand_ins
from lib.check.option_rows import put

# instances in generate blocks, vectors that count up and down, words of memories, an asynchronous reset
QUEUES = """module queue #(parameter W = 4) (input clk, input rst_n, input push, input pop, input [W-1:0] din,
    output [W-1:0] dout, output full);
  reg [W-1:0] mem [0:3];
  reg [2:0] count;
  reg [0:1] first, last;
  assign full = count == 4;
  assign dout = mem[first];
  always @(posedge clk or negedge rst_n)
    if (!rst_n) begin count <= 0; first <= 0; last <= 0; end
    else begin
      if (push) last <= last + 1;
      if (pop) first <= first + 1;
      count <= count + push - pop;
    end
  always @(posedge clk) if (push) mem[last] <= din;
  fits: assert property (@(posedge clk) disable iff (!rst_n) count < 6);
endmodule
module top(input clk, input rst_n, input [1:0] push, input pop, input [7:4] a, output [3:0] both);
  wire [1:0] is_full;
  genvar i;
  generate for (i = 0; i < 2; i = i + 1) begin : lane
    wire [3:0] found;
    queue unit(clk, rst_n, push[i], pop, a, found, is_full[i]);
  end endgenerate
  assign both = lane_0 ^ {3'b0, is_full[1]};
  wire [3:0] lane_0 = {is_full, push};
  never_both: assert property (!(is_full == 3));
  always @(posedge clk) assert (both != 9);
endmodule
"""
# a memory that is one until the end, without first values; a signed vector and one that begins elsewhere
WORDS = """module top(input clk, input write, input [1:0] place, input [2:0] data);
  reg [2:0] words [0:3];
  reg signed [5:2] total = -3;
  reg [0:0] was = 0;
  always @(posedge clk) begin if (write) words[place] <= data; total <= total + words[place]; was <= write; end
  small: assert property (!(words[0] == 5 && words[3] == 2 && was && total == 3));
endmodule
"""
# two levels below the top, with constants, an unused register and an escaped name
DEEP = """module leaf(input clk, input go, output reg [3:0] n); initial n = 0; wire top_bit = n[3]; wire one = 1;
  reg [1:0] unused = 2; always @(posedge clk) begin if (go) n <= n + 3; unused <= unused + 1; end
  top_one: assert property (!(n == 15 && one)); endmodule
module branch(input clk, input go, output [7:0] sum); wire [3:0] a, b;
  leaf left(clk, go, a); leaf right(.clk(clk), .go(!go), .n(b)); assign sum = {a, b}; endmodule
module top(input clk, input go, output wire [7:0] sum); wire \\odd+name = ^sum; branch only(clk, go, sum);
  far: assert property (sum != 8'h66); endmodule
"""
# of each design its options, its memory, whose words have no first value, and its inputs with their ranges
INPUTS = {"rst_n": "", "push": "[1:0]", "pop": "", "a": "[7:4]"}
DESIGNS = {
    "queues": (QUEUES, ["--reset", "!rst_n", "--only", "*both"], "mem", INPUTS),
    "queues, another assertion": (QUEUES, ["--reset", "!rst_n", "--only", "top.lane[1].unit.fits"], "mem", INPUTS),
    "words": (WORDS, [], "words", {"write": "", "place": "[1:0]", "data": "[2:0]"}),
    "deep": (DEEP, ["--only", "*far"], "none", {"go": ""}),
    "deep, all": (DEEP, [], "none", {"go": ""}),
}
STEP = 10


def waves(text):
    """Of each signal, by its name with all scopes, its width and its changes: a value from each time on."""
    head, _, body = text.partition("$enddefinitions $end\n")
    scopes, codes, now, words = [], {}, 0, iter(head.split())
    for word in words:
        its = [*iter(lambda: next(words), "$end")]
        if word == "$scope":
            scopes.append(its[1])
        elif word == "$upscope":
            scopes.pop()
        elif word == "$var":
            codes.setdefault(its[2], []).append((".".join([*scopes, its[3].lstrip("\\")]), int(its[1]), its[4:]))
    changes = {code: [] for code in codes}
    for line in body.splitlines():
        if line.startswith("#"):
            now = int(line[1:])
        elif line[:1] in "01xz" and line[1:] in changes:
            changes[line[1:]].append((now, line[0]))
        elif line[:1] == "b" and line.split()[1] in changes:
            changes[line.split()[1]].append((now, line[1:].split()[0]))
    return {name: (width, place, changes[code]) for code, its in codes.items() for name, width, place in its}, now


def at(signal, time):
    """The value of a signal at a time, all its bits."""
    width, _, changes = signal
    value = next(value for since, value in reversed(changes) if since <= time)
    return value.rjust(width, value[0] if value[0] in "xz" else "0")


def bench(inputs, memory, shown, steps):
    """A testbench that has the inputs of a waveform, and the first values of the words of a memory."""
    named = ", ".join(f".{name}({name})" for name in ("clk", *inputs))
    lines = ["module bench; reg clk = 0;", *(f"reg {place} {name};" for name, place in inputs.items())]
    lines += [f"top dut({named});", "initial begin"]
    words = [name for name in shown if name.endswith("]")]
    lines += ['$dumpfile("icarus.vcd"); $dumpvars(0, dut);', *(f"$dumpvars(0, dut.{it[4:]});" for it in words)]
    lines += [f"dut.{it[4:]} = 'b{at(shown[it], 0)};" for it in words if f"{memory}[" in it]
    for step in range(steps):
        lines += ["clk = 1; #1;" if step else "#1;"]
        lines += [f"{name} = 'b{at(shown[f'top.{name}'], STEP * step)};" for name in inputs]
        lines += ["#4 clk = 0; #5;"]
    return "\n".join([*lines, "$finish; end endmodule", ""])


def with_icarus(which, room):
    """Each signal of a design has the value that Icarus has, in each step; assertions fail where that is said."""
    design_rows.need_tools(*design_rows.TOOLS, "iverilog", "vvp")
    text, words, memory, inputs = DESIGNS[which]
    put(room, {"top.sv": text})
    room.may_write.add("w.vcd")
    said = room.run("--vcd", "w.vcd", *words, "--top", "top", "top.sv")
    shown, end = waves((room.here / "w.vcd").read_text(encoding="ascii"))
    steps = end // STEP
    assertions = re.findall(r"^(\S+) \(top\.sv:\d+\): (never|reached at (\d+))", said.out, re.M)
    failing = next(it for it in assertions if it[2])
    checked.need(int(failing[2]) == steps - 1, f"{steps} steps", said)
    signals = {name: it for name, it in shown.items() if name not in [it[0] for it in assertions]}
    (room.folder / "bench.sv").write_text(bench(inputs, memory, signals, steps), encoding="ascii")
    lines = text.replace("endmodule", "\nendmodule")
    assertless = re.sub(r"(?m)^ *(always @\(posedge clk\) |\w+: )assert .*?;", "", lines)
    (room.folder / "top.sv").write_text(assertless, encoding="ascii")
    for command in (["iverilog", "-g2012", "-o", "run", "bench.sv", "top.sv"], ["vvp", "-n", "run"]):
        ran = subprocess.run(command, cwd=room.folder, capture_output=True, text=True, check=False)
        checked.need(ran.returncode == 0, f"{ran}", said)
    others, _ = waves((room.folder / "icarus.vcd").read_text(encoding="ascii"))
    lost = [it for it in signals if "bench.dut" + it[3:] not in others]
    checked.need(not lost, f"Icarus does not have {lost} but {list(others)}", said)
    compared = {name for name in others if name.startswith("bench.dut.") and "(" not in name}
    more = {it for it in compared if "top" + it[9:] not in shown and not re.search(r"\.(W|i)$", it)}
    checked.need(not more, f"Icarus has {more} too", said)
    for name, signal in signals.items():
        other = others["bench.dut" + name[3:]]
        checked.need(signal[:2] == other[:2], f"{name} is {signal[:2]}, in Icarus {other[:2]}", said)
        for step in range(steps):
            both = at(signal, STEP * step), at(other, STEP * step + 3)
            checked.need(both[0] == both[1], f"{name} in step {step}: {both}", said)
    for name, _, step in assertions:
        values = [at(shown[name], STEP * it) for it in range(steps)]
        checked.need("0" not in values[: int(step) if step else steps], f"{name} is {values}", said)
        checked.need(name != failing[0] or values[-1] == "0", f"{name} is {values}", said)


# ---------------------------------------------------------------- which run, and where to

TWO = """module top(input clk, input d); reg [1:0] n = 0; always @(posedge clk) n <= n + 1;
  late: assert property (n != 2); soon: assert property (!d); met: cover property (n == 1 && d);
  kept: assert property (n < 4); endmodule
"""


def first_of(words, about, steps, room):
    """The run is that of the first that fails, in the order of answers."""
    design_rows.need_tools(*design_rows.TOOLS)
    put(room, {"top.sv": TWO})
    room.may_write.add("w.vcd")
    said = room.run("--vcd", "w.vcd", *words, "--top", "top", "top.sv")
    text = (room.here / "w.vcd").read_text(encoding="ascii")
    checked.need(text.startswith(f"$comment {about}; ") and waves(text)[1] == STEP * steps, text, said)
    checked.need(f"w.vcd has the run of {about.split()[0]} (top.sv:2)\n" in said.err, "a note is due", said)


def no_run(room):
    """Where nothing fails none is written, and none of an earlier run stays."""
    design_rows.need_tools(*design_rows.TOOLS)
    put(room, {"top.sv": TWO, "w.vcd": "of old"})
    room.may_write.add("w.vcd")
    said = room.run("--vcd", "w.vcd", "--only", "*.kept", "--top", "top", "top.sv")
    checked.need(said.status == 0 and not (room.here / "w.vcd").exists(), "it stays", said)
    checked.need("w.vcd is not written: there is no run to show" in said.err, "a note is due", said)


def kept(room):
    """What is kept has such a waveform of each that fails, beside that of the model."""
    design_rows.need_tools(*design_rows.TOOLS)
    put(room, {"top.sv": TWO})
    room.may_write.update(("w.vcd", "kept"))
    said = room.run("--vcd", "w.vcd", "--keep", "kept", "--top", "top", "top.sv")
    folder = room.here / "kept"
    names = {it.name for it in folder.glob("*.vcd")}
    due = {f"top.{it}{end}" for it in ("late", "soon") for end in (".vcd", ".design.vcd")}
    checked.need(names == due, f"kept {names}", said)
    same = (folder / "top.late.design.vcd").read_bytes() == (room.here / "w.vcd").read_bytes()
    checked.need(same, "another waveform", said)
    checked.need(b"$scope module bad $end" in (folder / "top.late.vcd").read_bytes(), "not the model's", said)
    put(room, {"top.sv": TWO.replace("n != 2", "n < 4")})
    said = room.run("--keep", "kept", "--top", "top", "top.sv")
    names = {it.name for it in folder.glob("*.vcd")}
    checked.need(names == {"top.soon.vcd", "top.soon.design.vcd"}, f"kept {names}", said)


LASSO = """module top(input clk, input go); reg [1:0] n = 0; always @(posedge clk) if (n < 2 || go) n <= n + 1;
  back: assert property (s_eventually n == 0); endmodule
"""


def lasso(room):
    """Of a lasso it is shown where the loop begins."""
    design_rows.need_tools(*design_rows.TOOLS)
    put(room, {"top.sv": LASSO})
    room.may_write.add("w.vcd")
    said = room.run("--vcd", "w.vcd", "--top", "top", "top.sv")
    start = int(re.search(r"lasso at (\d+)", said.out)[1])
    shown, end = waves((room.here / "w.vcd").read_text(encoding="ascii"))
    loop = [at(shown["aiger_check.loop"], STEP * it) for it in range(end // STEP)]
    checked.need(loop == ["0"] * start + ["1"] * (end // STEP - start), f"the loop is {loop}", said)
    checked.need(at(shown["top.n"], STEP * start) == "10", "another state", said)


CLOCKS = """module top(input a, input b, input d); reg left = 0, right = 0; always @(posedge a) left <= d;
  always @(negedge b) right <= left; fine: assert property (!right); endmodule
"""


def clocks(room):
    """With several clocks each is an input, and changes as the run has it."""
    design_rows.need_tools(*design_rows.TOOLS)
    put(room, {"top.sv": CLOCKS})
    room.may_write.add("w.vcd")
    said = room.run("--vcd", "w.vcd", "--top", "top", "top.sv")
    shown, end = waves((room.here / "w.vcd").read_text(encoding="ascii"))
    values = {name: [at(it, STEP * step) for step in range(end // STEP)] for name, it in shown.items()}
    moves = [step for step in range(1, end // STEP) if values["top.a"][step - 1 : step + 1] == ["0", "1"]]
    checked.need(moves and "x" not in "".join(map("".join, values.values())), f"{values}", said)
    first = values["top.left"].index("1")
    checked.need(first in moves and values["top.fine"][-1] == "0" and values["top.right"][-1] == "1", f"{values}", said)


FREE = """module top(input clk); (* anyseq *) wire [1:0] any; reg [1:0] was = 0; wire [1:0] next = any ^ 1;
  always @(posedge clk) was <= any; not_two: assert property (was != 2); endmodule
"""


def free(room):
    """What nothing drives is x, since the second model leaves it open; a register is as in the model."""
    design_rows.need_tools(*design_rows.TOOLS)
    put(room, {"top.sv": FREE})
    room.may_write.add("w.vcd")
    said = room.run("--vcd", "w.vcd", "--top", "top", "top.sv")
    shown, _ = waves((room.here / "w.vcd").read_text(encoding="ascii"))
    found = {name: [at(it, 0), at(it, STEP)] for name, it in shown.items()}
    due = {"top.any": ["xx", "xx"], "top.next": ["xx", "xx"], "top.was": ["00", "10"], "top.not_two": ["1", "0"]}
    checked.need({**found, **due} == found, f"{found}", said)


def without_second_model(script, why, room):
    """Where there is no second model, or not that of the design, the file has the run in the names of the model."""
    design_rows.need_tools(*design_rows.TOOLS)
    put(room, {"top.sv": TWO})
    room.may_write.update(("w.vcd", "kept"))
    path = stand_ins.put(room.folder / "bin", "yosys", script.format(yosys=shutil.which("yosys")))
    words = ["--second", "none", "--only", "*.late", "--keep", "kept", "--vcd", "w.vcd", "--top", "top", "top.sv"]
    said = room.run(*words, changes={"YOSYS": path})
    checked.need(re.search(f"there is no waveform of the whole design: .*{why}", said.err), f"{why} is due", said)
    checked.need("top.late (top.sv:2): reached at 2, kept/top.late.aiw\n" in said.out, "another answer", said)
    both = {(room.here / it).read_bytes() for it in ("w.vcd", "kept/top.late.vcd")}
    checked.need(len(both) == 1 and not (room.here / "kept/top.late.design.vcd").exists(), "another waveform", said)


# Yosys that fails, and one that makes another design of the same names, where it writes a second model
FAILS = 'case "$*" in *probed.ys*) echo "ERROR: no such thing" >&2; exit 1;; esac; exec {yosys} "$@"'
WORSE = "/memory_collect/i delete t:\\$add; setundef -zero -undriven"
OTHER = f'case "$*" in *probed.ys*) sed -i "{WORSE}" probed.ys;; esac; exec {{yosys}} "$@"'


def of_two(room):
    """Of two designs it is what is kept: both, in scopes of their own."""
    put(room, {"old.aag": "aag 1 1 0 1 0\n2\n2\n", "new.aag": "aag 1 1 0 1 0\n2\n3\n"})
    room.may_write.update(("w.vcd", "kept"))
    words = ["--equal", "--vcd", "w.vcd", "--keep", "kept", "old.aag", "new.aag"]
    said = room.run(*words, changes=model_rows.honest(room))
    both = {(room.here / it).read_bytes() for it in ("w.vcd", "kept/o0.vcd")}
    checked.need(len(both) == 1 and b"$scope module second $end" in both.pop(), "another waveform", said)


def unwritable(room):
    put(room, {"model.aag": model_rows.TEXTS[model_rows.TOGGLE][0]})
    for name in ("none/w.vcd", "."):
        checked.refused(room.run("--vcd", name, "model.aag", changes=model_rows.honest(room)), "none|is a directory")


def by_gtkwave(room):
    """The programs of GTKWave read it, with the same names."""
    design_rows.need_tools(*design_rows.TOOLS, "vcd2fst", "fst2vcd")
    put(room, {"top.sv": QUEUES})
    room.may_write.add("w.vcd")
    said = room.run("--vcd", "w.vcd", "--reset", "!rst_n", "--top", "top", "top.sv")
    subprocess.run(["vcd2fst", str(room.here / "w.vcd"), "w.fst"], cwd=room.folder, check=True, capture_output=True)
    again = subprocess.run(["fst2vcd", "w.fst"], cwd=room.folder, check=True, capture_output=True, text=True).stdout
    own, other = waves((room.here / "w.vcd").read_text(encoding="ascii"))[0], waves(again)[0]
    checked.need({it: own[it] for it in own} == {it: other.get(it) for it in own}, "other waves", said)


def rows():
    each = functools.partial
    for which in DESIGNS:
        yield f"waveform beside Icarus: {which}", each(with_icarus, which)
    for words, about, steps in (
        ([], "top.late (top.sv:2): reached at 2", 3),
        (["--sort", "name"], "top.late (top.sv:2): reached at 2", 3),
        (["--sort", "answer"], "top.soon (top.sv:2): reached at 0", 1),
        (["--only", "*.soon"], "top.soon (top.sv:2): reached at 0", 1),
        (["--mode", "cover"], "top.met (top.sv:2): covered at 1", 2),
    ):
        yield f"waveform of the first: {words}", each(first_of, words, about, steps)
    yield "waveform: no run", no_run
    yield "waveform: kept", kept
    yield "waveform: of a lasso", lasso
    yield "waveform: several clocks", clocks
    yield "waveform: what is free", free
    yield "waveform: without a second model", each(without_second_model, FAILS, "no such thing")
    yield "waveform: with another second model", each(without_second_model, OTHER, "n has another value")
    yield "waveform: of two designs", of_two
    yield "waveform: a file that cannot be written", unwritable
    yield "waveform: by GTKWave's programs", by_gtkwave
