"""Rows of the second front end: a Yosys that mistranslates is found and nothing is said to be kept, no design of
tests/verilog gives an alarm, and a simulator that is missing, lies, sleeps or fails costs what it would have said alone."""
import concurrent.futures
import functools
import importlib
import re
import shutil
import sys
import time
from pathlib import Path

from lib.check import checked, design_rows, designs, stand_ins
from lib.check.checked import need

TOOLS = ["yosys", "berkeley-abc", "cadical", "iverilog", "vvp"]
# of so many designs nothing can be compared, of all that are in tests/verilog and examples/verilog
FEW = 8
ALARM = re.compile(r" differs at step |is undriven in the model|the model lacks|refuses what Yosys takes|is x in ")
EXAMPLES = checked.TOP / "examples" / "verilog"


def put(room, text, name="m.sv"):
    (room.here / name).write_text(text, encoding="ascii")


def wrong_yosys(room, command):
    """A Yosys that does something else too when it has read a design."""
    real = shutil.which("yosys")
    (room.folder / "command").write_text(f"{command}\n", encoding="ascii")
    body = f"""if [ "${{3-}}" = - ]; then sed -u '/^proc/r {room.folder}/command' 2>&- | exec {real} "$@"; fi\nexec {real} "$@\""""
    return stand_ins.put(room.folder / "wrong", "yosys", body)


def answers(said):
    """What is said of each assertion, by its name without the top."""
    found = {}
    for line in said.out.splitlines()[:-1]:
        name, _, rest = line.partition(" (")
        found.setdefault(name.partition(".")[2], []).append(rest.partition("): ")[2])
    return found


# of each: what a wrong Yosys does, a design, and what has to be said of its assertions
WRONG = {
    "adds in the place of subtracting": (
        "chtype -set $add t:$sub",
        """module m(input clk, input [1:0] a, input [1:0] b);
  wire [3:0] less = 4'd0 - b;
  small: assert property (less <= 3);
  free: assert property (a <= 3);
endmodule
""",
        {"small": r"unknown: m\.less differs at step \d+: \d+ in Icarus, \d+ in the model", "free": "never"},
    ),
    "takes and for or": (
        "chtype -set $and t:$or",
        """module m(input clk, input [3:0] a, input [3:0] b);
  reg [3:0] both = 0;
  always @(posedge clk) both <= a | b;
  reg [3:0] last = 0;
  always @(posedge clk) last <= a;
  within: assert property ((both & ~last) == 0);
endmodule
""",
        {"within": r"unknown: m\.both differs at step \d+: \d+ in Icarus, \d+ in the model"},
    ),
    "compares the other way round": (
        "chtype -set $gt t:$lt",
        """module m(input clk, input go);
  reg [3:0] count = 0;
  always @(posedge clk) if (go && count < 5) count <= count + 1;
  below: assert property (count != 3);
  always @(posedge clk) if (go) clocked: assert (count != 4);
endmodule
""",
        {
            "below": r"unknown: m\.count differs at step 1?\d: 1 in Icarus, 0 in the model",
            "clocked": "unknown: m.count .*",
        },
    ),
    "has another first value": (
        "setattr -set init 4'b0000 w:count",
        """module m(input clk, input go);
  reg [3:0] count = 5;
  always @(posedge clk) if (go && count == 1) count <= 2;
  other: assert property (count != 5);
endmodule
""",
        {"other": r"unknown: m\.count differs at step 0: 5 in Icarus, 0 in the model"},
    ),
    "loses an assertion": (
        "delete m/lost",
        """module m(input clk, input [3:0] a);
  lost: assert property (a != 3);
  kept: assert property (a < 16);
endmodule
""",
        {"kept": r"unknown: the model lacks m\.lost \(m\.sv:2\), which Icarus has"},
    ),
    "loses the assertion of an instance": (
        "delete part/t:$assert",
        """module part(input clk, input [3:0] a);
  always @(posedge clk) assert (a != 3);
endmodule
module m(input clk, input [3:0] a);
  part one(clk, a);
  kept: assert property (a < 16);
endmodule
""",
        {"kept": r"unknown: the model lacks m\.one\.assert \(m\.sv:2\), which Icarus has"},
    ),
    "takes all bits for any bit": (
        "chtype -set $reduce_and t:$reduce_or",
        """module m(input clk, input [1:0] a);
  wire any = |a;
  three: assert property (!any || a == 3);
  always @* begin assert (!(any && a == 1)); assert (a < 4); end
endmodule
""",
        {
            "three": r"unknown: m\.any differs at step \d+: 1 in Icarus, 0 in the model",
            "assert": "unknown: m.any .*|never",
        },
    ),
    "writes no memory": (
        "delete t:$memwr*",
        """module m(input clk, input write, input [1:0] place, input [1:0] data);
  reg [1:0] words [0:3];
  integer at;
  initial for (at = 0; at < 4; at = at + 1) words[at] = 0;
  always @(posedge clk) if (write) words[place] <= data;
  wire [1:0] word = words[place];
  zero: assert property (word == 0);
endmodule
""",
        {"zero": r"unknown: m\.word differs at step \d+: \d in Icarus, 0 in the model"},
    ),
    "shifts the other way": (
        "chtype -set $shr t:$shl",
        """module part(input [3:0] a, input [1:0] by, output [3:0] y);
  assign y = a << by;
endmodule
module m(input clk, input [3:0] a, input [1:0] by);
  wire [3:0] y;
  part one(a, by, y);
  less: assert property (y <= a);
endmodule
""",
        {"less": r"unknown: m\.(one\.)?y differs at step \d+: \d+ in Icarus, \d+ in the model"},
    ),
    "assumes more": (
        "chtype -set $gt t:$lt",
        """module m(input clk, input [3:0] a);
  always @* assume (a < 12);
  none: assert property (a > 2);
endmodule
""",
        {"none": r"unknown: m\.assume \(m\.sv:2\) differs at step 0: \w+ in Icarus, \w+ in the model"},
    ),
    "takes an assertion for an assumption": (
        "chtype -set $assume m/low",
        """module m(input clk, input [3:0] a);
  low: assert property (a < 3);
  less: assert property (a < 4);
endmodule
""",
        {"less": r"unknown: the model lacks m\.low \(m\.sv:2\), which Icarus has"},
    ),
    "has a register of the other edge": (
        "setparam -set CLK_POLARITY 0 w:late %ci*:+$dff t:$dff %i",
        """module m(input clk, input [3:0] a);
  reg [3:0] early = 0, late = 0;
  always @(posedge clk) early <= a;
  always @(posedge clk) late <= early;
  wire begun;
  reg [1:0] steps = 0;
  always @(posedge clk) if (steps != 3) steps <= steps + 1;
  alike: assert property (steps < 3 || early == late || early != late);
  zero: assert property (late == 0 || steps != 0);
endmodule
""",
        {},
    ),
}


def mistranslated(which, room):
    """What a wrong Yosys makes of a design is never said of the design."""
    design_rows.need_tools(*TOOLS)
    command, text, wanted = WRONG[which]
    put(room, text)
    said = room.run("--top", "m", "--frames", "12", "m.sv", changes={"YOSYS": wrong_yosys(room, command)})
    found = answers(said)
    for name, pattern in wanted.items():
        need(found.get(name), f"nothing is said of {name}", said)
        for answer in found[name]:
            need(re.fullmatch(pattern, answer), f"{name} has the answer {answer!r}", said)
    if any("unknown" in pattern for pattern in wanted.values()):
        need(said.status == checked.UNKNOWN, f"status {checked.UNKNOWN} is due", said)
        need("agree with Icarus" not in said.err, "it is said to agree", said)


def kept_waves(room):
    """Where the two differ, both waveforms are kept."""
    design_rows.need_tools(*TOOLS)
    command, text, _ = WRONG["takes and for or"]
    put(room, text)
    room.may_write.add("kept")
    words = ["--keep", "kept", "--top", "m", "m.sv"]
    said = room.run(*words, changes={"YOSYS": wrong_yosys(room, command)})
    for name in ("second-icarus.vcd", "second-model.vcd"):
        path = room.here / "kept" / name
        need(path.exists(), f"{name} is not kept", said)
        waves = path.read_text(encoding="latin-1")
        need(re.search(r"\$var \w+ \d+ \S+ .*both", waves) and "$enddefinitions" in waves, f"{name} has no waves", said)


def of_two(room):
    """Of two designs that are compared neither is believed to be as the model says."""
    design_rows.need_tools(*TOOLS)
    text = "module m(input clk, input [3:0] a, input [3:0] b, output [3:0] y);\n  assign y = a | b;\nendmodule\n"
    put(room, text, "old.sv")
    put(room, text.replace("a | b", "b | a"), "new.sv")
    words = ["--equal", "--top", "m", "old.sv", "new.sv"]
    said = room.run(*words)
    need(said.out.startswith("y[0]: equal\n") and said.err.count("agree with Icarus") >= 1, "they are equal", said)
    said = room.run(*words, changes={"YOSYS": wrong_yosys(room, "chtype -set $and t:$or")})
    need(": equal" not in said.out and "m.y differs at step" in said.out, "they are said to be equal", said)
    need(said.status == checked.UNKNOWN, f"status {checked.UNKNOWN} is due", said)


# of each: a design, whose model is Yosys's own, and what has to be said, in the answers and on standard error
KINDER = {
    "a misspelt name": (
        """module m(input clk);
  reg [3:0] count = 0;
  always @(posedge clk) count <= count + 1;
  low: assert property (counnt <= 8);
endmodule
""",
        "",
    ),
    "a name of another instance": (
        """module part(input clk, output reg [3:0] count);
  initial count = 0;
  always @(posedge clk) count <= count + 1;
endmodule
module m(input clk);
  wire [3:0] count;
  part one(clk, count);
  low: assert property (one.count <= 8);
endmodule
""",
        "",
    ),
    "a net with a constant and another driver": (
        """module m(input clk, input [3:0] a);
  wire [3:0] w;
  assign w = 2;
  assign w = a;
  low: assert property (w == 2);
endmodule
""",
        "is x in Icarus",
    ),
    "an asynchronous reset between edges": (
        """module m(input clk, input reset, input a);
  reg one = 0, other = 0, was = 0;
  always @(posedge clk or posedge reset) if (reset) one <= 0; else one <= a;
  always @(posedge clk) other <= a;
  always @(posedge clk) was <= reset;
  alike: assert property (reset || was || one == other);
endmodule
""",
        "",
    ),
    "a division by zero": (
        """module m(input clk, input [3:0] a, input [3:0] b);
  wire [3:0] part = a / b;
  less: assert property (part <= a || b == 0 && part == 15);
endmodule
""",
        "is x in Icarus",
    ),
    "a bound checker": (
        """module chk(input clk, input [3:0] c);
  low: assert property (c < 3);
endmodule
module part(input clk, output reg [3:0] count);
  initial count = 0;
  always @(posedge clk) count <= count + 1;
endmodule
module m(input clk);
  wire [3:0] c;
  part one(clk, c);
  all: assert property (c < 16);
endmodule
bind part chk check(clk, count);
""",
        "",
    ),
}


def kinder(which, room):
    """What Yosys takes in a way of its own is refused, or not said to be kept, or a line says what it builds on."""
    design_rows.need_tools(*TOOLS)
    text, noted = KINDER[which]
    put(room, text)
    said = room.run("--top", "m", "--frames", "12", "m.sv")
    if noted:
        need(not re.search(r": never$", said.out, re.M) or noted in said.err, f"{noted!r} is not said", said)
        quiet = room.run("--quiet", "--top", "m", "--frames", "12", "m.sv")
        need(not re.search(r": never$", quiet.out, re.M) or noted in quiet.err, f"{noted!r} is dropped", quiet)
    else:
        need(not re.search(r": (never|none within.*)$", said.out, re.M), "it is said to be kept", said)
        need(said.status != checked.KEPT, "status 0", said)


def alarm_of(room, words):
    """What is said against a design, whether it was compared, and how long that took."""
    begun = time.monotonic()
    said = room.run("--frames", "2", "--time", "5", *words)
    took = time.monotonic() - begun
    return [it for it in said.err.splitlines() + said.out.splitlines() if ALARM.search(it)], said, took


def no_alarm(room):
    """Of the designs here nothing is said against the model, and most are compared."""
    design_rows.need_tools(*TOOLS)
    design_rows.placed(room)
    shutil.copytree(EXAMPLES, room.here / "examples")
    every = [[*it.words, "--top", it.top, *it.files] for it in designs.DESIGNS]
    example = {"queue": ["queue", "arbiter"], "clients": ["clients", "arbiter"], "arbiter": ["arbiter"]}
    every += [["--top", top, *(f"examples/{it}.sv" for it in files)] for top, files in example.items()]
    with concurrent.futures.ThreadPoolExecutor(2) as pool:
        found = list(pool.map(functools.partial(alarm_of_one, room.program), every))
    alarms = [line for lines, _, _ in found for line in lines]
    need(not alarms, f"alarms: {alarms}")
    alone = [" ".join(said.words[4:]) for _, said, _ in found if "agree with Icarus" not in said.err]
    need(len(alone) <= FEW, f"{len(alone)} of {len(every)} are not compared: {alone}")


def alarm_of_one(program, words):
    """The same in a room of its own, as runs may not see one another's files."""
    folder, room = checked.room(program)
    with folder:
        design_rows.placed(room)
        shutil.copytree(EXAMPLES, room.here / "examples")
        return alarm_of(room, words)


# designs that a simulator takes in a way of its own, of which nothing may be said against the model
RIGHT = {
    "an x or its negation": (
        "reg q; always @(posedge clk) q <= a[0] ? 1'bx : 1'b0; either: assert property (q || !q);",
        {"either": "never"},
    ),
    "an initial assertion": (
        "reg [1:0] c = 1; always @(posedge clk) c <= a; initial begin one: assert (c == 1); two: assert (c < 2); end",
        {"one": "never", "two": "never"},
    ),
    "registers without a first value": (
        "reg [1:0] c, d; always @(posedge clk) begin c <= c; d <= c; end any: assert property (c != 2);"
        " same: assert property (d == d);",
        {"any": "reached at 0", "same": "never"},
    ),
    "an asynchronous reset without symbol": (
        "reg [1:0] c; always @(posedge clk or posedge a[1]) if (a[1]) c <= 0; else c <= {c[0], a[0]};"
        " zero: assert property (!a[1] || c == 0);",
        {"zero": "never"},
    ),
    "the step before": (
        "reg was = 0; always @(posedge clk) begin was <= 1; if (was) begin p: assert ($past(a) == $past(a, 1));"
        " s: assert ($stable(a) == ($past(a) == a)); c: assert ($changed(a) != $stable(a));"
        " r: assert (!$rose(a) || a[0]); f: assert (!$fell(a) || !a[0]); end end",
        {"p": "never", "s": "never", "c": "never", "r": "never", "f": "never"},
    ),
    "a memory without first values": (
        "reg [3:0] words [0:3]; always @(posedge clk) if (a[0]) words[a] <= {a, a}; wire [3:0] w = words[a];"
        " same: assert property (w == words[a]);",
        {"same": "never"},
    ),
    "any constant": (
        "(* anyconst *) reg [1:0] k; wire [1:0] f = $anyconst; reg [1:0] l; reg b = 0; always @(posedge clk) begin"
        " l <= k; b <= 1; end same: assert property (!b || l == k); all: assert property (f < 4);",
        {"same": "never", "all": "never"},
    ),
    "assumptions": (
        "always @* assume (a != 3); reg [2:0] c = 0; always @(posedge clk) begin c <= a; assume (c != 1); end"
        " low: assert property (c < 3); always @(posedge clk) not_1: assert (c != 1);",
        {"low": "never", "not_1": "never"},
    ),
    "several assertions of a loop": (
        "genvar i; generate for (i = 0; i < 2; i = i + 1) begin : row reg q = 0; always @(posedge clk) q <= a[i];"
        " assert property (!q || i < 2); always @(posedge clk) if (a[i]) assert (q == 0 || q == 1); end endgenerate",
        {"assert": "never"},
    ),
    "a macro with assertions": (
        "\n`define KEPT(e) assert property (e);\n`KEPT(a < 4)\n`KEPT(a != 5)\nlow: assert property (a <= 3);",
        {"low": "never"},
    ),
    "places of its own": (
        '\n`line 70 "other.sv" 0\nassert property (a < 4);\nassert property (a != 3);\nlow: assert property (a <= 3);',
        {"low": "never"},
    ),
    "tasks of a simulation": (
        'initial begin $display("hello"); end reg [1:0] c = 0; always @(posedge clk) begin'
        ' c <= a; $display("second %d", c); if (c == 2) $write("x"); end low: assert property (c < 4);',
        {"low": "never"},
    ),
    "delays": (
        "wire [1:0] #3 b = a; reg [1:0] c = 0; always @(posedge clk) c <= #20 b; low: assert property (c < 4);"
        " assign #2 d = a; wire [1:0] d; same: assert property (b == a);",
        {"low": "never", "same": "never"},
    ),
    "both edges and two clocks": (
        "reg [1:0] c = 0, d = 1; always @(posedge clk) c <= a; always @(negedge clk) d <= c; reg e = 0;"
        " always @(posedge a[0]) e <= !e; low: assert property (c < 4 && d < 4);",
        {"low": "never"},
    ),
}


def right(which, room):
    """What the design says is said, and nothing against it."""
    design_rows.need_tools(*TOOLS)
    body, wanted = RIGHT[which]
    put(room, f"module m(input clk, input [1:0] a);\n{body}\nendmodule\n")
    lines, said, _ = alarm_of(room, ["--frames", "12", "--top", "m", "m.sv"])
    need(not lines, f"alarms: {lines}", said)
    found = answers(said)
    for name, answer in wanted.items():
        need(found.get(name), f"nothing is said of {name}", said)
        need(set(found[name]) <= {answer, "reached at 0", "reached at 1"}, f"{name} has {found[name]}", said)
        need(answer in found[name], f"{name} has {found[name]}", said)
    need("agree with Icarus" in said.err, "it is not compared", said)


def witnesses(room):
    """A counterexample is one of the simulator's too."""
    design_rows.need_tools(*TOOLS)
    design_rows.placed(room)
    for top in ("counter", "uninitialised", "past", "memory"):
        said = room.run("--top", top, f"{top}.sv")
        for line in said.out.splitlines()[:-1]:
            name = line.partition(": ")[0]
            noted = f"aiger-check: {name} fails in Icarus too" in said.err.splitlines()
            need(noted == (": reached at" in line), f"{name} has {noted}", said)
        need("does not fail in Icarus" not in said.err, "it does not fail", said)


SIMULATORS = {
    "says any bytes": ("head -c 3000 /dev/urandom; exit 0", "no second front end was asked"),
    "says nothing": ("exit 0", "no second front end was asked"),
    "fails": ("exit 1", "no second front end was asked"),
    "is killed": ("kill -KILL $$", "no second front end was asked"),
    "breaks": ("kill -SEGV $$", "no second front end was asked"),
    "says very much": ("yes error | head -c 3000000 >&2; exit 1", "no second front end was asked"),
    "makes what calls the system": (
        '{real} "$@"; s=$?; for o; do [ "$o" = design.vvp ] && '
        """printf '    %%vpi_call 1 1 "$system", "touch hacked" {{0 0 0}};\\n' >> design.vvp; done; exit $s""",
        r"\$system is not simulated",
    ),
    "makes what opens files": (
        '{real} "$@"; s=$?; for o; do [ "$o" = design.vvp ] && '
        """printf '    %%vpi_func 1 1 "$fopen" 32, "hacked", "w" {{0 0 0}};\\n' >> design.vvp; done; exit $s""",
        r"\$fopen is not simulated",
    ),
    "makes what does not run": (
        '{real} "$@"; s=$?; for o; do [ "$o" = design.vvp ] && echo nonsense >> design.vvp; done; exit $s',
        "no second front end was asked",
    ),
}


def lying(which, room):
    """A simulator that fails costs nothing but what it would have said."""
    design_rows.need_tools(*TOOLS)
    design_rows.placed(room)
    body, noted = SIMULATORS[which]
    simulator = stand_ins.put(room.folder / "other", "iverilog", body.format(real=shutil.which("iverilog")))
    changes = {"IVERILOG": simulator, "VERILATOR": "no such program"}
    said = room.run("--top", "counter", "counter.sv", changes=changes)
    checked.judge(said, design_rows.truths(designs.one("counter")))
    need(re.search(noted, said.err), f"{noted} is not said", said)


def wrong_simulator(room):
    """A simulator that takes a design otherwise is a reason to doubt, and no answer that anything is broken."""
    design_rows.need_tools(*TOOLS)
    design_rows.placed(room)
    real = shutil.which("iverilog")
    body = f"sed -i 's/count + 1/count + 2/' design.sv 2>/dev/null; exec {real} \"$@\""
    simulator = stand_ins.put(room.folder / "other", "iverilog", body)
    said = room.run("--top", "counter", "counter.sv", changes={"IVERILOG": simulator})
    truths = design_rows.truths(designs.one("counter"))
    checked.judge(said, truths, checked.SAFE)
    need("counter.count differs at step" in said.out, "it is not said", said)


def sleeping(room):
    """A simulator that sleeps is ended with its own child."""
    design_rows.need_tools(*TOOLS)
    design_rows.placed(room)
    begun = room.folder / "begun"
    slow = stand_ins.sleeping(room.folder / "slow", "iverilog", begun)
    changes = {"IVERILOG": slow, "VERILATOR": "no such program"}
    said = room.run("--top", "counter", "counter.sv", changes=changes)
    checked.judge(said, design_rows.truths(designs.one("counter")))
    need("no second front end was asked" in said.err and "10 s" in said.err, "it is not said", said)
    stand_ins.need_ended(begun, said)


def without(changes, noted, words, room):
    """There is no simulator, or none is wanted."""
    design_rows.need_tools("yosys", "berkeley-abc", "cadical")
    design_rows.placed(room)
    said = room.run(*words, "--top", "counter", "counter.sv", changes=changes)
    checked.judge(said, design_rows.truths(designs.one("counter")))
    need(bool(noted) == ("second front end" in said.err), "another note", said)
    need(not noted or re.search(noted, said.err), f"{noted} is not said", said)


def by_verilator(room):
    """Where there is no Icarus, Verilator is asked, which knows no x."""
    design_rows.need_tools("yosys", "berkeley-abc", "cadical", "verilator", "make", "g++")
    put(room, WRONG["takes and for or"][1])
    wrong = wrong_yosys(room, WRONG["takes and for or"][0])
    said = room.run("--top", "m", "m.sv", changes={"IVERILOG": "no such program", "YOSYS": wrong})
    if "took more than" not in said.err:
        need("m.both differs at step" in said.out and "in Verilator" in said.out, "it is not found", said)


def of_a_cover(room):
    """A cover of a wrong model is not said to be never reached."""
    design_rows.need_tools(*TOOLS)
    put(
        room,
        "module m(input clk, input [1:0] a);\n  wire any = |a;\n  low: cover property (any && a == 1);\nendmodule\n",
    )
    wrong = wrong_yosys(room, "chtype -set $reduce_and t:$reduce_or")
    said = room.run("--mode", "cover", "--top", "m", "m.sv", changes={"YOSYS": wrong})
    need("never" not in said.out.splitlines()[0] and "m.any differs at step" in said.out, "it is said", said)


def refused_option(room):
    design_rows.placed(room)
    checked.refused(room.run("--second", "other", "--top", "counter", "counter.sv"), "--second", status=checked.USAGE)


def piece(name):
    """A module of the package's second front end."""
    parent = str(Path(checked.CHECK).resolve().parent)
    if parent not in sys.path:
        sys.path.insert(0, parent)
    return importlib.import_module(f"aiger_check.front.second.{name}")


def pieces_of_past(_):
    """What is asked of the step before is a register's value."""
    text = "module m(input c, input a); always @(posedge c) begin if ($past($past(a, 2))) x <= $rose(a); end endmodule"
    made = piece("past").Past(text).with_registers()
    need("$past" not in made and "$rose" not in made, "a call is left", made)
    need(made.count("always @(posedge c) begin second_past_") == 3, "other registers", made)
    alone = piece("past").Past("if (1) always @(posedge c) x <= $past(a);").with_registers()
    need(alone.startswith("if (1) begin reg [$bits(a)-1:0]") and alone.endswith("; end"), "it is not alone", alone)


def pieces_of_telling(_):
    """Each assertion is a statement that tells its value, on its own line."""
    text = """/*second 0 1*/module m(input c, input a);
/*second 0 2*/  one: assert property (a);
/*second 0 3*/  always @* begin two: assert (a) else $error("x"); assume (!a); cover (a); end
/*second 0 4*/  always @(posedge c) if (a) assert (a); else x <= 1;
/*second 0 5*/  late: assert property (a |-> a);
/*second 0 6*/  initial assert (a);
/*second 0 7*/endmodule
"""
    telling = piece("told").Telling(text, "mark")
    made = telling.telling()
    its = [(it.word, it.label, it.line, it.is_clocked, it.is_initial) for it in telling.statements]
    wanted = [("assert", "one", 2, False, False), ("assert", "two", 3, False, False), ("assume", "", 3, False, False)]
    wanted += [("assert", "", 4, True, False), ("assert", "", 6, False, True)]
    need(its == wanted, f"other statements: {its}")
    need(telling.temporal == 1 and made.count("\n") == text.count("\n"), "other lines", made)
    need(not re.search(r"\b(assert|assume|cover)\b", made) and made.count("$display") == 6, "other statements", made)


def pieces_of_quiet(_):
    """What acts on more than values is dropped or refused."""
    quiet, unable = piece("quiet").Quiet, piece("faults").Unable
    text = (
        'module m; initial begin $finish; $display("%d", 1); if (a) $stop(2); end assign #3 b = $signed(c); endmodule'
    )
    made = quiet(text, Path("."), None).quieted()
    need(not re.search(r"\$finish|\$display|\$stop|#", made) and "$signed" in made, "it is not quiet", made)
    for word in ('$fopen("x")', "$random", "$test$plusargs(1)", "$value$plusargs(1)", "$fscanf(a)", "$system(1)"):
        try:
            quiet(f"module m; assign a = {word}; endmodule", Path("."), None).quieted()
        except unable:
            continue
        raise checked.Wrong(f"{word} is simulated")


def pieces_of_walks(_):
    """Processes and assertions are found in all that surrounds them."""
    text = """module m; function f(input x); begin assert (x); f = x; end endfunction
generate if (P) begin : g for (i = 0; i < 2; i = i + 1) always @* case (a) 0, 1: assert (b); default begin x = 1; end
endcase end else assert property (c); endgenerate
always_ff @(posedge c or negedge r) if (!r) x <= {1'b0, y[3:0]}; else begin : n unique case (a) 1: x <= 1; endcase
assert (d); end final x = 1; initial forever #5 c = !c; wire w = a ? b : c; \\odd: : assert property (w); endmodule"""
    tokens = piece("tokens").tokens_of(text)
    walk = piece("statements").Walk(tokens).all()
    words = [(it.word, it.is_clocked, it.is_mixed) for it in walk.processes]
    always, ff = ("always", False, False), ("always_ff", True, True)
    need(words == [always, ff, ("final", False, False), ("initial", False, False)], f"other processes: {words}")
    its = [(it.label, it.process and it.process.word) for it in walk.found]
    need(its == [("", "always"), ("", None), ("", "always_ff"), ("odd:", None)], f"other assertions: {its}")


def rows():
    each = functools.partial
    for which in WRONG:
        yield f"a Yosys that {which}", each(mistranslated, which)
    for which in KINDER:
        yield f"in Icarus too: {which}", each(kinder, which)
    for which in RIGHT:
        yield f"agrees with Icarus: {which}", each(right, which)
    for which in SIMULATORS:
        yield f"an Icarus that {which}", each(lying, which)
    yield "an Icarus that takes a design otherwise", wrong_simulator
    yield "an Icarus that sleeps", sleeping
    missing = {"IVERILOG": "no such program", "VERILATOR": "no such program"}
    yield "no Icarus", each(without, missing, "no second front end was asked: .*iverilog", [])
    yield "no second front end is wanted", each(without, {}, "", ["--second", "none"])
    yield "another second front end", refused_option
    yield "Verilator in the place of Icarus", by_verilator
    yield "a cover that Icarus takes otherwise", of_a_cover
    yield "both waveforms where the two differ", kept_waves
    yield "two designs in Icarus", of_two
    yield "witnesses in Icarus", witnesses
    yield "no alarm of any design", no_alarm
    for made in (pieces_of_past, pieces_of_telling, pieces_of_quiet, pieces_of_walks):
        yield f"the second front end's {made.__name__}", made
