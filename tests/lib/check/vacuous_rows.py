"""Rows of what is assumed and cannot be kept: designs, liveness and pairs of which each answer would be empty, beside
those whose assumptions can be kept; and models made by chance beside a search through all their states."""
import functools
import itertools
import json
import random
import re

from lib import images
from lib.check import checked, design_rows, model_rows, reached
from lib.check.checked import Truth

BY_CHANCE, FRAMES = 80, 50
COUNTER = "reg [3:0] c = 0; always @(posedge clk) c <= c + 1;"
WIDE = "reg [31:0] c = 0; always @(posedge clk) c <= c + 1;"
FOR_EVER = "for ever"
FIRST = "contradict one another in the first step"


def beyond(step):
    return rf"cannot be kept beyond step {step}$"


# of each design its body, and of each assertion the answer: a word, or the pattern of why it is vacuous
DESIGNS = {
    # what is assumed at an edge is so of the step before it
    "a clocked contradiction": (
        "always @(posedge clk) begin assume (a); assume (!a); end reg x = 0; always @(posedge clk) x <= 1;"
        " p: assert property (!x); q: assert property (0);",
        [beyond(0), "reached at 0"],
    ),
    "a contradiction in each step": ("assume property (a); assume property (!a); p: assert property (0);", [FIRST]),
    "a counter that may not go on": (f"{COUNTER} assume property (c != 2); p: assert property (c != 5);", [beyond(1)]),
    "a counter that meets another": (
        f"{COUNTER} reg [3:0] d = 6; always @(posedge clk) d <= d + 3; assume property (c != d);"
        "p: assert property (c != 14); q: assert property (c != 3);",
        [beyond(4), "reached at 3"],
    ),
    "an input that has to be what it was not": (
        "reg last = 0, begun = 0; always @(posedge clk) begin last <= a; begun <= 1; end"
        " assume property (!begun || last != a); assume property (!begun || last == a); p: assert property (!b || !begun);",
        [beyond(0)],
    ),
    "a shift that runs full": (
        "reg [4:0] s = 0; always @(posedge clk) s <= {s, 1'b1}; assume property (!s[4]); p: assert property (s != 7);"
        "q: assert property (!s[4]);",
        ["reached at 3", beyond(4)],
    ),
    "two modules that disagree": (
        "left l(clk, a); right r(clk, a); reg x = 0; always @(posedge clk) x <= x & b; p: assert property (!x); endmodule"
        " module left(input clk, a); reg seen = 0; always @(posedge clk) begin seen <= 1; assume (!seen || a); end endmodule"
        " module right(input clk, a); reg seen = 0; always @(posedge clk) begin seen <= 1; assume (!seen || !a); end",
        [beyond(1)],
    ),
    "a counter that ends behind the bound": (
        f"reg [6:0] c = 0; always @(posedge clk) c <= c + 1; assume property (c != 70); p: assert property (c != 100);",
        [FOR_EVER],
    ),
    "a start that cannot be": ("reg [1:0] s; initial assume (s == 2); assume property (s < 2); p: assert property (0);", [FIRST]),
    "what is read cannot be written": (
        "reg [1:0] m [0:3]; reg [1:0] at = 0; always @(posedge clk) begin m[at] <= 2'd3; at <= at + 1; end"
        " initial begin m[0] = 0; m[1] = 0; m[2] = 0; m[3] = 0; end assume property (m[1] == 0); p: assert property (m[2] == 0);",
        [beyond(1)],
    ),
    # these can be kept
    "a counter that comes round": (f"{COUNTER} assume property (a || c != 9); p: assert property (c < 16);", ["never"]),
    "a wide counter beside": (f"{WIDE} assume property (!(a && b)); p: assert property (!a || !b);", ["never"]),
    "a wide counter in it": (f"{WIDE} assume property (a || c != 70); p: assert property (a || c != 70);", ["never"]),
    "a wide counter, and a reset at first": (
        f"{WIDE} reg begun = 0; always @(posedge clk) begun <= 1; assume property (begun != a);"
        " assume property (c != 99 || b); p: assert property (begun || a);",
        ["never"],
    ),
    "a start that is assumed": (
        "reg [1:0] s; initial assume (s == 2); always @(posedge clk) if (a) s <= 2; p: assert property (s == 2);", ["never"]
    ),
    "an assumption that is always so": (f"{COUNTER} assume property (c < 16); p: assert property (c < 16);", ["never"]),
    "inputs that take turns": (
        "reg last = 0; always @(posedge clk) last <= a; assume property (a != last);"
        "reg [1:0] n = 0; always @(posedge clk) n <= a ? n + 1 : n; p: assert property (n < 4);",
        ["never"],
    ),
    # liveness
    "liveness, and a counter that may not go on": (
        f"{COUNTER} assume property (c != 2); p: assert property (s_eventually a);", [beyond(1)]
    ),
    "liveness, and a clocked contradiction": (
        "always @(posedge clk) begin assume (a); assume (!a); end p: assert property (s_eventually b);", [beyond(0)]
    ),
    "liveness, and a shift that runs full": (
        "reg [4:0] s = 0; always @(posedge clk) s <= {s, 1'b1}; assume property (!s[4]);"
        " p: assert property (s_eventually a); q: assert property (!s[4]);",
        [beyond(4), beyond(4)],
    ),
    "fairness that an assumption forbids": (
        "assume property (s_eventually a); assume property (!a); p: assert property (s_eventually b);", [FOR_EVER]
    ),
    "fairness of what comes once": (
        "reg s = 0; always @(posedge clk) s <= 1; assume property (s_eventually !s); p: assert property (s_eventually a);",
        [FOR_EVER],
    ),
    "fairness of two that exclude one another": (
        "reg s = 0, chosen = 0; always @(posedge clk) begin chosen <= 1; if (!chosen) s <= a; end"
        " assume property (s_eventually chosen && s); assume property (s_eventually chosen && !s);"
        " p: assert property (s_eventually b);",
        [FOR_EVER],
    ),
    "fairness that can be": (
        "assume property (s_eventually a); p: assert property (s_eventually a); q: assert property (s_eventually b);",
        ["holds", "lasso at"],
    ),
    "fairness beside a bad state": (
        "assume property (s_eventually a); assume property (!a); p: assert property (s_eventually b); q: assert property (b || !b);",
        [FOR_EVER, "never"],
    ),
    "an assumption that liveness needs": (
        "reg [2:0] left = 4; always @(posedge clk) if (a && left != 0) left <= left - 1; assume property (a);"
        " p: assert property (s_eventually left == 0);",
        ["holds"],
    ),
}


def answered(found, wanted, said):
    """That each answer is the one that is due, with the reason that is due."""
    checked.need(len(found) == len(wanted), f"{len(wanted)} answers are due", said)
    for answer, due in zip(found, wanted):
        if answer.startswith("vacuous: "):
            checked.need(re.search(due, answer), f"{due} is due", said)
        else:
            checked.need(answer.startswith(due), f"{due} is due", said)


def status_of(wanted):
    if any(re.match("reached|lasso at|differs|fails", it) for it in wanted):
        return checked.BROKEN
    is_kept = all(re.match("never|holds|none within|equal", it) for it in wanted)
    return checked.KEPT if is_kept else checked.VACUOUS


def in_design(which, room):
    """What is said of a design, in lines and as an object, and that no more is kept than was shown."""
    design_rows.need_tools(*design_rows.TOOLS)
    body, wanted = DESIGNS[which]
    (room.here / "m.sv").write_text(f"module m(input clk, a, b);\n{body}\nendmodule\n", encoding="ascii")
    room.may_write.add("kept")
    said = room.run("--keep", "kept", "--top", "m", "m.sv")
    lines = said.out.splitlines()[:-1]
    answered([it.partition("): ")[2] for it in lines], wanted, said)
    checked.need(said.status == status_of(wanted), f"status {status_of(wanted)} is due", said)
    checked.judge_kept(room, room.here / "kept", checked.answers_of(said), said)
    said = room.run("--json", "--quiet", "--top", "m", "m.sv")
    found = json.loads(said.out)["assertions"]
    answered([spelled(it) for it in found], wanted, said)
    checked.need(said.status == status_of(wanted), f"status {status_of(wanted)} is due", said)


def spelled(it):
    """An answer of an object as a line has it."""
    more = f": {it['reason']}" if "reason" in it else ""
    return it["answer"] + (f" at {it['steps']}" if it["answer"] in ("reached", "lasso", "differs") else "") + more


SIDES = "module m(input clk, a, b, output reg [3:0] c = 0); always @(posedge clk) c <= c + {}; {} endmodule\n"
# of two designs their texts, and what is said
PAIRS = {
    "a counter that may not go on": (SIDES.format("1", "assume property (c != 2);"), SIDES.format("1", ""), [beyond(1)] * 4),
    "a clocked contradiction": (
        SIDES.format("1", "always @(posedge clk) begin assume (a); assume (!a); end"), SIDES.format("1", ""), [beyond(0)] * 4
    ),
    "a difference before it": (SIDES.format("1", "assume property (c != 2);"), SIDES.format("3", ""), [beyond(1), "differs at 1", beyond(1), beyond(1)]),
    "an assumption of the second": (
        SIDES.format("1", ""), SIDES.format("1", "assume property (c != 2);"), [*["equal"] * 4, "fails at 2"]
    ),
    "an assumption that can be kept": (SIDES.format("1", "assume property (a);"), SIDES.format("a", ""), ["equal"] * 4),
    "assumptions of both, which no run keeps": (
        SIDES.format("1", "assume property (c < 3);"), SIDES.format("1", "assume property (c < 4);"),
        [*[beyond(2)] * 4, beyond(2)],
    ),
}
MODELS = {
    "a constraint that is 0": ("aag 1 1 0 1 0 0 1\n2\n2\n0\n", "aag 1 1 0 1 0\n2\n3\n", [FIRST]),
    "a latch that ends all runs": ("aag 2 1 1 1 0 0 1\n2\n4 1\n2\n5\n", "aag 2 1 1 1 0\n2\n4 1\n2\n", [beyond(0)]),
    "a latch that can stay": ("aag 2 1 1 1 0 0 1\n2\n4 2\n4\n5\n", "aag 2 1 1 1 0\n2\n4 2\n4\n", ["equal"]),
}


def of_pair(which, room):
    """What is said of two designs in Verilog."""
    design_rows.need_tools(*design_rows.TOOLS)
    first, second, wanted = PAIRS[which]
    (room.here / "old.sv").write_text(first, encoding="ascii")
    (room.here / "new.sv").write_text(second, encoding="ascii")
    said = room.run("--equal", "--top", "m", "old.sv", "new.sv")
    answered([re.sub(r"^.*?: ", "", it) for it in said.out.splitlines()[:-1]], wanted, said)
    checked.need(said.status == status_of(wanted), f"status {status_of(wanted)} is due", said)


def of_models(which, has_tools, room):
    """What is said of two models."""
    changes = has_tools(room)
    first, second, wanted = MODELS[which]
    (room.here / "old.aag").write_text(first, encoding="ascii")
    (room.here / "new.aag").write_text(second, encoding="ascii")
    said = room.run("--equal", "old.aag", "new.aag", changes=changes)
    answered([re.sub(r"^.*?: ", "", it) for it in said.out.splitlines()[:-1]], wanted, said)
    checked.need(said.status == status_of(wanted), f"status {status_of(wanted)} is due", said)


def made_by(chance):
    """A circuit of a few latches whose constraints often end all runs in some step."""
    latches, inputs = list(range(1, 1 + chance.randrange(2, 5))), chance.randrange(3)
    inputs = list(range(len(latches) + 1, len(latches) + 1 + inputs))
    gates, spare = [], itertools.count(len(latches) + len(inputs) + 1)

    def both(left, right):
        gates.append((2 * next(spare), left, right))
        return gates[-1][0]

    def differ(left, right):
        return both(both(left, right) ^ 1, both(left ^ 1, right ^ 1) ^ 1)

    def any_of(variables):
        return 2 * chance.choice(variables) + chance.randrange(2)

    nexts = [chance.choice([differ, both, differ])(any_of(latches), any_of(latches + inputs)) for _ in latches]
    ends = functools.reduce(both, [2 * it + chance.randrange(2) for it in chance.sample(latches, min(3, len(latches)))])
    ends = both(ends, any_of(inputs)) if inputs and chance.randrange(3) == 0 else ends
    bad = [both(any_of(latches), any_of(latches + inputs)), ends, 0]
    constraints = [ends ^ 1] + ([any_of(latches + inputs)] if chance.randrange(5) == 0 else [])
    largest = next(spare) - 1
    resets = [chance.choice("001x") for _ in latches]
    return images.Circuit(
        largest, inputs, latches, nexts, resets, [], bad, constraints, [], [], gates, "", None
    )


@functools.lru_cache(None)
def models():
    """So many, of which few can be kept in no step at all."""
    found, kinds = [], {}
    for at in itertools.count():
        made = made_by(random.Random(at))
        kept = reached.kept(made)
        kinds[kept] = kinds.get(kept, 0) + 1
        if kinds[kept] <= BY_CHANCE // (3 if kept is None else 8):
            found.append((made, kept))
        if len(found) == BY_CHANCE:
            return found


def by_chance(at, has_tools, frames, room):
    """A model made by chance: what is vacuous, and beyond which step, is so by all its states."""
    made, kept = models()[at]
    (room.here / "model.aag").write_bytes(images.ascii_text(made))
    truths = [Truth(f"b{bad}", "model.aag", step, kept=kept) for bad, step in enumerate(reached.steps(made))]
    words = ["--frames", str(frames), "--jobs", str(1 + at % 3), "model.aag"]
    said = room.run(*words, changes=has_tools(room))
    way = checked.EXACT if frames == FRAMES else checked.BOUNDED
    for it in checked.judge(said, truths, way, frames):
        is_told = re.search(f"beyond step|{FIRST}", it.reason or "")
        checked.need(it.answer != "vacuous" or is_told or kept > frames, f"no step is told of {it}", said)


def bounded(frames, wanted, room):
    """Within a bound that the assumptions are kept for, something is said; beyond it not."""
    changes = {**model_rows.honest(room), "ABC": "none"}
    # a counter of two latches that may not come to 3, beside a ring of three, for which rows of its own are not enough
    text = "aag 10 0 5 0 4 1 1\n2 3\n4 18\n6 10 1\n8 6\n10 8\n20\n13\n12 4 2\n16 5 3\n18 17 13\n20 8 6\n"
    (room.here / "model.aag").write_text(text, encoding="ascii")
    said = room.run("--frames", str(frames), "model.aag", changes=changes)
    answered([it.partition("): ")[2] for it in said.out.splitlines()[:-1]], wanted, said)
    checked.need(said.status == status_of(wanted), f"status {status_of(wanted)} is due", said)


def rows():
    each = functools.partial
    for which in DESIGNS:
        yield f"vacuous: {which}", each(in_design, which)
    for which in PAIRS:
        yield f"vacuous, of a pair: {which}", each(of_pair, which)
    for which in MODELS:
        yield f"vacuous, of two models: {which}", each(of_models, which, model_rows.real)
        yield f"vacuous, of two models: {which}, by stand-ins", each(of_models, which, model_rows.honest)
    for at in range(BY_CHANCE):
        yield f"vacuous: model {at}", each(by_chance, at, model_rows.real, FRAMES)
    for at in range(0, BY_CHANCE, 8):
        yield f"vacuous: model {at}, by stand-ins", each(by_chance, at, model_rows.honest, 3 + at % 5)
    for frames, wanted in ((2, ["none within 2"]), (3, ["none within 3"]), (4, [beyond(2)]), (9, [beyond(2)])):
        yield f"vacuous within {frames}", each(bounded, frames, wanted)
