"""Rows of many assertions at once: models made by chance beside all their states, what is kept of them and checked
again without those that are reached, how few programs run, and tools that lie."""
import functools
import random
import shlex

from lib import images
from lib.check import checked, design_rows, model_rows, reached, stand_ins, vacuous_rows
from lib.check.checked import Truth

BY_CHANCE, BAD = 24, 20


def many(chance, count):
    """A circuit with so many bad states, each a conjunction of its literals."""
    made = vacuous_rows.made_by(chance)
    gates, variable = list(made.gates), made.largest
    own, bad = [*made.inputs, *made.latches, *(gate[0] // 2 for gate in made.gates)], []
    for _ in range(count):
        end = 1
        for it in chance.sample(own, min(len(own), chance.randrange(2, 6))):
            variable += 1
            gates.append((2 * variable, end, 2 * it + chance.randrange(2)))
            end = 2 * variable
        bad.append(end)
    return images.Circuit(
        variable, made.inputs, made.latches, made.nexts, made.resets, [], bad, made.constraints[:1], [], [], gates, "", None
    )


def truths_of(made, name):
    kept = reached.kept(made)
    return [Truth(f"b{at}", name, step, kept=kept) for at, step in enumerate(reached.steps(made))]


def by_chance(at, has_tools, room):
    """Of each bad state what is so by all states; and what is kept."""
    made = many(random.Random(at), BAD)
    (room.here / "model.aag").write_bytes(images.ascii_text(made))
    room.may_write.add("kept")
    said = room.run("--keep", "kept", "model.aag", changes=has_tools(room))
    found = checked.judge(said, truths_of(made, "model.aag"))
    checked.judge_kept(room, room.here / "kept", found, said)


def another_aiger(at, room):
    """An aiger of another version than the library is asked itself, and says the same."""
    made = many(random.Random(at), BAD)
    (room.here / "model.aag").write_bytes(images.ascii_text(made))
    log = room.folder / "asked"
    body = f'[ "$1" != --version ] || exec echo another version\necho "$1" >> {shlex.quote(str(log))}\nexec {room.program} "$@"'
    changes = {**model_rows.real(room), "AIGER": stand_ins.put(room.folder / "other", "aiger", body)}
    checked.judge(room.run("model.aag", changes=changes), truths_of(made, "model.aag"))
    checked.need("aigunroll" in log.read_text(encoding="ascii"), "it is not asked")


def shifts(count, ends):
    """A shift register of so many latches that a 1 goes through, and the bad states that it is at these places, and that
    it is at two places at once."""
    latches = [f"{2 * at + 2} {2 * at if at else 0}{' 1' if at == 0 else ''}" for at in range(count)]
    both = 2 * count + 2
    bad = [*(2 * at + 2 for at in ends), *([both] * count)]
    return f"aag {count + 1} 0 {count} 0 1 {len(bad)}\n" + "\n".join([*latches, *map(str, bad), f"{both} 4 2", ""])


def kept_once(room):
    """What shows all that are never reached is kept once; each script checks it, without those that are reached."""
    changes, kept = model_rows.real(room), room.here / "kept"
    (room.here / "model.aag").write_text(shifts(6, [2, 4]), encoding="ascii")
    room.may_write.add("kept")
    said = room.run("--keep", "kept", "model.aag", changes=changes)
    steps = [2, 4, *[None] * 6]
    found = checked.judge(said, [Truth(f"b{at}", "model.aag", step) for at, step in enumerate(steps)])
    checked.judge_kept(room, kept, found, said)
    names = sorted(it.name for it in kept.glob("*.drat"))
    checked.need(names == ["together.drat"], f"kept {names}", said)
    script = kept / "b2.check.sh"
    text = script.read_text(encoding="ascii")
    checked.need('without=" 0 1 "' in text, f"the script is {text!r}", said)
    for other in ('without=" 0 "', 'without=" "', 'without=" 2 3 4 5 6 7 "'):
        script.write_text(text.replace('without=" 0 1 "', other), encoding="ascii")
        checked.need(not checked.succeeds(script.name, room, kept), f"the script succeeds with {other}", said)
    script.write_text(text, encoding="ascii")
    model = checked.model_of(kept)
    model.write_bytes(model.read_bytes() + b"c\nanother\n")
    checked.need(not checked.succeeds(script.name, room, kept), "the script succeeds with another model", said)


def few_programs(count, most, room):
    """However many assertions there are that need no search, few programs run."""
    changes, log = model_rows.honest(room), room.folder / "ran"
    for name in ("ABC", "SOLVER"):
        called = changes[name].rsplit("/", 1)[-1]
        changes[name] = stand_ins.put(room.folder / "counted", called, f'echo run >> {shlex.quote(str(log))}\nexec {changes[name]} "$@"')
    bad = "".join("0\n" for _ in range(count))
    (room.here / "model.aag").write_text(f"aag 1 0 1 0 0 {count}\n2 3\n{bad}", encoding="ascii")
    said = room.run("model.aag", changes=changes)
    checked.judge(said, [Truth(f"b{at}", "model.aag", None) for at in range(count)])
    ran = len(log.read_text(encoding="ascii").splitlines()) if log.exists() else 0
    checked.need(ran <= most, f"{ran} programs ran", said)


DESIGN = """module m(input clk, input [7:0] a);
{}
endmodule
"""


def counters(count, is_broken):
    """So many counters, each with an assertion; whether it fails."""
    lines = []
    for at in range(count):
        step = f"c{at} <= c{at} == {9 - at % 3} ? 0 : c{at} + a[{at % 8}]"
        limit = 10 - at % 3 - (4 if is_broken(at) else 0)
        lines.append(f"reg [3:0] c{at} = 0; always @(posedge clk) {step}; p{at}: assert property (c{at} < {limit});")
    return DESIGN.format("\n".join(lines))


def of_design(count, which, room):
    """Many assertions of a design, of which all hold, or some, or none."""
    design_rows.need_tools(*design_rows.TOOLS)
    is_broken = {"all": lambda at: False, "some": lambda at: at % 5 == 4, "one": lambda at: at != 3, "none": lambda at: True}[which]
    (room.here / "m.sv").write_text(counters(count, is_broken), encoding="ascii")
    room.may_write.add("kept")
    said = room.run("--quiet", "--keep", "kept", "--top", "m", "m.sv")
    wanted = [Truth(f"m.p{at}", f"m.sv:{at + 2}", 6 - at % 3 if is_broken(at) else None) for at in range(count)]
    found = checked.judge(said, wanted)
    checked.judge_kept(room, room.here / "kept", found, said)


# of each model its text, and what is said of it where ABC is not there: an assertion that is inductive needs no ABC
INDUCTIVE = {
    "two tokens that change places": (model_rows.TEXTS[model_rows.TOKENS][0], "never"),
    "a latch that stays": ("aag 1 0 1 0 0 1\n2 2\n2\n", "never"),
    "a latch that a constraint keeps at 1": ("aag 2 1 1 0 0 1 1\n2\n4 3 1\n5\n3\n", "never"),
    "two that follow one another": ("aag 4 1 2 0 1 1\n2\n4 2\n6 4\n8\n8 6 5\n", "reached at 2"),
    "two that are shown side by side": ("aag 2 0 2 0 0 2\n2 4\n4 2\n2\n4\n", "never"),
    "a ring, of which the states before are not enough": (model_rows.TEXTS[model_rows.RING][0], "none within 8"),
    "what depends on an input": ("aag 3 1 1 0 1 1\n2\n4 4\n6\n6 4 2\n", "never"),
}


def inductive(which, room):
    """What is shown without ABC, and kept and checked again."""
    text, answer = INDUCTIVE[which]
    (room.here / "model.aag").write_text(text, encoding="ascii")
    room.may_write.add("kept")
    changes = {**model_rows.honest(room), "ABC": "none"}
    said = room.run("--frames", "8", "--keep", "kept", "model.aag", changes=changes)
    found = checked.of_lines(said)
    lines = [it.partition("): ")[2].partition(",")[0] for it in said.out.splitlines()[:-1]]
    checked.need(set(lines) == {answer}, f"{answer} is due", said)
    checked.judge_kept(room, room.here / "kept", found, said)


def lying(name, said, room):
    """A tool that lies: no line is wrong."""
    made = many(random.Random(3), 6)
    (room.here / "model.aag").write_bytes(images.ascii_text(made))
    changes = model_rows.honest(room)
    lies = stand_ins.lying_solver if name == "SOLVER" else stand_ins.lying_abc
    changes[name] = lies(room.folder / "lies", said)
    words = ["--frames", "6", "--limit", "60", "model.aag"]
    checked.judge(room.run(*words, changes=changes), truths_of(made, "model.aag"), checked.SAFE, 6)


def rows():
    each = functools.partial
    for at in range(BY_CHANCE):
        yield f"together: model {at}", each(by_chance, at, model_rows.real)
    for at in range(0, BY_CHANCE, 6):
        yield f"together: model {at}, by another aiger", each(another_aiger, at)
    yield "together: kept once", kept_once
    for count, most in ((2, 0), (40, 0), (1000, 0)):
        yield f"together: few programs for {count}", each(few_programs, count, most)
    for which in ("all", "some", "one", "none"):
        yield f"together: a design of which {which} hold", each(of_design, 10, which)
    for which in INDUCTIVE:
        yield f"by induction: {which}", each(inductive, which)
    for said in stand_ins.SOLVER_LIES:
        yield f"together: the solver gives {said}", each(lying, "SOLVER", said)
    for said in stand_ins.ABC_LIES:
        yield f"together: ABC gives {said}", each(lying, "ABC", said)
