"""Rows of tools that are missing, fail, sleep, are killed or lie: they cost answers, and never give a wrong line."""
import functools
import itertools
import os
import shutil
import subprocess

from lib.check import checked, design_rows, model_rows, stand_ins
from lib.check.model_rows import LATE, MAJORITIES, NEVER, RING, TOGGLE

CONSTRAINED = "a constraint of a latch"
BASICS = ["python3", "bash", "sh", "env", "sleep"]


def put(room, which):
    """A model to run, and what is so of it."""
    text, steps = model_rows.TEXTS[which]
    (room.here / "model.aag").write_text(text, encoding="ascii")
    return model_rows.named(text, steps, "model.aag")


def few(room, **tools):
    """A PATH with these tools alone."""
    folder = room.folder / "few"
    folder.mkdir()
    for name in BASICS:
        if shutil.which(name):
            os.symlink(shutil.which(name), folder / name)
    for name, file in tools.items():
        os.symlink(file, folder / name.replace("_", "-"))
    return str(folder)


def all_tools(room):
    found = model_rows.honest(room)
    return {"aiger": room.program, "berkeley_abc": found["ABC"], "cadical": found["SOLVER"]}


NOTHING = {"ABC": None, "SOLVER": None, "AIGER": None, "YOSYS": None}


def with_few(kept, which, way, room):
    """A model, where of the tools just these are there, by the PATH alone."""
    truths = put(room, which)
    tools = {name: file for name, file in all_tools(room).items() if name in kept}
    said = room.run("model.aag", changes={**NOTHING, "PATH": few(room, **tools)})
    if said.out or way != checked.SAFE:
        checked.judge(said, truths, way)
    else:
        checked.refused(said)
    if way == checked.SAFE:
        checked.need("cadical" in said.out + said.err, "the solver is not named", said)


def by_other_name(room):
    """ABC may be called abc."""
    truths = put(room, RING)
    tools = all_tools(room)
    tools["abc"] = tools.pop("berkeley_abc")
    said = room.run("model.aag", changes={**NOTHING, "PATH": few(room, **tools)})
    checked.judge(said, truths)


def without_aiger(changes, room):
    put(room, TOGGLE)
    tools = {name: file for name, file in all_tools(room).items() if name != "aiger"}
    said = room.run("model.aag", changes={**NOTHING, **changes, "PATH": few(room, **tools)})
    checked.refused(said, "aiger-check: .*aiger")


def without_all(words, room):
    put(room, TOGGLE)
    design_rows.placed(room)
    said = room.run(*words, changes={**NOTHING, "PATH": few(room)})
    checked.refused(said, "aiger-check: ")


def without_yosys(room):
    design_rows.placed(room)
    said = room.run("--top", "counter", "counter.sv", changes={**NOTHING, "PATH": few(room, **all_tools(room))})
    checked.refused(said, "yosys")


def by_yosys(body, patterns, room):
    """Yosys fails in some way."""
    design_rows.placed(room)
    changes = {**model_rows.honest(room), "YOSYS": stand_ins.put(room.folder / "other", "yosys", body)}
    checked.refused(room.run("--top", "counter", "counter.sv", changes=changes), *patterns)


YOSYS = {
    "says nothing": ("exit 0", ["yosys"]),
    "fails": ("echo 'ERROR: it is broken.' >&2; exit 1", ["broken"]),
    "fails and says nothing": ("exit 1", ["yosys"]),
    "is killed": ("kill -KILL $$", ["yosys"]),
    "says any bytes": ("head -c 3000 /dev/urandom; head -c 3000 /dev/urandom >&2; exit 1", ["yosys|aiger-check: "]),
    "is another program": ("echo 'usage: yosys'; exit 2", ["yosys|usage"]),
}


def lying_solver(said, which, has_abc, room):
    """The solver says what is not so, or what cannot be checked."""
    truths = put(room, which)
    changes = {"SOLVER": stand_ins.lying_solver(room.folder / "lies", said)}
    changes["ABC"] = stand_ins.honest_abc(room.folder / "lies") if has_abc else "false"
    checked.judge(room.run("--frames", "8", "--limit", "60", "model.aag", changes=changes), truths, checked.SAFE, 8)


def turned_solver(which, room):
    """The solver says the opposite of what is so."""
    truths = put(room, which)
    changes = {**model_rows.honest(room), "SOLVER": stand_ins.turned_solver(room.folder / "lies")}
    checked.judge(room.run("--frames", "8", "model.aag", changes=changes), truths, checked.SAFE, 8)


def lying_abc(said, which, room):
    """ABC says what is not so: the solver still finds what is so within the bound."""
    truths = put(room, which)
    changes = {**model_rows.honest(room), "ABC": stand_ins.lying_abc(room.folder / "lies", said)}
    checked.judge(room.run("--frames", "8", "model.aag", changes=changes), truths, checked.BOUNDED, 8)


def rows_of_another_model(room):
    """ABC gives an invariant that is one, but of another model."""
    truths = put(room, LATE)
    rows_ = r"-11 1\n--1 1\n---1 1\n----1 1\n-----1 1\n"
    body = f"{stand_ins.INVARIANT}printf -- '{rows_}' > \"$invariant\"; {stand_ins.PROVED}"
    changes = {**model_rows.honest(room), "ABC": stand_ins.put(room.folder / "lies", "berkeley-abc", body)}
    checked.judge(room.run("--frames", "8", "model.aag", changes=changes), truths, checked.BOUNDED, 8)


def unproved_rows(which, room):
    """ABC gives the right rows, and does not say that they are proved; or fails behind them."""
    truths = put(room, which)
    for end in (" | sed 's/Property proved/Property UNDECIDED/'", "; exit 3", "; kill -KILL $$"):
        honest = f"{stand_ins.runs('abc.py').removeprefix('exec ')} \"$@\"{end}"
        changes = {**model_rows.honest(room), "ABC": stand_ins.put(room.folder / "lies", "berkeley-abc", honest)}
        checked.judge(room.run("--frames", "8", "model.aag", changes=changes), truths, checked.BOUNDED, 8)


def failing_aiger(word, with_words, status, which, room):
    """aiger fails where it has this word."""
    truths = put(room, which)
    changes = model_rows.honest(room)
    changes["AIGER"] = stand_ins.failing(room.folder / "lies", "aiger", room.program, word, with_words, status)
    said = room.run("--frames", "8", "model.aag", changes=changes)
    if said.out:
        checked.judge(said, truths, checked.SAFE, 8)
    else:
        checked.refused(said)


def bounded(which, is_simplified, older, room):
    """Without ABC a bound is shown by simplified clauses, where most gates go; but not by an older aiger, which has none.
    The script that is kept asks as was asked."""
    truths, kept = put(room, which), room.here / "kept"
    room.may_write.add("kept")
    changes = {**model_rows.honest(room), "ABC": "none"}
    if older:
        changes["AIGER"] = stand_ins.failing(room.folder / "older", "aiger", room.program, "--simplify", "", 2)
    said = room.run("--frames", "8", "--keep", "kept", "model.aag", changes=changes)
    found = checked.judge(said, truths, checked.BOUNDED, 8)
    checked.judge_kept(room, kept, found, said)
    scripts = [it.read_text(encoding="utf-8") for it in kept.glob("*.check.sh")]
    is_said = ["--simplify" in it for it in scripts]
    checked.need(is_said == [is_simplified], f"a script asks in another way: {scripts}", said)


AIGER = {
    "aiger fails at --simplify": ("--simplify", "", 1),
    "aiger fails at --cnf": ("--cnf", "", 1),
    "aiger fails at --answer": ("--answer", "", 1),
    "aiger fails at --refutation": ("--refutation", "", 1),
    "aiger fails at --invariant": ("--invariant", "", 1),
    "aiger fails at --witness": ("--witness", "", 1),
    "aiger does not confirm": ("--witness", "not confirmed", 1),
    "aiger confirms without a number": ("--witness", "confirmed", 0),
    "aiger confirms, and fails": ("--witness", "confirmed 1", 1),
    "aiger confirms more": ("--witness", "confirmed 1\nconfirmed 2", 0),
    "aiger confirms a number that is none": ("--witness", "confirmed -1", 0),
    "aiger says never, and fails": ("--refutation", "never", 1),
    "aiger says another bound": ("--refutation", "none within 999999", 0),
    "aiger says more than never": ("--invariant", "never\nnever", 0),
    "aiger says less than a bound": ("--refutation", "none within", 0),
    "aiger says nothing": ("aigunroll", "", 0),
    "aiger is killed": ("aigunroll", "", "1; kill -KILL $$"),
    "aiger ends with 2": ("aigunroll", "error: unexpected argument", 2),
    "aiger does not convert": ("aigtoaig", "", 1),
}


def slow(name, words, changes, way, room):
    """A tool that sleeps is ended at its limit, with its own child."""
    truths, begun = put(room, RING), room.folder / "begun"
    tools = {**model_rows.honest(room), name: stand_ins.sleeping(room.folder / "slow", changes, begun)}
    said = room.run("--frames", "8", *words, "model.aag", changes=tools)
    checked.judge(said, truths, way, 8)
    checked.need(begun.exists(), "it was not run", said)
    stand_ins.need_ended(begun, said)


def slow_solver_of_late(room):
    """With a solver that sleeps nothing is told, but the reason tells the limit."""
    truths = put(room, LATE)
    tools = {"ABC": "false", "SOLVER": stand_ins.sleeping(room.folder / "slow", "cadical", room.folder / "begun")}
    said = room.run("--frames", "8", "--limit", "1", "model.aag", changes=tools)
    found = checked.judge(said, truths, checked.SAFE, 8)
    for it in found:
        checked.need(it.answer == "unknown" and "1 s" in it.reason, "the limit is not told", said)


def slow_from_two(room):
    """A solver that sleeps from two steps on: what was shown before stays."""
    truths = put(room, NEVER)
    solves = stand_ins.runs("solver.py").removeprefix("exec ")
    body = f'n=$(sed -n "s/^p cnf \\([0-9]*\\) .*/\\1/p" "$clauses"); [ "$n" -lt 20 ] || exec sleep 400\n{solves} "$@"'
    tools = {"ABC": "false", "SOLVER": stand_ins.put(room.folder / "slow", "cadical", stand_ins.FILES + body)}
    said = room.run("--frames", "8", "--limit", "1", "model.aag", changes=tools)
    checked.judge(said, truths, checked.SAFE, 8)


def chatty(name, room):
    """Tools that say very much before they end."""
    truths = put(room, RING)
    script = "solver.py" if name == "SOLVER" else "abc.py"
    honest = stand_ins.runs(script).removeprefix("exec ")
    body = f'yes "c a line" | head -n 200000 >&2; {honest} "$@"'
    called = "cadical" if name == "SOLVER" else "berkeley-abc"
    changes = {**model_rows.honest(room), name: stand_ins.put(room.folder / "chatty", called, body)}
    checked.judge(room.run("model.aag", changes=changes), truths)


def no_program(name, file, room):
    """A variable names what is no program."""
    truths = put(room, RING)
    (room.folder / "cadical").write_text("no program\n", encoding="ascii")
    (room.folder / "folder").mkdir()
    (room.folder / "broken").write_text("#!/no such program\n", encoding="ascii")
    (room.folder / "broken").chmod(0o755)
    changes = {**model_rows.honest(room), name: str(room.folder / file)}
    said = room.run("--frames", "8", "model.aag", changes=changes)
    if said.status in (checked.UNKNOWN, checked.TROUBLE):
        checked.need("aiger-check: " in said.err or "unknown" in said.out, "it is not said", said)
    if said.out:
        checked.judge(said, truths, checked.SAFE, 8)


def real_refutation_of_another(room):
    """A refutation by CaDiCaL, but of other clauses."""
    design_rows.need_tools("cadical")
    truths, clauses, proof = put(room, LATE), room.folder / "other.cnf", room.folder / "other.drat"
    (room.folder / "other.aag").write_text(model_rows.TEXTS[NEVER][0], encoding="ascii")
    words = ["aigunroll", "--frames", "2", "--cnf", str(room.folder / "other.aag"), str(clauses)]
    subprocess.run([room.program, *words], check=True)
    subprocess.run(["cadical", "-q", clauses, proof], check=False, stdout=subprocess.DEVNULL)
    body = f'{stand_ins.FILES}cp {proof} "$refutation"; {stand_ins.UNSAT}'
    changes = {"ABC": "false", "SOLVER": stand_ins.put(room.folder / "lies", "cadical", body)}
    checked.judge(room.run("--frames", "8", "model.aag", changes=changes), truths, checked.SAFE, 8)


def rows():
    each = functools.partial
    for at, said in enumerate(stand_ins.SOLVER_LIES):
        for which in (NEVER, [LATE, CONSTRAINED][at % 2]):
            yield f"of {which} the solver gives {said}", each(lying_solver, said, which, at % 4 < 2)
    for said, which in itertools.product(stand_ins.ABC_LIES, [RING, LATE]):
        yield f"of {which} ABC gives {said}", each(lying_abc, said, which)
    for which in (NEVER, LATE, RING, TOGGLE, CONSTRAINED):
        yield f"the solver turned round, of {which}", each(turned_solver, which)
        yield f"rows that are not proved, of {which}", each(unproved_rows, which)
    for (called, (word, words, status)), which in itertools.product(AIGER.items(), [RING, LATE]):
        yield f"{called}, of {which}", each(failing_aiger, word, words, status, which)
    for called, (body, patterns) in YOSYS.items():
        yield f"Yosys {called}", each(by_yosys, body, patterns)
    for which in (RING, LATE, CONSTRAINED):
        yield f"no ABC, of {which}", each(with_few, ["aiger", "cadical"], which, checked.BOUNDED)
        yield f"no solver, of {which}", each(with_few, ["aiger", "berkeley_abc"], which, checked.SAFE)
        yield f"neither ABC nor a solver, of {which}", each(with_few, ["aiger"], which, checked.SAFE)
        yield f"no Yosys, of {which}", each(with_few, ["aiger", "berkeley_abc", "cadical"], which, checked.EXACT)
    yield f"simplified clauses of {RING}", each(bounded, RING, True, False)
    yield f"an aiger that does not simplify, of {RING}", each(bounded, RING, False, True)
    yield "plain clauses where most gates stay", each(bounded, MAJORITIES, False, False)
    yield "ABC by its other name", by_other_name
    yield "no aiger", each(without_aiger, {})
    yield "an aiger that is not there", each(without_aiger, {"AIGER": "/no/such/aiger"})
    yield "no tool at all, for a model", each(without_all, ["model.aag"])
    yield "no tool at all, for a design", each(without_all, ["--top", "counter", "counter.sv"])
    yield "no Yosys, for a design", without_yosys
    yield "ABC sleeps", each(slow, "ABC", ["--time", "1"], "berkeley-abc", checked.BOUNDED)
    yield "the solver sleeps", each(slow, "SOLVER", ["--limit", "1"], "cadical", checked.SAFE)
    yield "the solver sleeps, and what is so is reached", slow_solver_of_late
    yield "the solver sleeps from two steps on", slow_from_two
    for name in ("SOLVER", "ABC"):
        yield f"{name} says very much", each(chatty, name)
        for file in ("cadical", "folder", "broken", "none"):
            yield f"{name} is {file}, which is no program", each(no_program, name, file)
    yield "ABC gives an invariant of another model", rows_of_another_model
    yield "CaDiCaL gives a refutation of other clauses", real_refutation_of_another
