"""Rows of designs: what is said of each assertion, in lines and as an object, kept and checked again, by each solver;
and what Yosys's own `sat`, ABC and a search through all states say of the same assertion."""
import functools
import itertools
import os
import shutil
import subprocess

from lib import images
from lib.check import checked, designs, reached
from lib.check.checked import Truth

# states and inputs of which a search through all of them looks at
SMALL = 6
BY_HAND = ["cadical", "kissat", "cryptominisat5", "minisat", "picosat"]
WITHOUT_REFUTATION = ["minisat", "picosat"]
TOOLS = ["yosys", "berkeley-abc", "cadical"]


def need_tools(*names):
    for name in names:
        if not shutil.which(name):
            raise checked.Skipped(f"{name} is not installed")


@functools.lru_cache(None)
def step_by_sat(design, assertion):
    return designs.by_sat(design, assertion)


def truths(design):
    """What is so of a design's assertions; how long a step is where it has clocks, Yosys says."""
    found = []
    for it in designs.wanted(design):
        if it.is_live:
            found.append(Truth(it.name, it.place, None, it.answer == "lasso"))
            continue
        step = step_by_sat(design, it)[0] if it.answer == "reached" and it.step is None else it.step
        found.append(Truth(it.name, it.place, step, kept=it.kept))
    return found


def placed(room):
    """Puts all designs where a row runs."""
    shutil.copytree(designs.FOLDER, room.here, dirs_exist_ok=True)


def words_of(design):
    return [*design.words, "--top", design.top, *design.files]


def in_lines(design, room):
    """The lines, and what is kept."""
    need_tools(*TOOLS)
    placed(room)
    room.may_write.add("kept")
    frames = int(design.words[1]) if design.words[:1] == ("--frames",) else checked.FRAMES
    said = room.run("--jobs", "2", "--keep", "kept", *words_of(design))
    found = checked.judge(said, truths(design), frames=frames)
    checked.need("does not fail in Yosys's replay" not in said.err, "a replay without a failure", said)
    checked.judge_kept(room, room.here / "kept", found, said)


def as_object(design, room):
    need_tools(*TOOLS)
    placed(room)
    frames = int(design.words[1]) if design.words[:1] == ("--frames",) else checked.FRAMES
    checked.judge(room.run("--json", *words_of(design)), truths(design), frames=frames)


def least(design, assertion):
    """Whether an assertion is reached, and where; of several in one place, which Yosys cannot tell apart, the first."""
    same = [it for it in designs.wanted(design) if (it.name, it.place) == (assertion.name, assertion.place)]
    steps = [it.step for it in same if it.answer == "reached"]
    return bool(steps), min((it for it in steps if it is not None), default=None)


def by_sat(design, assertion, _):
    need_tools("yosys")
    step, is_shown = step_by_sat(design, assertion)
    is_reached, wanted = least(design, assertion)
    checked.need((step is not None) == is_reached and (wanted is None or step == wanted), f"sat fails at {step}")
    checked.need(not (is_shown and is_reached), "sat shows it by induction")


def by_abc(design, assertion, room):
    """What ABC says of the assertion's own model, and what all its states do where they are few."""
    need_tools("yosys", "berkeley-abc")
    model, folded = room.folder / "model.aig", [room.folder / f"folded.{it}" for it in ("aag", "aig")]
    designs.written(design, assertion, model)
    text = subprocess.run([room.program, "aigtoaig", "--ascii", model], capture_output=True, check=True).stdout
    made = reached.read(text)
    is_reached, wanted = least(design, assertion)
    wanted = step_by_sat(design, assertion)[0] if is_reached and wanted is None else wanted
    if len(made.latches) + len(made.inputs) <= SMALL:
        steps = [it for it in reached.steps(made) if it is not None]
        checked.need(min(steps, default=None) == wanted, f"a search through all states finds {steps}, not {wanted}")
    steps = []
    for bad in range(len(made.bad)):
        folded[0].write_bytes(images.ascii_text(reached.folded(made, bad)))
        subprocess.run([room.program, "aigtoaig", *folded], check=True)
        steps.append(designs.by_abc(folded[1], design.steps))
    came = min((it for it in steps if it is not None), default=None)
    checked.need(came == wanted, f"ABC says {steps}, not {wanted}")


def by_solver(solver, design, room):
    """The same lines by each solver, where it can give a refutation; and else the same steps."""
    need_tools(*TOOLS, solver)
    placed(room)
    wanted = truths(design)
    way = checked.SAFE if solver in WITHOUT_REFUTATION else checked.EXACT
    said = room.run("-s", solver, *words_of(design))
    found = checked.judge(said, wanted, way)
    if way == checked.EXACT:
        return
    came = sorted(it.steps for it in found if it.answer == "reached")
    checked.need(came == sorted(it.step for it in wanted if it.step is not None), "another step", said)
    for it in found:
        checked.need(it.answer != "unknown" or "cadical" in it.reason, "cadical is not named", said)


def deep(room):
    """A bad state behind the bound, where ABC does not find it."""
    need_tools("yosys", "cadical")
    placed(room)
    said = room.run("--top", "deep", "deep.sv", changes={"ABC": "false"})
    checked.judge(said, [Truth("deep.late", "deep.sv:4", 60)])


def deep_kept(room):
    """The same, and what is kept of it: the counter has no input, so that its clauses fold, and the script has to say so."""
    need_tools("yosys", "cadical")
    placed(room)
    room.may_write.add("kept")
    said = room.run("--keep", "kept", "--top", "deep", "deep.sv", changes={"ABC": "false"})
    found = checked.judge(said, [Truth("deep.late", "deep.sv:4", 60)])
    checked.judge_kept(room, room.here / "kept", found, said)
    script = (room.here / "kept" / "deep.late.check.sh").read_text(encoding="utf-8")
    checked.need(" --simplify " in script, f"it checks other clauses: {script}", said)


def deep_with_abc(room):
    """ABC finds it, so that it may be said to be reached."""
    need_tools(*TOOLS)
    placed(room)
    said = room.run("--top", "deep", "deep.sv")
    found = checked.answers_of(said)
    checked.need(found[0].answer in ("none within", "reached"), "another answer", said)
    checked.need(found[0].answer != "reached" or found[0].steps == 60, "another step", said)
    checked.need(said.status == checked.status_of(found, 50), "another status", said)


def bound(frames, answer, room):
    """A bound just below and above what it takes."""
    need_tools("yosys", "cadical")
    placed(room)
    said = room.run("--frames", str(frames), "--top", "deep", "deep.sv", changes={"ABC": "false"})
    checked.need(said.out.startswith(f"deep.late (deep.sv:4): {answer}\n"), f"{answer} is due", said)


def left_out(room):
    """What is left out is noted by name and place."""
    need_tools(*TOOLS)
    placed(room)
    said = room.run("--top", "left_out", "left_out.sv")
    noted = [it for it in said.err.splitlines() if "left_out.sv:4" in it]
    checked.need(noted and "cover" in noted[0] and "left_out.seen" in noted[0], "the cover is not noted", said)
    checked.need(all(it.startswith("aiger-check: ") for it in said.err.splitlines()), "another note", said)
    quiet = room.run("--quiet", "--top", "left_out", "left_out.sv")
    checked.need((quiet.err, quiet.out) == ("", said.out), "it is not quiet", quiet)


def fairness_left_out(room):
    """Fairness is for liveness alone: where there is none, it is noted by name and place."""
    need_tools(*TOOLS)
    placed(room)
    said = room.run("--top", "fair_alone", "fair_alone.sv")
    noted = [it for it in said.err.splitlines() if "fair_alone.often (fair_alone.sv:4)" in it]
    checked.need(noted and "fairness" in noted[0], "fairness is not noted", said)


def noted_clocks(design, room):
    """How several clocks are taken is said in a line."""
    need_tools(*TOOLS)
    placed(room)
    said = room.run(*words_of(design))
    is_noted = any(it.startswith("aiger-check: ") and "clock" in it for it in said.err.splitlines())
    checked.need(is_noted, "no note of clocks", said)


def says_nothing(words, patterns, room):
    """A design of which nothing can be said, and why not; of a top that is no name the command line is refused."""
    need_tools("yosys")
    placed(room)
    status = checked.USAGE if "shell" in words[1] else checked.TROUBLE
    checked.refused(room.run(*words), *patterns, status=status)


REFUSED = {
    "no assertion": (["--top", "no_assertion", "no_assertion.sv"], ["assertion"]),
    "another top": (["--top", "nowhere", "counter.sv"], ["nowhere"]),
    "a top that is a command": (["--top", "counter; shell touch hacked", "counter.sv"], ["aiger-check: "]),
    "a top that is a line": (["--top", "counter\nshell touch hacked", "counter.sv"], ["aiger-check: "]),
    "a syntax error": (["--top", "broken", "parts/broken.sv"], [r"parts/broken\.sv:4"]),
    "a property that is not taken": (["--top", "concurrent", "parts/concurrent.sv"], [r"parts/concurrent\.sv:2: throughout"]),
    "a part that is missing": (["--top", "missing_part", "parts/missing_part.sv"], ["nowhere"]),
    "a file that is missing": (["--top", "counter", "counter.sv", "none.sv"], [r"none\.sv"]),
    "a folder for a file": (["--top", "counter", "folder.sv"], [r"folder\.sv"]),
    "an include that is missing": (["--top", "defined", "-DWIDTH=3", "defined.sv"], [r"defined\.sv:1|limits\.svh"]),
    "a net with two drivers": (["--top", "two_drivers", "parts/two_drivers.sv"], ["both|left|right"]),
    "a register with two writers": (["--top", "two_writers", "parts/two_writers.sv"], ["both"]),
    "a loop of gates": (["--top", "loop", "parts/loop.sv"], ["loop|around"]),
    "a file given twice": (["--top", "counter", "counter.sv", "counter.sv"], ["counter"]),
}


def undefined_word(room):
    """Without -D CHECKED the design has no assertion."""
    need_tools("yosys")
    placed(room)
    checked.refused(room.run("-DWIDTH=3", "-I", "parts", "--top", "defined", "defined.sv"), "assertion")


def other_place(room):
    """Files by another path are named as they are given."""
    need_tools(*TOOLS)
    for name in ("a folder", "with 'quotes'", 'and "more"', "a;b", "$(touch hacked)", "-x"):
        folder = room.here / name
        folder.mkdir()
        shutil.copy(designs.FOLDER / "counter.sv", folder / "a counter.sv")
        for given in (f"./{name}/a counter.sv", str(folder / "a counter.sv")):
            said = room.run("--quiet", "--top", "counter", given)
            wanted = designs.wanted(designs.one("counter"))
            checked.judge(said, [Truth(it.name, it.place.replace("counter.sv", given), it.step) for it in wanted])


def spaced_words(room):
    """Values and folders with spaces and quotes."""
    need_tools(*TOOLS)
    folder = room.here / "a folder's"
    folder.mkdir()
    (folder / "limits.svh").write_text("`define START 2'd1\n", encoding="ascii")
    text = '`include "limits.svh"\nmodule m(input clk); reg [1:0] a = `START; always @(posedge clk) a <= `NEXT;\n'
    (room.here / "m.sv").write_text(text + "low: assert property (a != `LAST);\nendmodule\n", encoding="ascii")
    words = ["-I", "a folder's", "-D", "NEXT=(a == 3) ? 0 : a + 1", "-DLAST=2'b11", "--top", "m", "m.sv"]
    checked.judge(room.run(*words), [Truth("m.low", "m.sv:3", 2)])


def others(room):
    """AIGER, SOLVER and ABC by names from where the command is run."""
    need_tools(*TOOLS)
    placed(room)
    os.symlink(room.program, room.here / "my aiger")
    for name in ("cadical", "berkeley-abc", "yosys"):
        os.symlink(shutil.which(name), room.here / name)
    changes = {"AIGER": "./my aiger", "SOLVER": "./cadical", "ABC": "./berkeley-abc", "YOSYS": "./yosys"}
    checked.judge(room.run("--top", "counter", "counter.sv", changes=changes), truths(designs.one("counter")))
    said = room.run("-s", "./cadical", "--top", "counter", "counter.sv")
    checked.judge(said, truths(designs.one("counter")))


def replayed(design, room):
    """Each counterexample is replayed on the Verilog, and the assertion that fails there is named."""
    need_tools(*TOOLS)
    placed(room)
    said = room.run(*words_of(design))
    for it in checked.judge(said, truths(design)):
        noted = [line for line in said.err.splitlines() if it.name in line and it.source in line and "replay" in line]
        checked.need(len(noted) == (it.answer == "reached"), f"{it} has the notes {noted}", said)


def contradiction(room):
    """Assumptions that no run keeps are told even with --quiet, since each assertion then holds."""
    need_tools(*TOOLS)
    placed(room)
    said = room.run("--quiet", "--top", "contradictory", "contradictory.sv")
    checked.need("contradict" in said.out and said.status == checked.VACUOUS, "it is not told", said)


def without_abc(design, room):
    need_tools("yosys", "cadical")
    placed(room)
    said = room.run("--frames", "12", *words_of(design), changes={"ABC": "no such program"})
    checked.judge(said, truths(design), checked.BOUNDED, 12)


def one_job(room):
    """As many jobs as one likes."""
    need_tools(*TOOLS)
    placed(room)
    for jobs in ("1", "3", "64"):
        checked.judge(room.run("--jobs", jobs, *words_of(designs.BOARD)), truths(designs.BOARD))


def rows():
    each = functools.partial
    for at, design in enumerate(designs.DESIGNS):
        yield f"the design {design.top}, kept", each(in_lines, design)
        if at % 3 == 0:
            yield f"the design {design.top} as an object", each(as_object, design)
        for it in designs.wanted(design) if design.has_others else ():
            if it.is_live:
                continue
            yield f"{it.name} of {it.place} by sat", each(by_sat, design, it)
            yield f"{it.name} of {it.place} by ABC", each(by_abc, design, it)
    some = ["counter", "not_inductive", "two_clocks", "memory", "initial_violated", "drained"]
    for solver, top in itertools.product(BY_HAND, some):
        yield f"the design {top} by {solver}", each(by_solver, solver, designs.named(top))
    for top in ("counter", "assumed", "two_clocks", "memory", "identical", "drained"):
        yield f"the design {top} without ABC", each(without_abc, designs.named(top))
    for frames, answer in ((1, "none within 1"), (60, "none within 60"), (61, "reached at 60")):
        yield f"a bound of {frames}", each(bound, frames, answer)
    for top in ("two_clocks", "clock_bits", "global_clock", "gclk", "both_edges", "latch", "clocked_latch"):
        yield f"a note of the clocks of {top}", each(noted_clocks, designs.named(top))
    for name, (words, patterns) in REFUSED.items():
        yield name, each(says_nothing, words, patterns)
    for top in ("counter", "memory", "two_clocks", "reset_to_1", "kept", "past", "drained"):
        yield f"the runs of {top} replayed", each(replayed, designs.named(top))
    yield "assumptions that contradict one another", contradiction
    yield "deeper than the bound", deep
    yield "deeper than the bound, and kept", deep_kept
    yield "deeper than the bound, by ABC", deep_with_abc
    yield "what is left out", left_out
    yield "fairness that is left out", fairness_left_out
    yield "a word that is not defined", undefined_word
    yield "files elsewhere", other_place
    yield "words with spaces", spaced_words
    yield "programs by other names", others
    yield "any number of jobs", one_job
