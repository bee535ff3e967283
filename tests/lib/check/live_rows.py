"""Rows of liveness: what is said of justice properties of designs and models, beside a search for loops through all
states; that what is kept is such a loop; and that no tool that lies gives a wrong line."""
import dataclasses
import functools
import random

from lib import images, liveness
from lib.check import checked, design_rows, designs, model_rows, reached, stand_ins
from lib.check.checked import Truth

BY_CHANCE, BY_STAND_INS = 40, 12
# latches and inputs of which a search through all states looks at
SMALL = 12
MANY = 1000000
STUCK, BOTH, LATE = "a goal that never comes", "a lasso, and none", "a lasso of five steps"


def beside_counter(bits):
    """A model that comes back once a counter of so many bits has, on which nothing that is asked depends."""
    latches, gates, carry, variable = [], [], 1, bits + 1
    for own in range(2, 2 * bits + 2, 2):
        one, other, same, both = range(2 * variable, 2 * variable + 8, 2)
        gates += [(one, own, carry ^ 1), (other, own ^ 1, carry), (same, one ^ 1, other ^ 1), (both, own, carry)]
        latches.append(f"{own} {same ^ 1}\n")
        carry, variable = both, variable + 4
    lines = "".join(f"{gate} {max(its)} {min(its)}\n" for gate, *its in gates)
    return f"aag {variable - 1} 0 {bits} 0 {len(gates)} 0 0 1\n{''.join(latches)}1\n1\n{lines}"


# of each model its text, the first step of each bad state, and of each justice property whether there is a lasso
TEXTS = {
    "a goal that comes": ("aag 1 0 1 0 0 0 0 1\n2 3\n1\n2\n", [], [True]),
    STUCK: ("aag 1 0 1 0 0 0 0 1\n2 2\n1\n2\n", [], [False]),
    # the first needs the input, which fairness wants to be 0 too
    BOTH: ("aag 2 1 1 0 0 0 0 2 1\n2\n4 4\n1\n1\n2\n4\n3\n", [], [True, False]),
    LATE: ("aag 4 0 4 0 0 0 0 1\n2 1\n4 2\n6 4\n8 6\n1\n8\n", [], [True]),
    "goals that come in turn": ("aag 1 0 1 0 0 0 0 1\n2 3\n2\n2\n3\n", [], [True]),
    "goals of which one is left for ever": ("aag 1 0 1 0 0 0 0 1\n2 1\n2\n2\n3\n", [], [False]),
    "a constraint": ("aag 2 1 1 0 0 0 1 1\n2\n4 2\n3\n1\n4\n", [], [False]),
    "a constraint that ends all runs": ("aag 1 0 1 0 0 0 1 1\n2 1\n3\n0\n", [], [False]),
    "no literals": ("aag 1 0 1 0 0 0 0 1\n2 3\n0\n", [], [True]),
    "fairness that is 0": ("aag 1 0 1 0 0 0 0 1 1\n2 3\n1\n2\n0\n", [], [False]),
    "no initial value": ("aag 1 0 1 0 0 0 0 2\n2 2 2\n1\n1\n2\n3\n", [], [True, True]),
    "a reset to 1": ("aag 2 0 2 0 0 0 0 2\n2 0 1\n4 4 1\n1\n1\n2\n4\n", [], [False, True]),
    "no latches": ("aag 1 1 0 0 0 0 0 2\n2\n2\n1\n2\n3\n0\n", [], [True, False]),
    "names": ("aag 1 0 1 0 0 1 0 2 0\n2 3\n2\n1\n1\n2\n0\nb0 high\nj1 a name\nl0 x[0] y\n", [1], [True, False]),
    # a bad state is reached by a run that need not be fair
    "a bad state, and fairness that is 0": ("aag 1 0 1 0 0 1 0 1 1\n2 1\n2\n1\n2\n0\n", [1], [False]),
    # the model has to come back too
    "a counter beside it": (beside_counter(3), [], [True]),
    "a latch that changes once": ("aag 3 1 2 0 0 1 0 1\n2\n4 1\n6 4\n6\n1\n2\n", [2], [True]),
}


def alone(made, number):
    """The circuit of what a justice property depends on: fair runs of it are those of the whole."""
    behind = {own // 2: operands for own, *operands in made.gates}
    behind.update({latch: [following] for latch, following in zip(made.latches, made.nexts)})
    needed, waiting = set(), [it // 2 for it in (*liveness.goals_of(made, number), *made.constraints)]
    while waiting:
        variable = waiting.pop()
        if variable not in needed:
            needed.add(variable)
            waiting += [it // 2 for it in behind.get(variable, ())]
    kept = [it for it in zip(made.latches, made.nexts, made.resets) if it[0] in needed]
    latches, nexts, resets = (list(it) for it in zip(*kept)) if kept else ([], [], [])
    return dataclasses.replace(
        made, inputs=[it for it in made.inputs if it in needed], latches=latches, nexts=nexts, resets=resets,
        outputs=[], bad=[], justice=[made.justice[number]], gates=[it for it in made.gates if it[0] // 2 in needed],
    )


def has_lasso(made, number):
    """Whether a fair run is there, by all states of what it depends on, which are to be few."""
    part = alone(made, number)
    sizes = len(part.latches), len(part.inputs)
    checked.need(sum(sizes) <= SMALL, f"j{number} depends on {sizes[0]} latches and {sizes[1]} inputs")
    return liveness.has_fair_run(part, 0)


def least(made, number):
    """How many steps the least lasso has, if there is one, by all states of the model, and of the circuit for it."""
    run = liveness.run_to_bad(liveness.with_loop(made, number))
    checked.need((run is not None) == liveness.has_fair_run(made, number), f"two answers for j{number} of {made}")
    return len(run[1]) - 1 if run else None


def truths(made, source):
    """What is so of a model, by all its states."""
    names = dict(line.split(" ", 1) for line in made.symbols.splitlines() if line[:1] in ("b", "j"))
    steps, lassos = reached.steps(reached.plain(made)), [least(made, at) for at in range(len(made.justice))]
    kept = reached.kept(reached.plain(made))
    found = [Truth(names.get(f"b{at}", f"b{at}"), source, step, kept=kept) for at, step in enumerate(steps)]
    kept = kept_fairly(made, kept)
    return found + [
        Truth(names.get(f"j{at}", f"j{at}"), source, it, it is not None, kept) for at, it in enumerate(lassos)
    ]


def kept_fairly(made, kept):
    """For how many steps a run can keep the constraints, or None if one can for ever and is fair; very many steps if
    some can for ever, and none is fair."""
    any_fair = dataclasses.replace(made, justice=[made.fairness or [1]], fairness=[])
    if kept is not None or liveness.has_fair_run(any_fair, 0):
        return kept
    return MANY


def read(text):
    """The circuit of a text, with its names."""
    symbols = "".join(line for line in text.splitlines(True) if line[:1] in tuple("ilobj"))
    return dataclasses.replace(reached.read(text.encode()), symbols=symbols)


def need_shortest(room, found, wanted, said):
    """That each lasso that is kept has as few steps as any, unless a note says that this is not proved."""
    least = {it.name: it.step for it in wanted if it.has_lasso}
    for it in found:
        if it.answer == "lasso" and f"{it.name} ({it.source}): that no shorter lasso" not in said.err:
            steps = len((room.here / it.witness).read_text(encoding="ascii").splitlines()) - 4
            checked.need(steps == least[it.name], f"{it} has {steps} steps, and not {least[it.name]}", said)


def of_model(which, has_tools, room):
    """A model in text and in binary, in lines and as an object, and what is kept."""
    text, steps, lassos = TEXTS[which]
    changes, found = has_tools(room), truths(read(text), "model.aag")
    came = [it.step for it in found if it.has_lasso is None], [it.has_lasso for it in found if it.has_lasso is not None]
    checked.need(came == (steps, lassos), f"all states of {text!r} say {came}")
    (room.here / "model.aag").write_text(text, encoding="ascii")
    (room.here / "model.aig").write_bytes(model_rows.binary(room, text))
    room.may_write.add("kept")
    said = room.run("--frames", "12", "--keep", "kept", "model.aag", changes=changes)
    answers = checked.judge(said, found, frames=12)
    checked.judge_kept(room, room.here / "kept", answers, said)
    need_shortest(room, answers, found, said)
    said = room.run("--frames", "12", "--json", "model.aig", changes=changes)
    checked.judge(said, truths(read(text), "model.aig"), frames=12)


def by_chance(at, has_tools, way, frames, room):
    """A model made by chance, in text or binary, and what is kept."""
    made = liveness.circuit(random.Random(at))
    changes, name = has_tools(room), ["model.aag", "model.aig"][at % 2]
    (room.here / name).write_bytes(images.image(made) if at % 2 else images.ascii_text(made))
    room.may_write.add("kept")
    said = room.run("--keep", "kept", "--frames", str(frames), "--jobs", "1", name, changes=changes)
    wanted = truths(made, name)
    found = checked.judge(said, wanted, way, frames)
    checked.judge_kept(room, room.here / "kept", found, said)
    need_shortest(room, found, wanted, said)


def in_design(design, room):
    """All states of what the liveness of a design depends on say the same."""
    design_rows.need_tools(*design_rows.TOOLS)
    design_rows.placed(room)
    room.may_write.add("kept")
    said = room.run("--keep", "kept", *design_rows.words_of(design))
    wanted = [it for it in design_rows.truths(design) if it.has_lasso is not None]
    made = checked.circuit_of(room.program, checked.model_of(room.here / "kept", "live"))
    found = sorted(has_lasso(made, at) for at in range(len(made.justice)))
    checked.need(found == sorted(it.has_lasso for it in wanted), f"all states say {found}", said)


def put(room, which):
    """A model to run, and what is so of it."""
    (room.here / "model.aag").write_text(TEXTS[which][0], encoding="ascii")
    return truths(read(TEXTS[which][0]), "model.aag")


def lying_solver(said, which, room):
    """The solver says what is not so, or what cannot be checked."""
    found = put(room, which)
    changes = {"SOLVER": stand_ins.lying_solver(room.folder / "lies", said)}
    changes["ABC"] = stand_ins.honest_abc(room.folder / "lies")
    checked.judge(room.run("--frames", "6", "--limit", "60", "model.aag", changes=changes), found, checked.SAFE, 6)


def lying_abc(said, which, room):
    """ABC says what is not so: the solver still finds what is so within the bound."""
    found = put(room, which)
    changes = {**model_rows.honest(room), "ABC": stand_ins.lying_abc(room.folder / "lies", said)}
    checked.judge(room.run("--frames", "6", "model.aag", changes=changes), found, checked.BOUNDED, 6)


def failing_aiger(word, with_words, status, room):
    """aiger fails where it has this word."""
    found = put(room, BOTH)
    changes = model_rows.honest(room)
    changes["AIGER"] = stand_ins.failing(room.folder / "lies", "aiger", room.program, word, with_words, status)
    said = room.run("--frames", "6", "model.aag", changes=changes)
    if said.out:
        checked.judge(said, found, checked.SAFE, 6)
    else:
        checked.refused(said)


def bound(frames, answer, room):
    """A bound just below and above the steps of the least lasso, and what is kept."""
    changes = {**model_rows.honest(room), "ABC": "false"}
    found = put(room, LATE)
    room.may_write.add("kept")
    said = room.run("--frames", str(frames), "--keep", "kept", "model.aag", changes=changes)
    checked.need(said.out.startswith(f"j0 (model.aag): {answer}"), f"{answer} is due", said)
    checked.judge_kept(room, room.here / "kept", checked.judge(said, found, checked.BOUNDED, frames), said)


def too_far(room):
    """A model that comes back too late, and what is asked of it at once: that is said."""
    changes = model_rows.honest(room)
    (room.here / "model.aag").write_text(beside_counter(18), encoding="ascii")
    said = room.run("--frames", "3", "model.aag", changes=changes)
    (found,) = checked.answers_of(said)
    is_told = found.answer == "unknown" and "steps" in found.reason
    checked.need(is_told and said.status == checked.UNKNOWN, "another answer", said)


def changed(how, room):
    """What is kept of a lasso is changed: its script fails."""
    changes = model_rows.honest(room)
    put(room, BOTH)
    room.may_write.add("kept")
    said = room.run("--keep", "kept", "model.aag", changes=changes)
    kept = room.here / "kept"
    checked.need(checked.succeeds("j0.check.sh", room, kept), "the script fails", said)
    how(kept)
    checked.need(not checked.succeeds("j0.check.sh", room, kept), "the script succeeds", said)


def another_run(kept):
    (kept / "j0.aiw").write_text("1\nj0\n0\n0\n0\n.\n", encoding="ascii")


def another_property(kept):
    run = (kept / "j0.aiw").read_text(encoding="ascii")
    (kept / "j0.aiw").write_text(run.replace("j0", "j1"), encoding="ascii")


def another_model(kept):
    model = checked.model_of(kept, "live")
    model.write_bytes(model.read_bytes() + b"c\nanother\n")


def no_run(kept):
    (kept / "j0.aiw").unlink()


AIGER = [("--justice-as-bad", "", 1), ("--justice-as-bad", "", 0), ("--justice-as-bad", "aig 0 0 0 0 0", 0)]
AIGER += [("--witness", "confirmed 2", 0), ("--witness", "", 1), ("--refutation", "never", 0), ("aigsim", "", 1)]


def rows():
    each = functools.partial
    for which in TEXTS:
        yield f"liveness of {which}, by stand-ins", each(of_model, which, model_rows.honest)
        yield f"liveness of {which}", each(of_model, which, model_rows.real)
    for at in range(BY_CHANCE):
        yield f"liveness of model {at}", each(by_chance, at, model_rows.real, checked.EXACT, 12)
    for at in range(BY_STAND_INS):
        yield f"liveness of model {at}, by stand-ins", each(by_chance, at, model_rows.honest, checked.BOUNDED, 6)
    for design in designs.LIVE:
        yield f"all states of the design {design.top}", each(in_design, design)
    for said in stand_ins.SOLVER_LIES:
        yield f"liveness, and a solver that says {said}", each(lying_solver, said, BOTH)
    for said in stand_ins.ABC_LIES:
        yield f"liveness, and ABC that says {said}", each(lying_abc, said, BOTH)
    for word, with_words, status in AIGER:
        called = f"liveness, and aiger that ends {word} with {status} and {with_words!r}"
        yield called, each(failing_aiger, word, with_words, status)
    for frames, answer in ((4, "no lasso within 4"), (5, "no lasso within 5"), (6, "lasso at 4")):
        yield f"liveness within {frames}", each(bound, frames, answer)
    yield "a lasso that is too far", too_far
    for how in (another_run, another_property, another_model, no_run):
        yield f"a lasso with {how.__name__}", each(changed, how)
