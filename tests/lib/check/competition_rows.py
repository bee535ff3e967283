"""Rows of --competition: each witness is confirmed of the file that was given, by aiger and by a plain search."""
import functools
import re
import subprocess

from lib import images
from lib.check import checked, model_rows, reached, stand_ins
from lib.check.model_rows import LATE, MODELS, TEXTS, TOGGLE, TOKENS
from lib.check.option_rows import put

FOUND, PROVED = 10, 20
BY_CHANCE = 20
# a lasso by the input, none of a latch that never is 1, and a bad state that is reached, which has a name
LIVE = "aag 2 1 1 0 0 1 0 2\n2\n4 4\n2\n1\n1\n2\n4\nb0 an odd name\nj0 1\n"


def blocks_of(said):
    """The first line, the property and the rest of each answer."""
    found = re.findall(r"([012])\n([bj]\d+)\n((?:[01x]*\n)*)\.\n", said.out)
    checked.need("".join(f"{one}\n{of}\n{rest}.\n" for one, of, rest in found) == said.out, "other lines", said)
    return found


def judged(room, file, said):
    """The answer for each property: the step in which its witness is confirmed, never, or unknown."""
    answers = {}
    for word, of, rest in blocks_of(said):
        answers[of] = {"0": "never", "2": "unknown"}.get(word)
        if word != "1":
            checked.need(not rest, f"{of} has more lines", said)
            continue
        witness = room.folder / "a.aiw"
        witness.write_text(f"{word}\n{of}\n{rest}.\n", encoding="ascii")
        words = [room.program, "aigsim", "--witness", str(room.here / file), str(witness)]
        ran = subprocess.run(words, capture_output=True, text=True, check=False)
        confirmed = re.fullmatch(r"confirmed (\d+)\n", ran.stdout)
        checked.need(confirmed, f"{of} is not confirmed: {ran}", said)
        answers[of] = int(confirmed[1])
    return answers


def answered(steps, file, changes, room):
    """What is said of bad states that are reached in these steps, or never."""
    said = room.run("--competition", file, changes=changes)
    due = {f"b{at}": "never" if step is None else step for at, step in enumerate(steps)}
    checked.need(judged(room, file, said) == due, f"{due} is due", said)
    is_found = any(step is not None for step in steps)
    checked.need(said.status == (FOUND if is_found else PROVED), "another status", said)
    checked.need(said.err == "", "a note", said)


def of_text(which, has_tools, room):
    text, steps = TEXTS[which]
    put(room, {"model.aag": text})
    answered(steps, "model.aag", has_tools(room), room)


def by_chance(at, room):
    made, name = MODELS[at], ["model.aag", "model.aig"][at % 2]
    (room.here / name).write_bytes(images.image(made) if at % 2 else images.ascii_text(made))
    answered(reached.steps(made), name, model_rows.honest(room), room)


def of_liveness(room):
    """Lassos, and liveness that holds, beside a bad state; in the order of properties, by their positions."""
    put(room, {"model.aag": LIVE})
    changes = model_rows.honest(room)
    said = room.run("--competition", "model.aag", changes=changes)
    found = judged(room, "model.aag", said)
    checked.need(list(found) == ["b0", "j0", "j1"] and found["b0"] == 0 and found["j1"] == "never", f"{found}", said)
    checked.need(isinstance(found["j0"], int) and said.status == FOUND, f"{found}", said)
    said = room.run("--competition", "--only", "j1", "model.aag", changes=changes)
    checked.need((said.status, said.out) == (PROVED, "0\nj1\n.\n"), "j1 alone", said)
    said = room.run("--competition", "--mode", "live", "--only", "j*", "model.aag", changes=changes)
    checked.need(list(judged(room, "model.aag", said)) == ["j0", "j1"], "liveness alone", said)
    said = room.run("--competition", "--only", "an odd name", "--only", "j1", "model.aag", changes=changes)
    checked.need(list(judged(room, "model.aag", said)) == ["b0", "j1"], "by a symbol", said)


def bounded(words, room):
    """What is shown for some steps, or not at all, is unknown to a checker, and a note says more."""
    put(room, {"model.aag": TEXTS[TOKENS][0]})
    asked = ["--competition", "--mode", "bmc", "--frames", "3", *words]
    said = room.run(*asked, "model.aag", changes=model_rows.honest(room))
    checked.need((said.status, said.out) == (checked.KEPT, "2\nb0\n.\n"), "another answer", said)
    note = "" if words else "aiger-check: b0 (model.aag): none within 3\n"
    checked.need(said.err == note, f"{note!r} is due", said)
    put(room, {"model.aag": TEXTS[model_rows.RING][0]})
    changes = {"SOLVER": stand_ins.lying_solver(room.folder / "lies", "nothing"), "ABC": "false"}
    said = room.run("--competition", *words, "model.aag", changes=changes)
    checked.need((said.status, said.out) == (checked.UNKNOWN, "2\nb0\n.\n"), "another answer", said)
    checked.need(bool(words) or "b0 (model.aag): unknown: " in said.err, "it does not say why", said)


def some_found(room):
    """One run is enough for status 10, whatever the others are; and the report has the usual outcome."""
    put(room, {"model.aag": TEXTS[LATE][0]})
    room.may_write.add("r.xml")
    words = ["--competition", "--frames", "2", "--mode", "bmc", "--junit", "r.xml", "--sort", "answer", "model.aag"]
    said = room.run(*words, changes=model_rows.honest(room))
    checked.need(judged(room, "model.aag", said) == {"b1": 0, "b0": "unknown"}, "other answers", said)
    checked.need(said.out.startswith("1\nb1\n") and said.status == FOUND, "the worst is first", said)
    report = (room.here / "r.xml").read_text(encoding="utf-8")
    checked.need('value="fail"' in report and "reached at 0" in report, report, said)


def with_files(room):
    """What is kept, and a waveform, as else."""
    put(room, {"model.aag": TEXTS[TOGGLE][0]})
    room.may_write.update(("kept", "w.vcd"))
    said = room.run("--competition", "--keep", "kept", "--vcd", "w.vcd", "model.aag", changes=model_rows.honest(room))
    checked.need(said.out == (room.here / "kept" / "b0.aiw").read_text(encoding="ascii"), "another witness", said)
    waves = (room.here / "w.vcd").read_bytes()
    checked.need(waves == (room.here / "kept" / "b0.vcd").read_bytes(), "another waveform", said)


def without_answer(room):
    """Without a property, or a model, nothing is written."""
    changes = model_rows.honest(room)
    put(room, {"model.aag": "aag 1 1 0 1 0\n2\n2\n", "broken.aag": "aag 1 1 0 1 0\n2\n"})
    for name in ("model.aag", "broken.aag", "none.aag"):
        said = room.run("--competition", name, changes=changes)
        checked.need((said.status, said.out) == (checked.TROUBLE, "") and said.err, "an answer", said)


USAGE = {
    "two models": ["--equal", "model.aag", "model.aag"],
    "Verilog": ["--top", "m", "m.sv"],
    "an object": ["--json", "model.aag"],
    "what is expected": ["--expect", "pass", "model.aag"],
}


def usage(words, room):
    put(room, {"model.aag": TEXTS[TOGGLE][0], "m.sv": "module m; endmodule\n"})
    said = room.run("--competition", *words, changes=model_rows.honest(room))
    checked.refused(said, "--competition", status=checked.USAGE)


def rows():
    each = functools.partial
    for which in TEXTS:
        yield f"competition: {which}", each(of_text, which, model_rows.honest)
    for which in (LATE, TOKENS, "many constraints", "no initial value"):
        yield f"competition: {which}, real tools", each(of_text, which, model_rows.real)
    for at in range(BY_CHANCE):
        yield f"competition: by chance {at}", each(by_chance, at)
    yield "competition: liveness", of_liveness
    for words in ([], ["--quiet"]):
        yield f"competition: bounded and unknown, {words}", each(bounded, words)
    yield "competition: some found", some_found
    yield "competition: files", with_files
    yield "competition: no answer", without_answer
    for called, words in USAGE.items():
        yield f"competition, refused: {called}", each(usage, words)
