"""What holds of the answers about a text that is accepted."""
import dataclasses
import itertools
import re

from lib import answers, images, invariants, miters, refusals, refutations, simplified, traces, unrolled, waves, witnesses
from lib.soak.calls import Call, Failed
from lib.soak.editors import edited
from lib.soak.generators import parsed, simulation, some_rows, stimulus

# of circuits with more inputs only conversions are looked at
MANY_INPUTS = 3000


def relations(here, text):
    """All that must hold between the answers about an accepted text."""
    canonical, image, mapped = there_and_back(here, text)
    made, end = parsed(canonical)
    spelled = images.ascii_text(made) + end
    if spelled != canonical:
        raise Failed("ASCII output is canonical", Call(["aigtoaig", "--ascii"], text), spelled, canonical)
    bodies = [whole[: len(whole) - len(end)] for whole in (canonical, image)]
    here.converts("without symbols and comment the rest is the same", bodies[0], text, "--strip", "--ascii")
    here.converts("without symbols and comment the image is the same", bodies[1], text, "--strip")
    by_name(here, text, canonical, image)
    limited(here, text, canonical, made)
    turned(here, text, made, end)
    undone(here, text, image)
    if len(made.inputs) > MANY_INPUTS:
        return
    models = [text, image, mapped, canonical]
    traces_alike(here, models, made, waves.names_of(end))
    simplified_alike(here, models, made, end)
    unrolled_alike(here, models, made)
    clauses_alike(here, models, made)
    witnesses_alike(here, models, made)
    compared_alike(here, text, image, dataclasses.replace(made, symbols=end.decode("latin-1")))


def there_and_back(here, text):
    """The canonical ASCII text, the image and the mapped image, once they were seen to come back."""
    canonical, image = here.converted(text, "--ascii"), here.converted(text)
    mapped = here.converted(text, "--keep-map")
    here.converts("ASCII output is a fixed point", canonical, canonical, "--ascii")
    here.converts("a text and its ASCII output have one image", image, canonical)
    here.converts("an image is its own image", image, image)
    here.converts("an image survives the trip through ASCII", image, here.converted(image, "--ascii"))
    here.converts("a text and its ASCII output have one mapped image", mapped, canonical, "--keep-map")
    here.converts("what has a map is undone", canonical, mapped, "--undo-map", "--ascii")
    here.converts("what is undone to binary is the image", image, mapped, "--undo-map")
    as_text = here.converted(mapped, "--ascii")
    here.converts("what has a map is undone from ASCII too", canonical, as_text, "--undo-map", "--ascii")
    return canonical, image, mapped


def simplified_alike(here, models, made, end):
    """What is left of all models is one circuit, which is simple, and so are its clauses."""
    it, frames = simplified.simplified(made), here.chance.randrange(1, 3)
    binary, model = images.binary_text(it) + end, here.chance.choice(models[:2])
    here.converts("what is left of a circuit", binary, model, "--simplify")
    here.converts("what is left, in ASCII", images.ascii_text(it) + end, model, "--ascii", "--simplify")
    here.converts("what is left is simple", binary, binary, "--simplify")
    words = [*answers.words_of(frames, None), "--cnf", "--simplify"]
    here.expect("the clauses of what is left", Call(words, model), *simplified.wanted_clauses(made, frames))


def by_name(here, text, canonical, image):
    """Files with names get what streams get, also where the destination is there, or is the source."""
    for name, wanted in (("out.aag", canonical), ("out.aig", image), ("source", image)):
        before = {name: b"there before, and longer" * 50} if here.chance.randrange(2) else {}
        call = Call(["aigtoaig", "source", name], b"", {**before, "source": text})
        here.expect("a file with a name is converted", call, b"")
        if here.left(name) != wanted:
            raise Failed(f"the file {name} has what a stream gets", call, wanted, here.left(name))
    here.expect("names of streams", Call(["aigtoaig", "--ascii", "-", "-"], text), canonical)


def limited(here, text, canonical, made):
    """The largest number of a header is a limit that is kept, and one less is not."""
    largest = max([*map(int, canonical.split(b"\n", 1)[0].split()[1:]), sum(map(len, made.justice))])
    here.converts("a limit that is kept", canonical, text, "--ascii", "--max-var", str(largest))
    if largest:
        call = Call(["aigtoaig", f"--max-var={largest - 1}"], text)
        came = here.ask(call)
        if came[2] != 1 or not came[1].endswith(b": number above the limit\n"):
            raise Failed("a limit that is not kept", call, "number above the limit", came)


def turned(here, text, made, end):
    """With its outputs as bad states a circuit is the same in all else; one that has bad states is refused."""
    words = ["--outputs-as-bad", "--ascii"]
    if made.bad:
        told = b"aiger: -: bad states are there already\n"
        here.expect("bad states are refused", Call(["aigtoaig", *words], text), b"", told, 1)
        return
    symbols = re.match(rb"(?:[a-z]\d+ [^\n]*\n)*", end)[0]
    named = re.sub(rb"^o", b"b", symbols, flags=re.MULTILINE) + end[len(symbols) :]
    of_bad = dataclasses.replace(made, bad=made.outputs, outputs=[])
    here.converts("outputs as bad states", images.ascii_text(of_bad) + named, text, *words)
    here.converts("outputs as bad states, to binary", images.image(of_bad) + named, text, words[0])
    here.converts("outputs as bad states, stripped", images.ascii_text(of_bad), text, *words, "--strip")


def undone(here, text, image):
    """If the text itself is undone, it is the mapped image of what comes of it; or it is refused for its map."""
    call = Call(["aigtoaig", "--undo-map", "--ascii"], text)
    came = here.ask(call)
    if came[2] == 0:
        here.converts("what is undone was converted so", image, came[0], "--keep-map")
    elif refusals.kind_of(came[1]) not in refusals.OF_MAPS:
        raise Failed("what is accepted is refused for its map alone", call, refusals.OF_MAPS, came)


def trace_of(made, given):
    """The texts of the trace without and with properties, and the number of the first bad line, if there is one."""
    return traces.texts(made, witnesses.lines_of(given.decode("latin-1")))


def wanted_trace(made, names, name, given, words):
    """Standard output, standard error and the status of a simulation with these words, over a stimulus of this name, of a
    circuit with these names."""
    if "--vcd" in words:
        return waves.wanted(made, names, name, witnesses.lines_of(given.decode("latin-1")), "--batch" in words)
    texts, bad_at = trace_of(made, given)
    errors = f"aiger: {name}: line {bad_at}: bad stimulus line\n".encode() if bad_at else b""
    output = b"" if bad_at and "--batch" in words else texts["--properties" in words]
    return output, errors, 1 if bad_at else 0


def same_trace(here, models, made, names, given):
    """The models have the trace that is evaluated here, without and with properties, and as a dump, also as a batch."""
    for model, batch, shown in itertools.product(models, ([], ["--batch"]), ([], ["--properties"], ["--vcd"])):
        call, name = simulation(here.chance, model, given, *batch, *shown)
        here.expect("the trace", call, *wanted_trace(made, names, name, given, call.words))


def program_trace(here, model, rows):
    """The lines of the program's trace of these steps, with properties, without the end of the run."""
    call, _ = simulation(here.chance, model, "".join(f"{row}\n" for row in rows).encode(), "--properties")
    came = here.ask(call)
    *lines, end, rest = came[0].decode().split("\n") if rows else ["", ".", ""][1:]
    if came[1:] != (b"", 0) or len(lines) != len(rows) or (end, rest) != (".", ""):
        raise Failed("a step has a line, and the run an end", call, f"{len(rows)} lines and a dot", came)
    return lines


def traces_alike(here, models, made, names):
    """One trace of all models; and what is known stays so, whatever each x stands for."""
    chance = here.chance
    same_trace(here, models, made, names, stimulus(chance, made))
    rows = some_rows(chance, made, 6)
    settled = ["".join(chance.choice("01") if it == "x" else it for it in row) for row in rows]
    model = chance.choice(models)
    before = program_trace(here, model, rows)
    for old, new in zip(before, program_trace(here, model, settled)):
        if len(old) != len(new) or any(was not in ("x", now) for was, now in zip(old, new)):
            call, _ = simulation(chance, model, "".join(f"{row}\n" for row in settled).encode(), "--properties")
            raise Failed("what is known stays, whatever x stands for", call, f"{old} but for x, of {rows}", new)


def unrolled_alike(here, models, made):
    """The unrolled circuit is one, and its row is the trace; it is refused if there is justice or fairness."""
    chance = here.chance
    frames = str(chance.randrange(1, unrolled.FRAMES + 1 if len(made.gates) < 50 else 3))
    words = ["aigunroll", "--frames", frames]
    if made.justice or made.fairness:
        refusal = b"aiger: -: justice or fairness cannot be unrolled\n"
        for model in models[:2]:
            here.expect("liveness is not unrolled", Call(words, model), b"", refusal, 1)
        made = dataclasses.replace(made, justice=[], fairness=[])
        text = images.ascii_text(made)
        models = [text, here.converted(text)]
    text, binary = here.accepted(models[0], *words, "--ascii"), here.accepted(models[0], *words)
    here.expect("the image is unrolled as the source", Call(words, models[1]), binary)
    here.converts("unrolled, ASCII and binary are one circuit", text, binary, "--ascii")
    here.converts("unrolled, binary and ASCII are one circuit", binary, text)
    call = Call([*words, "source", "out.aag"], b"", {"source": models[0]})
    here.expect("a file with a name is unrolled", call, b"")
    if here.left("out.aag") != text:
        raise Failed("the file has what a stream gets", call, text, here.left("out.aag"))
    given, wanted = unrolled.lines_of_steps(chance, made, int(frames))
    here.expect("the unrolled row", simulation(chance, text, given, "--properties")[0], wanted)
    here.expect("the unrolled row, from binary", simulation(chance, binary, given, "--properties")[0], wanted)
    unrolled_trace(here, models[0], made, text, int(frames))


def unrolled_trace(here, model, made, text, frames):
    """The row of the unrolled circuit, where first values are not known, is the program's own trace side by side."""
    rows = (some_rows(here.chance, made, 1) * frames)[:frames]
    rows = [here.chance.choice([row, "0" * len(row), "1" * len(row), "x" * len(row)]) for row in rows]
    first = "x" * len(unrolled.free_latches(made))
    wanted = f"{unrolled.side_by_side(first, program_trace(here, model, rows))}.\n".encode()
    call, _ = simulation(here.chance, text, f"{first}{''.join(rows)}\n".encode(), "--properties")
    here.expect("the unrolled row is the trace", call, wanted)


def clauses_alike(here, models, made):
    """The clauses are those of the unrolled circuit, and a solver's answer has the witness that is evaluated here."""
    chance = here.chance
    frames = chance.randrange(1, 4 if len(made.gates) < 50 else 2)
    bad = chance.choice([None, chance.randrange(len(made.bad) + 1)])
    words = answers.words_of(frames, bad)
    for model in models[:2]:
        here.expect("the clauses", Call([*words, "--cnf"], model), *answers.wanted_clauses(made, frames, bad))
    if not answers.refusal(made, bad):
        text = answers.given(chance, made, frames)
        same_run(here, models, made, frames, bad, edited(chance, text, text) if chance.randrange(2) else text)
        same_refutation(here, models, made, frames, bad)
    same_invariant(here, models, made, bad)


def same_invariant(here, models, made, bad):
    """The clauses of an invariant are those of the circuit that is made of it; of the image too, which has other numbers."""
    chance, words = here.chance, ["aigunroll", "--cnf", *([] if bad is None else ["--bad", str(bad)])]
    text = invariants.given(chance, made, [])
    text = edited(chance, text, text) if chance.randrange(2) else text
    for model, it in zip(models, (made, images.renumbered(made))):
        call, names = Call([*words, "--invariant", "-", "model"], text, {"model": model}), ("model", "-")
        if chance.randrange(2):
            call, names = Call([*words, "--invariant", "rows", "-"], model, {"rows": text}), ("-", "rows")
        here.expect("the clauses of an invariant", call, *invariants.wanted_clauses(it, bad, names, text))


def same_refutation(here, models, made, frames, bad):
    """Of all models a refutation shows what the plain checker says, and where it shows that there is no run, there is none."""
    chance, is_lrat = here.chance, not here.chance.randrange(3)
    frames, largest, clauses, is_unsatisfiable, lemmas = refutations.searched(made, frames, bad)
    proof = refutations.given(chance, largest, clauses, lemmas, is_lrat)
    proof = edited(chance, proof, proof) if chance.randrange(2) else proof
    words = [*answers.words_of(frames, bad), *["--lrat"] * is_lrat]
    for model in models:
        call, name = Call([*words, "--refutation", "-", "model"], proof, {"model": model}), "-"
        if chance.randrange(2):
            call, name = Call([*words, "-", "--refutation", "proof"], model, {"proof": proof}), "proof"
        wanted = refutations.wanted(made, frames, bad, name, proof, is_lrat)
        here.expect("what a refutation shows", call, *wanted)
        if is_unsatisfiable is False and wanted[2] == 0:
            raise Failed("what is shown is so", call, "a run", wanted)


def same_run(here, models, made, frames, bad, text):
    """The models have the witness of a solver's answer that is worked out here, and it is confirmed."""
    words, run = answers.words_of(frames, bad), b""
    for model in models:
        call, name = Call([*words, "--answer", "-", "model"], text, {"model": model}), "-"
        if here.chance.randrange(2):
            call, name = Call([*words, "-", "--answer", "answer"], model, {"answer": text}), "answer"
        run, *rest = answers.wanted(made, frames, bad, name, text)
        here.expect("the witness of a solver's answer", call, run, *rest)
    if run:
        said = b"confirmed %d\n" % (run.count(b"\n") - 5)
        here.expect("it is confirmed", simulation(here.chance, models[0], run, "--witness")[0], said)


def same_answer(here, models, made, text):
    """The models have the answer to a witness that is worked out here."""
    for model in models:
        call, name = simulation(here.chance, model, text, "--witness")
        here.expect("the answer to a witness", call, *witnesses.wanted(made, name, text.decode("latin-1")))


def compared_alike(here, text, image, made):
    """The miter of a circuit and its image, or of what may be something else, in either order."""
    chance = here.chance
    changed = miters.spread(chance, miters.changed(chance, made), len(miters.variables(made)) + 9)
    changed = dataclasses.replace(changed, symbols=images.symbols(chance, changed))
    both = [(text, made), chance.choice([(image, images.renumbered(made)), (images.ascii_text(changed), changed)])]
    chance.shuffle(both)
    same_miter(here, *both, ["aigmiter", *chance.choice(["", "--ascii", "--by-name", "--ascii --by-name"]).split()])


def same_miter(here, first, second, words):
    """The miter of two circuits, which come with their texts, is that of the plain model, or one of them is refused."""
    (text, one), (other, two) = first, second
    call, names = Call([*words, "first", "-"], other, {"first": text}), ("first", "-")
    if here.chance.randrange(2):
        call, names = Call([*words, "-", "second"], text, {"second": other}), ("-", "second")
    here.expect("the miter", call, *miters.wanted(one, two, words, names))


def answer_of_trace(lines, position):
    """What the lines of a trace with properties say to a witness of its steps."""
    for number, line in enumerate(lines):
        *_, bad, constraints = line.split(" ")
        if set(constraints) - {"1"}:
            break
        if bad[position] == "1":
            return f"confirmed {number}\n".encode(), b"", 0
    return b"not confirmed\n", b"", 1


def witnesses_alike(here, models, made):
    """A witness is confirmed exactly where the program's own trace says so, for all models; what any other one is
    answered is the plain evaluation's answer."""
    chance = here.chance
    same_answer(here, models[:2], made, witnesses.given(chance, made).encode())
    if not made.bad:
        return
    rows, position = some_rows(chance, made, 8), chance.randrange(len(made.bad))
    wanted = answer_of_trace(program_trace(here, models[0], rows), position)
    text = "".join(f"{line}\n" for line in ["1", f"b{position}", "".join(made.resets), *rows, "."]).encode()
    for model in models:
        here.expect("the answer that the trace gives", simulation(chance, model, text, "--witness")[0], *wanted)
    same_answer(here, models[2:], made, edited(chance, text, text))
