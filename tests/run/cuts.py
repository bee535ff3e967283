#!/usr/bin/env python3
"""Cuts small files after each byte, changes each byte to ten others, and gives them to every tool that takes them.

    tests/run/cuts.py PROGRAM [NAME]         all files, or those that have NAME in their names
    tests/run/cuts.py PROGRAM --part K N     all files, at every Nth byte from number K on

The files are those of rows/small.py: circuits in ASCII and binary, with and without a map, stimuli, witnesses, solvers'
answers, refutations and invariants. What is refused as a circuit must be refused by all tools in the same words. What is
accepted must have the image, the simplified circuit, the traces, the unrolled circuit, its clauses, the miter with itself, and
the answer to a witness that are worked out here from its ASCII text; and of two circuits one that is cut or changed must have
their miter.
A cut or changed stimulus must have the trace that is worked out here up to its first bad line, and nothing with --batch
if there is one; a witness must have its answer, and its dump; a solver's answer its witness; an invariant its clauses; and
of a refutation, of which each bit is turned too, it must be said what the plain checker of lib/refutations.py says.
Whatever comes, the status is 0, 1 or 2, a refusal is one line of a kind that is known, and with it nothing is sent but
the trace before a bad line.

The last line is 'N passed, M failed', and counts files that were cut or changed.
"""
import collections
import concurrent.futures
import dataclasses
import itertools
import os
import sys
from pathlib import Path

sys.dont_write_bytecode = True
sys.path[0] = str(Path(__file__).resolve().parent.parent)
from lib import answers, counts, images, invariants, miters, refusals, refutations, runs, simplified, unrolled, waves
from lib import witnesses
from lib.soak import calls, generators, oracles
from rows import small

# of these each byte is changed to the first ten that it is not
OTHERS = b"\x00\n\r 029cx\x80\xff"
TIMES = 10
FRAMES = 2
CIRCUITS = {
    "a half adder": small.HALF,
    "a half adder with its map": small.HALF_MAPPED,
    "equal operands": small.EQUAL,
    "equal operands in binary": small.EQUAL_IMAGE,
    "equal operands with their map": small.EQUAL_MAPPED,
    "a toggle": small.TOGGLE,
    "gates that go": small.FOLDED + small.FOLDED_NAMES,
    "a latch and a gate": small.HELD,
    "a latch and a gate in binary": small.HELD_IMAGE,
    "a latch and a gate in padded deltas": small.HELD_PADDED,
    "a bad state": small.BAD,
    "a justice property": small.LIVE,
    "every section": small.EVERY + small.EVERY_NAMES,
    "every section with its map": small.EVERY_MAPPED,
}
# what stands beside a circuit that is cut or changed
STEPS, ROWS, NOTHING = b"0\n1\n.\nx\n", b"1 1\n", b"aag 0 0 0 0 0\n"
WITNESS, LASSO = b"1\nb0\n0\n\n\n.\n", small.LASSO
STIMULI = {
    "three steps of a toggle": (small.TOGGLE, b"\n\n\n.\n"),
    "two runs": (small.HELD_IMAGE, b"1\n.\n1\n.\n"),
    "runs with CR LF": (small.HELD, b"1\r\n0\r\n.\r\n.\r\nx"),
}
WITNESSES = {
    "a witness of a toggle": (small.BAD, b"1\nb0\n0\n\n\n.\n"),
    "a witness of every section": (small.EVERY, b"1\nb1\n1x\n1\n0\n.\n"),
    "a lasso": (small.LIVE, small.LASSO),
    "a lasso of every section": (small.EVERY, b"1\r\nj1\r\n1x\r\n1\r\n0\r\n.\r\n"),
}
ANSWERS = {
    "a solver's answer": (small.KEPT, b"c\ns SATISFIABLE\r\nv 2 -3\n\nv  13 3 0 \ncv"),
    "an answer without a run": (small.BAD, b"s UNSATISFIABLE\nc"),
    "an answer of nothing": (small.BAD, b"c\r\ns UNKNOWN"),
}
REFUTATIONS = {
    "a refutation": (small.FOUR, small.FOUR_REFUTED),
    "a binary refutation": (small.FOUR, small.FOUR_REFUTED_BINARY),
    "a refutation without its end": (small.FOUR, b"-11 3 10 0\nd 11 0 2 -3 0 c\n-2 3 0 d\n-3 2 0"),
    "a forged refutation": (small.KEPT, b"d 7 9 0\n-7 6 0\n0\n"),
}
NUMBERED_REFUTATIONS = {
    "a refutation in LRAT": (small.FOUR, small.FOUR_REFUTED_LRAT),
    "a forged one in LRAT": (small.KEPT, b"15 d 7 9 0\nc\n15 -7 6 0 2\n0\n16 0 -15 0"),
}
MITERS = {"one of two circuits": (small.NAMED, small.NAMED_OTHERWISE)}
INVARIANTS = {
    "an invariant": (small.TOKENS, small.TOKENS_INVARIANT),
    "an invariant without its end": (small.KEPT, b"#1\n.0 1\n\n0 1"),
}


class Wrong(Exception):
    """A run that was not answered as it must be."""


def named(canonical):
    """The circuit of a canonical text, with its symbols."""
    made, end = generators.parsed(canonical)
    return dataclasses.replace(made, symbols=end.decode("latin-1"))


class Judge:
    """Runs the program, judges each answer, and counts what came."""

    def __init__(self, program, under):
        self.runner, self.came = runs.Runner(program, under), collections.Counter()

    def ask(self, words, given):
        """The answer, once its form was judged."""
        came = self.runner.run(words.split(), given)
        wrong = calls.wrong_form(calls.Call(words.split(), given), *came)
        if wrong:
            raise Wrong(f"{words} of {given!r}: wanted {wrong}, came {came!r}")
        self.came["runs"] += 1
        self.came[refusals.kind_of(came[1]) if came[1] else "answers"] += 1
        return came

    def expect(self, words, given, *wanted):
        """Asks, and wants this output, and these errors and this status if they are not those of success."""
        wanted = (*wanted, b"", 0) if len(wanted) == 1 else wanted
        came = self.ask(words, given)
        if came != wanted:
            raise Wrong(f"{words} of {given!r}: wanted {wanted!r}, came {came!r}")

    def circuit(self, text, _):
        """All tools over the text of a circuit."""
        self.runner.put("steps", STEPS)
        self.runner.put("witness", WITNESS)
        self.runner.put("lasso", LASSO)
        self.runner.put("rows", ROWS)
        self.runner.put("nothing", NOTHING)
        self.runner.put("same", text)
        canonical, errors, status = self.ask("aigtoaig --ascii", text)
        undoing, unrolling = "aigtoaig --undo-map --ascii", f"aigunroll --frames {FRAMES}"
        if status:
            others = [unrolling, f"{unrolling} --cnf", f"{unrolling} - --refutation steps", "aigunroll --invariant steps --cnf"]
            simulations = ["aigsim - steps", "aigsim --batch --properties - steps", "aigsim --witness - witness"]
            miter = ["aigmiter - nothing", "aigmiter --by-name nothing -"]
            simple = ["aigtoaig --simplify --ascii", f"{unrolling} --simplify --cnf", "aigmiter --simplify - nothing"]
            parts = ["aiginfo", "aigselect --output 0", "aigtodot"]
            for words in ("aigtoaig --keep-map", undoing, *parts, *others, *simulations, *miter, *simple):
                self.expect(words, text, b"", errors, 1)
            return
        made, end = generators.parsed(canonical)
        self.expect("aigtoaig", text, images.image(made) + end)
        self.expect("aigtoaig --simplify", text, images.binary_text(simplified.simplified(made)) + end)
        mapped, _, _ = self.ask("aigtoaig --keep-map", text)
        self.expect(undoing, mapped, canonical)
        source, _, status = self.ask(undoing, text)
        if not status:
            self.expect("aigtoaig --strip", source, images.image(made))
        names = waves.names_of(end)
        for words in ("", "--batch --properties ", "--vcd "):
            self.expect(f"aigsim {words}- steps", text, *oracles.wanted_trace(made, names, "steps", STEPS, words))
        for file, run in ("witness", WITNESS), ("lasso", LASSO):
            self.expect(f"aigsim --witness - {file}", text, *witnesses.wanted(made, file, run.decode()))
            self.expect(f"aigsim --witness --vcd - {file}", text, *waves.wanted_of_run(made, names, file, run.decode()))
        alike = named(canonical)
        for words in ("--ascii", "--by-name"):
            self.expect(f"aigmiter {words} - same", text, *miters.wanted(alike, alike, words, ("-", "same")))
        self.expect(f"{unrolling} --cnf", text, *answers.wanted_clauses(made, FRAMES, None))
        self.expect(f"{unrolling} --cnf --simplify", text, *simplified.wanted_clauses(made, FRAMES))
        self.expect("aigunroll --invariant rows --cnf", text, *invariants.wanted_clauses(made, None, ("-", "rows"), ROWS))
        if made.justice or made.fairness:
            self.expect(unrolling, text, b"", b"aiger: -: justice or fairness cannot be unrolled\n", 1)
        else:
            self.expect(unrolling, text, images.binary_text(unrolled.unrolled(made, FRAMES)))

    def stimulus(self, text, model):
        """Simulations of a model over the text of a stimulus."""
        self.runner.put("model", model)
        made, _ = generators.parsed(self.ask("aigtoaig --ascii", model)[0])
        for words in ("", "--properties ", "--vcd ", "--batch ", "--batch --properties ", "--batch --vcd "):
            self.expect(f"aigsim {words}model", text, *oracles.wanted_trace(made, {}, "-", text, words))

    def witness(self, text, model):
        """What is answered to the text of a witness."""
        self.runner.put("model", model)
        made, _ = generators.parsed(self.ask("aigtoaig --ascii", model)[0])
        self.expect("aigsim --witness model", text, *witnesses.wanted(made, "-", text.decode("latin-1")))
        wanted = waves.wanted_of_run(made, {}, "-", text.decode("latin-1"))
        self.expect("aigsim --witness --vcd model", text, *wanted)

    def answer(self, text, model):
        """The witness that a solver's answer gives."""
        self.runner.put("model", model)
        made, _ = generators.parsed(self.ask("aigtoaig --ascii", model)[0])
        wanted = answers.wanted(made, FRAMES, None, "-", text)
        self.expect(f"aigunroll --frames {FRAMES} model --answer -", text, *wanted)

    def refutation(self, text, model):
        """Whether a refutation shows that there is no run. Two frames are one too many for those of one."""
        self.runner.put("model", model)
        made, _ = generators.parsed(self.ask("aigtoaig --ascii", model)[0])
        for frames in range(1, FRAMES + 1):
            wanted = refutations.wanted(made, frames, None, "-", text)
            self.expect(f"aigunroll --frames {frames} model --refutation -", text, *wanted)
        wanted = simplified.wanted(made, 1, "-", text)
        self.expect("aigunroll --simplify --frames 1 model --refutation -", text, *wanted)

    def numbered(self, text, model):
        """The same of one in LRAT."""
        self.runner.put("model", model)
        made, _ = generators.parsed(self.ask("aigtoaig --ascii", model)[0])
        for frames in range(1, FRAMES + 1):
            wanted = refutations.wanted(made, frames, None, "-", text, is_lrat=True)
            self.expect(f"aigunroll --frames {frames} model --lrat --refutation -", text, *wanted)

    def compared(self, text, other):
        """The miter of a circuit and another one, the first or the second of which it is."""
        self.runner.put("other", other)
        beside = named(self.ask("aigtoaig --ascii", other)[0])
        canonical, errors, status = self.ask("aigtoaig --ascii", text)
        for words in ("--ascii", "--by-name"):
            wants = [(b"", errors, status)] * 2
            if not status:
                made = named(canonical)
                wants = [miters.wanted(made, beside, words, ("-", "other"))]
                wants.append(miters.wanted(beside, made, words, ("other", "-")))
            for files, wanted in zip(("- other", "other -"), wants):
                self.expect(f"aigmiter {words} {files}", text, *wanted)

    def invariant(self, text, model):
        """The clauses in which an invariant is to be shown, and whether a refutation shows it."""
        self.runner.put("model", model)
        self.runner.put("proof", small.TOKENS_REFUTED)
        made, _ = generators.parsed(self.ask("aigtoaig --ascii", model)[0])
        names = "model", "-", "proof"
        wanted = invariants.wanted(made, None, names, text, small.TOKENS_REFUTED)
        self.expect("aigunroll --cnf model --invariant -", text, *invariants.wanted_clauses(made, None, names, text))
        self.expect("aigunroll model --invariant - --refutation proof", text, *wanted)


def edits(text, place, bits=()):
    """The text cut before this byte, and with the byte changed, also in each of these bits."""
    yield "cuts", text[:place]
    if place < len(text):
        for bit in bits:
            yield "changes", text[:place] + bytes([text[place] ^ bit]) + text[place + 1 :]
        for other in [it for it in OTHERS if it != text[place]][:TIMES]:
            yield "changes", text[:place] + bytes([other]) + text[place + 1 :]


def judge(program, under, how, text, beside, place):
    """What came of the edits at this place, and what was wrong."""
    it, wrong = Judge(program, under), []
    for kind, edited in edits(text, place, refutations.BITS if how in ("refutation", "numbered") else ()):
        it.came[kind] += 1
        try:
            getattr(it, how)(edited, beside)
        except Wrong as said:
            wrong.append(str(said))
    return it.came, wrong


def tasks():
    """The name of each file, how it is judged, its text and what stands beside it."""
    for name, text in CIRCUITS.items():
        yield name, "circuit", text, b""
    beside = {"stimulus": STIMULI, "witness": WITNESSES, "answer": ANSWERS, "refutation": REFUTATIONS, "invariant": INVARIANTS}
    beside |= {"numbered": NUMBERED_REFUTATIONS, "compared": MITERS}
    for how, files in beside.items():
        for name, (model, text) in files.items():
            yield name, how, text, model


def main(program, *words):
    part = counts.part_of(words)
    name = "" if part else "".join(words)
    program, total, wrong = counts.need_program(program), collections.Counter(), []
    with runs.folder() as under, concurrent.futures.ProcessPoolExecutor(os.cpu_count()) as pool:
        asked = []
        for file, *task in [it for it in tasks() if name in it[0]]:
            for place in filter(part or (lambda at: True), range(len(task[1]) + 1)):
                asked.append((file, pool.submit(judge, program, under, *task, place)))
        counts.need(asked, name)
        for file, found in itertools.groupby(asked, lambda it: it[0]):
            came = collections.Counter()
            for _, it in found:
                some, said = it.result()
                came += some
                wrong += said
            edited = f"{came['cuts']} cuts, {came['changes']} changes"
            print(f"{file}: {edited}, {came['runs']} runs, {came['answers']} answered")
            total += came
    for kind in refusals.ALL:
        if total[kind]:
            print(f"{total[kind]:7} {kind}")
    print(f"{total['runs']} runs, {total['answers']} answered, {total['runs'] - total['answers']} refused")
    counts.finish(wrong, total["cuts"] + total["changes"] - len(wrong))


if __name__ == "__main__":
    main(*sys.argv[1:])
