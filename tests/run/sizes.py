#!/usr/bin/env python3
"""Large inputs are answered, where the contracts would allow that the program says it is out of memory.

    tests/run/sizes.py PROGRAM [NAME]     all, or what has NAME in the name of its function

Files, stimuli, witnesses and map blocks have more than 64 MB, comments of a solver's answer 100 MB, a line of its
values 50 MB, and refutations 100 MB, with a lemma of a million literals. Refutations of many lines bring in variables, have
many clauses at once, or delete what they add, in time and memory that is bounded. An invariant has 200,000 rows, and between
them 100 MB of comments. Each section has 500,000 lines. There are
20,000 runs, 1,000 frames, and 4,000,000 gates, each before the one that it is over. Dumps have 350,000 signals, and
1,200,000 steps. Circuits that are compared have 1,000,000 gates each, or 200,000 names of inputs and as many of outputs.
What is wanted is made here by rule. A run may take 1.5 GB of memory.

The last line is 'N passed, M failed'.
"""
import contextlib
import filecmp
import functools
import itertools
import os
import resource
import subprocess
import sys
import tempfile
from pathlib import Path

sys.dont_write_bytecode = True
sys.path[0] = str(Path(__file__).resolve().parent.parent)
from lib import answers, counts, long_refutations, waves
from lib.large import claim, conjunctions, contradiction, dump, inputs, left_of_wide, trace, wide, write

# bytes: a large file, and what a run may take; seconds that a run may take
MANY, MEMORY, PATIENCE = 70_000_000, 1_500_000_000, 300
# lines of each section; gates of a chain; runs
LINES, GATES, RUNS = 500_000, 4_000_000, 20_000
# bytes for a simulation of the chain: with a place in a table for each gate it would take more
FEW = 250_000_000
# bytes to simplify one of which no gate goes: 40 for each gate, and the program's
SIMPLIFYING = 170_000_000
# latches and inputs to simulate; inputs of a long stimulus; frames, and gates in each
WIDTH, INPUTS, FRAMES, CARRIED = 5_000, 1_000, 1_000, 1_000
# signals of each kind in a dump, and steps of one
SIGNALS, STEPS = 70_000, 1_200_000
# bytes of comments in a solver's answer, and of a line of its values
COMMENTS, VALUES = 100_000_000, 50_000_000
# literals of a lemma, and lines of a refutation; rows of an invariant, and latches
LITERALS, LEMMAS, ROWS, HELD = 1_000_000, 1_000_000, 200_000, 40
# gates of each circuit that is compared, and bytes for that: 35 for each gate, and the program's; and names of each kind
COMPARED, COMPARING, NAMED = 1_000_000, 75_000_000, 200_000
# pairs of lines by which a hundred thousand words are let go; rounds of lines that are deleted, and kilobytes for that,
# where all of them would take more than twice as many
MOVED, STEADY, LITTLE = 60_000, 250_000, 24_000
# lemmas or definitions, how many times as many there are in a longer refutation, and how often the time of both is taken
CLAUSES, LONGER, RUNS_OF_TIME = 25_000, 16, 5
REFUTES = "aigunroll --frames 1 model --refutation -"
# bytes of a file that are held at a time
EDGE = 65_536


class Room:
    """The program in a folder of files, and what was judged."""

    def __init__(self, program):
        self.program, self.passed, self.wrong = program, 0, []

    def judge(self, name, is_right, came=""):
        self.passed += is_right
        if not is_right:
            self.wrong.append(f"{name}: came {came}")

    def run(self, words, given, output, before=()):
        """Standard error and the status of the words over this file; standard output goes to another. Words before those of
        the program may run it."""
        with open(given, "rb") as source, open(output, "wb") as sink:
            how = {"stdin": source, "stdout": sink, "stderr": subprocess.PIPE, "timeout": PATIENCE}
            done = subprocess.run([*before, self.program, *words.split()], check=False, **how)
        return done.stderr, done.returncode

    def seconds(self, words, given, told):
        """The time of a processor that the words take over this file, which they refuse in these words."""
        before = resource.getrusage(resource.RUSAGE_CHILDREN)
        came = self.run(words, given, "came")
        after = resource.getrusage(resource.RUSAGE_CHILDREN)
        self.judge(f"{words} < {given}", came == (f"aiger: -: {told}\n".encode(), 1), came)
        return after.ru_utime + after.ru_stime - before.ru_utime - before.ru_stime

    def made(self, words, given, output="made"):
        """The file that the words write."""
        came = self.run(words, given, output)
        self.judge(f"{words} < {given}", came == (b"", 0), came)
        return output

    def gives(self, words, given, wanted):
        """That the words write what this file holds."""
        came = self.run(words, given, "came")
        self.judge(f"{words} < {given}", came == (b"", 0) and is_same("came", wanted), came)


@contextlib.contextmanager
def memory(most):
    """The runs within may take so many bytes, or as many as this process may, if these are fewer."""
    before, hard = resource.getrlimit(resource.RLIMIT_AS)
    # the limit is that of this process, and each run has it from here
    resource.setrlimit(resource.RLIMIT_AS, (most if before == resource.RLIM_INFINITY else min(most, before), hard))
    try:
        yield
    finally:
        resource.setrlimit(resource.RLIMIT_AS, (before, hard))


def is_same(first, second):
    return os.path.exists(second) and filecmp.cmp(first, second, shallow=False)


def comes_back(room, source, ordered):
    """That a file comes back as ASCII and by its map, and that this is the text of its image."""
    room.gives("aigtoaig --ascii", source, source)
    room.gives("aigtoaig --ascii", room.made("aigtoaig", source), ordered)
    room.gives("aigtoaig --undo-map --ascii", room.made("aigtoaig --keep-map", source), source)


def chain(places):
    """The gates of these places, each over the one before it and the input."""
    yield f"aag {GATES + 1} 1 0 1 {GATES}\n2\n{2 * GATES + 2}\n"
    yield from (f"{2 * place + 2} {2 * place} 2\n" for place in places)


def large_chains(room):
    write("ordered", chain(range(1, GATES + 1)))
    write("chain", chain(range(GATES, 0, -1)))
    comes_back(room, "chain", "ordered")
    room.judge("the map block is large", os.path.getsize("made") > MANY)
    write("steps", b"1\n0\nx\n")
    write("trace", b" 1 1 \n 0 0 \n x x \n.\n")
    room.gives("aigsim chain", "steps", "trace")
    room.gives("aigsim --batch chain", "steps", "trace")
    with memory(FEW):
        room.gives("aigsim ordered", "steps", "trace")
        room.gives("aigsim --batch ordered", "steps", "trace")


def large_simplified(room):
    """A chain whose gates are the input alone, and one of which none goes; and sections of which one gate goes."""
    write("chain", chain(range(GATES, 0, -1)))
    write("left", b"aag 1 1 0 1 0\n2\n2\n")
    room.gives("aigtoaig --simplify --ascii", "chain", "left")
    write("ordered", chain_over_two(range(GATES)))
    with memory(SIMPLIFYING):
        room.gives("aigtoaig --simplify --ascii", room.made("aigtoaig", "ordered", "binary"), "ordered")
    write("wide", wide(LINES, range(LINES - 1, -1, -1), "ilobcjf"))
    write("left", left_of_wide(LINES, "ilobcjf"))
    room.gives("aigtoaig --simplify --ascii", "wide", "left")


def chain_over_two(places):
    """The gates of these places, each over the one before it and the input that it is not."""
    yield f"aag {GATES + 2} 2 0 1 {GATES}\n2\n4\n{2 * GATES + 4}\n"
    yield from (f"{2 * place + 6} {2 * place + 4} {2 + place % 2}\n" for place in places)


def large_tails(room):
    for name, text in (("comment", b"c\n%b"), ("name", b"o0 %b\n")):
        write(name, b"aag 0 0 0 1 0\n1\n", text % (b"any bytes \0\r" * (MANY // 12)))
        comes_back(room, name, name)
        # 4,000 bytes of a name, and 100,000 digits
        room.made(f"aigtoaig {'./' * 1990}{name} binary", os.devnull)
        room.made(f"aigtoaig binary {'./' * 1990}again.aag --max-var {'0' * 100_000}1", os.devnull)
        room.judge(f"a large {name} comes back by names", is_same(name, "again.aag"))
        Path("again.aag").unlink(missing_ok=True)


def traces(room, count, runs):
    """That these runs of the wide circuit give their traces."""
    write("steps", ("".join(f"{values}\n" for values in run) + ".\n" for run in runs))
    write("trace", (line for run in runs for line in trace(count, run)))
    room.gives("aigsim --properties wide", "steps", "trace")
    room.gives("aigsim --properties --batch wide", "steps", "trace")


def judges(room, count, before):
    """That a witness for the last bad state is confirmed behind so many steps, and not confirmed before."""
    *some, last = (f"{values}\n" for values in inputs(count))
    for end, answer in ((last, (0, f"confirmed {before}\n")), ("", (1, "not confirmed\n"))):
        write("witness", claim(count), itertools.islice(itertools.cycle(some), before), f"{end}.\n".encode())
        errors, status = room.run("aigsim --witness wide", "witness", "came")
        came = errors, status, Path("came").read_text(encoding="ascii")
        room.judge(f"a witness of {before} steps over {count} inputs", came == (b"", *answer), came)


def large_sections(room):
    for name, numbers in (("wide", range(LINES - 1, -1, -1)), ("ordered", range(LINES))):
        write(name, wide(LINES, numbers, "ilobcjf"))
    room.judge("the sections are large", os.path.getsize("wide") > MANY)
    comes_back(room, "wide", "ordered")
    traces(room, LINES, [inputs(LINES)[:2]])
    judges(room, LINES, 1)
    write("safe", wide(LINES, range(LINES), "ilobc"))
    room.made("aigunroll --frames 2 --ascii", "safe", "unrolled")
    room.gives("aigtoaig --ascii", room.made("aigunroll --frames 2", "safe"), "unrolled")


def dumps(room, count, runs, called):
    """That these runs of the wide circuit give their dump."""
    write("steps", ("".join(f"{values}\n" for values in run) + ".\n" for run in runs))
    write("dump", dump(count, runs, called))
    room.gives("aigsim --vcd wide", "steps", "dump")
    room.gives("aigsim --vcd --batch wide", "steps", "dump")


def many_runs(room):
    write("wide", wide(1, range(1), "ilobcjf"))
    runs = [[*"10x"[at % 3 :]] for at in range(RUNS)]
    traces(room, 1, runs)
    dumps(room, 1, runs, "{}")


def many_signals(room):
    """A signal for each position, or one for all of a kind."""
    run = inputs(SIGNALS)
    for called in ("{}", "bus[{}]"):
        write("wide", wide(SIGNALS, range(SIGNALS), "ilobc", called))
        dumps(room, SIGNALS, [run], called)
        write("witness", claim(SIGNALS), (f"{values}\n" for values in run), b".\n")
        write("wanted", f"$comment confirmed {len(run) - 1} $end\n".encode(), Path("dump").read_bytes())
        room.gives("aigsim --witness --vcd wide", "witness", "wanted")


def long_dumps(room):
    """A latch that takes an input, which is another one in each step, and is the output."""
    write("latch", b"aag 2 1 1 1 0\n2\n4 2\n4\n")
    signals = [waves.Signal(kind, 0, 1, f"{kind.letter}0".encode()) for kind in waves.KINDS[:3]]
    given = ("10x" * STEPS)[:STEPS]
    write("steps", (f"{value}\n" for value in given))
    write(
        "wanted",
        waves.head(signals),
        b"#0\nb0 r\n1i0\n0l0\n0o0\n",
        (f"#{at}\n{given[at]}i0\n{given[at - 1]}l0\n{given[at - 1]}o0\n" for at in range(1, STEPS)),
        f"#{STEPS}\nzi0\n{given[-1]}l0\nzo0\n#{STEPS + 1}\n".encode(),
    )
    for words in ("aigsim --vcd latch", "aigsim --vcd --batch latch"):
        room.gives(words, "steps", "wanted")
        *_, last = times = [line for line in Path("came").read_bytes().split(b"\n") if line[:1] == b"#"]
        came = len(times), last
        room.judge(f"the times that {words} shows", came == (STEPS + 2, b"#%d" % (STEPS + 1)), came)


def many_latches(room):
    write("wide", wide(WIDTH, range(WIDTH), "ilobcjf"))
    values = inputs(WIDTH)
    traces(room, WIDTH, [values[at % 5 :][:2] for at in range(300)])
    judges(room, WIDTH, MANY // WIDTH)


def long_stimuli(room):
    """A conjunction of all inputs, over a stimulus of many bytes."""
    gates = (f"{2 * (INPUTS + n)} {2 * (INPUTS + n) - 2 if n > 1 else 2} {2 * n + 2}\n" for n in range(1, INPUTS))
    lines = (f"{2 * n + 2}\n" for n in range(INPUTS))
    head = f"{2 * INPUTS - 1} {INPUTS} 0 1 {INPUTS - 1}\n"
    write("wide", f"aag {head}".encode(), lines, f"{4 * INPUTS - 2}\n".encode(), gates)
    steps = [(values, conjunctions(values)[-1]) for values in inputs(INPUTS)]
    for runs, of_each in ((1, MANY // INPUTS), (RUNS // 10, 10 * MANY // RUNS // INPUTS)):
        many = [steps[at % 5] for at in range(of_each)]
        write("steps", ("".join(f"{values}\n" for values, _ in many) + ".\n" for _ in range(runs)))
        write("trace", ("".join(f" {values} {out} \n" for values, out in many) + ".\n" for _ in range(runs)))
        room.gives("aigsim wide", "steps", "trace")
        room.gives("aigsim --batch wide", "steps", "trace")


def many_frames(room):
    """A chain of gates over the input, which begins at a latch that starts at 1 and ends as its next state."""
    end, all_gates = 2 * CARRIED + 4, FRAMES * CARRIED
    first, last = 2 * FRAMES + 2, 2 * (FRAMES + all_gates)
    gates = (f"{2 * n + 4} {2 * n + 2} 2\n" for n in range(1, CARRIED + 1))
    write("chain", f"aag {CARRIED + 2} 1 1 1 {CARRIED}\n2\n4 {end} 1\n{end}\n".encode(), gates)
    write(
        "wanted",
        f"aag {FRAMES + all_gates} {FRAMES} 0 {FRAMES} {all_gates}\n".encode(),
        (f"{2 * frame}\n" for frame in range(1, FRAMES + 1)),
        (f"{2 * (FRAMES + frame * CARRIED)}\n" for frame in range(1, FRAMES + 1)),
        f"{first} 2 1\n".encode(),
        (f"{own} {own - 2} {2 * (n // CARRIED) + 2}\n" for n, own in enumerate(range(first + 2, last + 1, 2), 1)),
    )
    room.gives(f"aigunroll --frames {FRAMES} --ascii", "chain", "wanted")
    room.gives("aigtoaig --ascii", room.made(f"aigunroll --frames {FRAMES}", "chain"), "wanted")


def three_clauses(own, left, right):
    """The lines of a gate."""
    own, left, right = (answers.number(it) for it in (own, left, right))
    return f"-{own} {left} 0\n-{own} {right} 0\n{own} {-left} {-right} 0\n"


def many_clauses(room):
    """The same chain, whose end is the bad state: that has one more gate in each frame."""
    end, size = 2 * CARRIED + 4, CARRIED + 1
    gates = (f"{2 * n + 4} {2 * n + 2} 2\n" for n in range(1, CARRIED + 1))
    write("chain", f"aag {CARRIED + 2} 1 1 0 {CARRIED} 1\n2\n4 {end} 1\n{end}\n".encode(), gates)
    write(
        "wanted",
        f"p cnf {FRAMES + FRAMES * size + 1} {3 * FRAMES * size + 2}\n-1 0\n".encode(),
        (frame_clauses(frame, 2 * (FRAMES + frame * size) + 2) for frame in range(FRAMES)),
        (f"{FRAMES + (frame + 1) * size + 1} " for frame in range(FRAMES)),
        b"0\n",
    )
    room.gives(f"aigunroll --frames {FRAMES} --cnf", "chain", "wanted")
    room.gives(f"aigunroll --frames {FRAMES} --cnf --bad 0", "chain", "wanted")


def frame_clauses(frame, first):
    """The lines of a frame whose gates begin with this literal: its latch is 1, or the end of the chain before."""
    given = 2 * frame + 2
    head = three_clauses(first, first - 4, given) if frame else three_clauses(first, 2, 1)
    middle = (three_clauses(own, own - 2, given) for own in range(first + 2, first + 2 * CARRIED, 2))
    return "".join([head, *middle, three_clauses(first + 2 * CARRIED, first + 2 * CARRIED - 2, 1)])


def large_answers(room):
    """Comments and lines of values of many bytes, and a model with many inputs, of which the last one is bad at last."""
    write("model", b"aag 1 1 0 0 0 1\n2\n2\n")
    write("wanted", b"1\nb0\n\n0\n0\n1\n.\n")
    comment, values = [b"c" + b" s SATISFIABLE\r" * (COMMENTS // 30) + b"\n"], b" 2147483647" * (VALUES // 22)
    comment += [b"c v 0\r\n\n" * (COMMENTS // 18)]
    write("answer", *comment, b"s SATISFIABLE\nv", values, b" 4", values, b"\nv 0\n", *comment)
    words = "aigunroll --frames 3 model --answer -"
    room.gives(words, "answer", "wanted")
    told = b"aiger: -: line %d: bad answer line\n" % (Path("answer").read_bytes().count(b"\n") + 1)
    with open("answer", "ab") as file:
        file.write(b"v 0\n")
    came = room.run(words, "answer", "came")
    room.judge("a wrong line behind many", came == (told, 1), came)
    write("model", b"aig %d %d 0 0 0 1\n%d\n" % (LINES, LINES, 2 * LINES))
    steps = [("10" * LINES)[at : at + LINES - 1] + str(at // 3) for at in range(4)]
    write("wanted", b"1\nb0\n\n", (f"{step}\n" for step in steps), b".\n")
    values = enumerate(itertools.chain(*steps), 2)
    write("answer", b"s SATISFIABLE\n", (f"v {'-' if value == '0' else ''}{at}\n" for at, value in values), b"v 0\n")
    room.gives("aigunroll --frames 4 model --answer -", "answer", "wanted")


def large_refutations(room):
    """Of two inputs, which have none of their four values, beside many inputs that are in long lemmas alone."""
    count = LITERALS + 2
    write("model", contradiction(count))
    write("wanted", b"none within 1\n")
    # its last two literals are those by which it follows
    long = b" ".join(b"%d" % at for at in range(4, count + 2)) + b" 2 3 0\n"
    few = b"2 3 0\nd 3 2 0\n" * (LEMMAS // 2)
    write("proof", b"c" * COMMENTS, b"\n", long, b"d ", long, few, long, b"2 0\n")
    room.gives(REFUTES, "proof", "wanted")
    write("proof", long, few, b"4 0\n")
    came = room.run(REFUTES, "proof", "came")
    told = b"aiger: -: line %d: does not follow\n" % (2 * (LEMMAS // 2) + 2)
    room.judge("a line that does not follow behind many", came == (told, 1), came)
    write("proof", few, long[:-2])
    came = room.run(REFUTES, "proof", "came")
    room.judge("a long lemma without its end", came == (b"aiger: -: no refutation\n", 1), came)


def numbered_refutations(room):
    """The same in LRAT, where nothing is deleted: by hints, many in one line, and by numbers that grow, or do not."""
    count = LITERALS + 2
    write("model", contradiction(count))
    write("wanted", b"none within 1\n")
    # clause 13 has 2 and 3 beside what is 0, and clause 10 has 2 and not 3
    long = b" ".join(b"%d" % at for at in range(4, count + 2)) + b" 2 3 0 13 0\n"
    many = b"28 2 3 0 " + b"1 " * LEMMAS + b"13 0\n"
    for grows in (1, -1):
        few = (f"{LEMMAS + grows * at} 3 2 0 13 0\n29 d 13 0\n" for at in range(LEMMAS // 2))
        write("proof", b"c" * COMMENTS, b"\n27 ", long, b"27 d 27 0\n", many, few, b"1000000000000000000 2 0 28 10 0\n")
        room.gives(f"{REFUTES} --lrat", "proof", "wanted")


def moved_refutations(room):
    """What was added before the clauses are moved together, between two lines, is there behind them: what follows by
    definitions alone follows, and what two lines do not allow is refused."""
    write("model", contradiction(3))
    write("wanted", b"none within 1\n")
    told = len(long_refutations.DEFINED) + MOVED * len(long_refutations.SHORT) + 1
    for is_binary in (False, True):
        spell = functools.partial(long_refutations.spelled, is_binary=is_binary)
        before = spell(long_refutations.DEFINED) + spell(long_refutations.SHORT) * MOVED
        write("proof", before, spell(long_refutations.USED))
        room.gives(REFUTES, "proof", "wanted")
        write("proof", before, spell(long_refutations.BLOCKED))
        room.seconds(REFUTES, "proof", f"line {told}: does not follow")


def growing_refutations(room):
    """Lemmas, or definitions of new variables, that are all there at once and then deleted. For sixteen times as many it may
    take 64 times as long: 256 would be their square, and caches make it half more than sixteen. By what is deleted the last
    line would follow. Both take turns, so that what else the machine does is borne by both."""
    for kind in (long_refutations.lemmas, long_refutations.definitions):
        tasks = []
        for count in (CLAUSES, LONGER * CLAUSES):
            lines, model, proof = kind(count), f"model{count}", f"proof{count}"
            write(model, contradiction(count + 4))
            write(proof, long_refutations.spelled(lines))
            tasks.append((REFUTES.replace("model", model), proof, f"line {len(lines)}: does not follow"))
        few, many = map(min, zip(*([room.seconds(*it) for it in tasks] for _ in range(RUNS_OF_TIME))))
        room.judge(f"the time for {kind.__name__}", many <= LONGER**1.5 * few, (few, many))


def steady_refutations(room):
    """Lines that are deleted soon after, many of them, in little memory."""
    write("model", contradiction(3))
    around, rounds = (long_refutations.spelled(it) for it in (long_refutations.AROUND, long_refutations.ROUND))
    write("proof", around, rounds * STEADY, b"4 0\n")
    came = room.run(REFUTES, "proof", "came", ["/bin/sh", "-c", 'ulimit -v "$0" && exec "$@"', str(LITTLE)])
    told = len(long_refutations.AROUND) + STEADY * len(long_refutations.ROUND) + 1
    room.judge("many deletions", came == (f"aiger: -: line {told}: does not follow\n".encode(), 1), came)


def large_invariants(room):
    """Latches that stay 0, of which each row asks for one to be 1. The bad state is the first of them."""
    write("model", f"aag {HELD} 0 {HELD} 0 0 1\n".encode(), (f"{2 * at} {2 * at}\n" for at in range(1, HELD + 1)), b"2\n")
    rows = [f"{'-' * at}1{'-' * (HELD - 1 - at)} 1\n" for at in range(HELD)]
    last = rows[(ROWS - 1) % HELD].removesuffix("\n").encode()
    write("rows", b"#" * COMMENTS, b"\n", (rows[at % HELD] for at in range(ROWS - 1)), b"\n", last)
    # the gates of rows, of the state and of the next one; the chain of constraints; the bad states, in clauses
    first, chain, bad = HELD + 1, HELD + 1 + 2 * ROWS, HELD + 1 + 3 * ROWS
    largest = bad + ROWS

    def clauses():
        yield f"p cnf {largest + 1} {3 * (largest - HELD) + 2}\n-1 0\n"
        for at in range(2 * ROWS):
            yield three_clauses(2 * (first + at), 2 * (at // 2 % HELD + 1), 1)
        for at in range(ROWS):
            now, held = 2 * (first + 2 * at) + 1, 2 * (chain + at - 1)
            yield three_clauses(2 * (chain + at), *((held, now) if at else (now, 1)))
        for at in range(ROWS + 1):
            reached = 2 * (first + 2 * at - 1) if at else 2
            yield three_clauses(2 * (bad + at), 2 * (bad - 1), reached)
        yield " ".join(str(bad + at + 1) for at in range(ROWS + 1)) + " 0\n"

    write("wanted", clauses())
    room.gives("aigunroll --invariant - --cnf model", "rows", "wanted")
    # the end of the chain
    write("proof", b"%d 0\n" % bad)
    write("wanted", b"never\n")
    room.gives("aigunroll --invariant rows --refutation - model", "proof", "wanted")
    with open("rows", "ab") as file:
        file.write(b"\n1\n")
    came = room.run("aigunroll --invariant - --cnf model", "rows", "came")
    room.judge("a bad row behind many", came == (b"aiger: -: line %d: bad line\n" % (ROWS + 3), 1), came)


def compares(own, left, right):
    """The lines of the gates that compare two literals, the larger one first, from this literal on."""
    return f"{own} {left} {right}\n{own + 2} {left ^ 1} {right ^ 1}\n{own + 4} {own + 3} {own + 1}\n"


def large_miters(room):
    """The same chain over an input twice, in order and the other way round."""
    last, most = 2 * COMPARED + 2, 4 * COMPARED + 10
    gates = [f"{own} {own - 2} 2\n" for own in range(4, last + 1, 2)]
    head = f"{COMPARED + 1} 1 0 1 {COMPARED}\n2\n{last}\n"
    write("ordered", f"aag {head}".encode(), gates)
    write("reversed", f"aag {head}".encode(), reversed(gates))
    moved = range(last + 4, 2 * last + 1, 2)
    write(
        "wanted",
        f"aag {most // 2} 1 0 0 {2 * COMPARED + 4} 1\n2\n{most}\n".encode(),
        gates,
        f"{last + 2} 2 1\n".encode(),
        (f"{own} {own - 2} {last + 2}\n" for own in moved),
        compares(most - 4, 2 * last, last).encode(),
    )
    room.made("aigtoaig ordered ordered.aig", os.devnull)
    with memory(COMPARING):
        room.gives("aigmiter --ascii ordered ordered", os.devnull, "wanted")
        room.made("aigmiter ordered.aig -", "ordered.aig", "binary")
        room.made("aigmiter ordered -", "reversed", "again")
    for made in ("binary", "again"):
        room.gives("aigtoaig --ascii", made, "wanted")


def many_names(room):
    """Inputs that are outputs, each with a name, in two circuits one of which has them the other way round."""
    names = [f"signal {at}" for at in range(NAMED)]
    lines = [f"{2 * at + 2}\n" for at in range(NAMED)] * 2
    for file, called in (("first", names), ("second", names[::-1])):
        symbols = (f"{letter}{at} {name}\n" for letter in "oi" for at, name in enumerate(called))
        write(file, f"aag {NAMED} {NAMED} 0 {NAMED} 0\n".encode(), lines, symbols)
    most = 4 * NAMED
    write(
        "wanted",
        f"aag {5 * NAMED} {NAMED} 0 0 {4 * NAMED} {NAMED}\n".encode(),
        lines[:NAMED],
        (f"{most + 6 * at + 6}\n" for at in range(NAMED)),
        (f"{most - 2 * at} {2 * at + 2} 1\n" for at in range(NAMED)),
        (compares(most + 6 * at + 2, most - 2 * at, 2 * at + 2) for at in range(NAMED)),
    )
    room.gives("aigmiter --by-name --ascii first -", "second", "wanted")
    # the last symbol is that of an input
    write("other", Path("second").read_bytes()[:-2], b"x\n")
    came = room.run("aigmiter --by-name first -", "other", "came")
    told = f"aiger: -: input {NAMED - 1}: no such name in the other file\n".encode()
    room.judge("another name behind many", came == (told, 1), came)


def frames_of_nothing(room):
    """Latches that start anyhow, and nothing else: to go over all latches in each frame would take hours."""
    count, frames = LINES, 1_000_000
    write("latches", f"aag {count} 0 {count} 0 0\n".encode(), (f"{2 * n} 0 {2 * n}\n" for n in range(1, count + 1)))
    write("image", f"aig {count} {count} 0 0 0\n".encode())
    write("wanted", f"aag {count} {count} 0 0 0\n".encode(), (f"{2 * n}\n" for n in range(1, count + 1)))
    room.gives(f"aigunroll --frames {frames}", "latches", "image")
    room.gives(f"aigunroll --frames {frames} --ascii", "latches", "wanted")


def window_edges(room):
    """Files that are longer than the part of a file that is held at a time, which ends at each byte of a row in one of
    them: at a number, a space, a carriage return or a line feed."""
    gates, head = 400, len(f"aag 401 1 0 {EDGE // 2} 400\n2\n")
    for shift in range(30):
        # bytes of outputs, so that some gates stand before the edge and some behind it
        short = (EDGE - head - 2000) // 2 - shift
        text = [f"aag {gates + 1} 1 0 {short + shift} {gates}", "2", *["3"] * short, *["10"] * shift]
        text += [f"{at} {at - 2} {2 * (at % 3)}" for at in range(4, 2 * gates + 4, 2)]
        write("edge", ("\n".join([*text, "i0 x", "c", "edge", ""])).encode())
        room.gives("aigtoaig --ascii", "edge", "edge")
        write("returns", ("\r\n".join(text) + "\r\ni0 x\nc\nedge\n").encode())
        room.gives("aigtoaig --ascii", "returns", "edge")
        for number in range(len(text) - gates + 205, len(text) - gates + 217):
            write("wrong", "\n".join([*text[: number - 1], "4 4", *text[number:], ""]).encode())
            came = room.run("aigtoaig", "wrong", "came")
            room.judge(f"line {number}", came == (f"aiger: -: line {number}: bad line\n".encode(), 1), came)


JUDGES = [large_chains, large_tails, large_sections, many_runs, many_signals, many_latches, long_stimuli, long_dumps]
JUDGES += [many_frames, many_clauses, large_answers, large_refutations, large_invariants, large_miters, many_names]
JUDGES += [large_simplified, frames_of_nothing, window_edges, moved_refutations, growing_refutations, steady_refutations]
JUDGES += [numbered_refutations]


def main(program, name=""):
    room, asked = Room(counts.need_program(program)), [it for it in JUDGES if name in it.__name__]
    counts.need(asked, name)
    for judge in asked:
        with tempfile.TemporaryDirectory() as folder, memory(MEMORY):
            os.chdir(folder)
            judge(room)
            os.chdir("/")
    counts.finish(room.wrong, room.passed)


if __name__ == "__main__":
    main(*sys.argv[1:])
