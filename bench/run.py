#!/usr/bin/env python3
"""Measures the program beside bench/fast.c on the circuits of bench/generate.py, and prints one Markdown table by kind.

What is missing is made: the circuits, and the peer, by cc -O3 -march=native. Each reads the file as its standard input,
of a simulation the model and the stimulus by their names. Both must write the same bytes, and the right ones where these
are known. Then they take turns and write to /dev/null: a time is the least of the processor's, from the start of the
process to its end, and a quotient is the program's by the peer's. The program has the settings of memory that ./aiger
gives it. Of the circuits with the most gates the table has the time, simulated in a step, and unrolled of a gate written;
and the peak of memory beyond that of the smallest file: of the circuit that takes the most, and of the random one.

The status is 0, 1 where an output is wrong, or 2 where something is missing.
"""
import argparse
import math
import os
import re
import shutil
import subprocess
import sys
from typing import NamedTuple

sys.dont_write_bytecode = True
import generate

BENCH = os.path.dirname(os.path.abspath(__file__))
LAUNCHER = f"{os.path.dirname(BENCH)}/aiger"
# what ./prove links, and what ./aiger unpacks
PROGRAMS = [f"{os.path.dirname(BENCH)}/crates/aiger/out/{it}" for it in ("aiger", "released")]
PEER, PEER_SOURCE = f"{generate.OUT}/fast", f"{BENCH}/fast.c"
GNU_TIME = shutil.which("time", path="/usr/bin:/usr/local/bin")
FAMILIES = ("random", "far", "multiplier", "memory")
FRAMES = 10
WRONG, MISSING = 1, 2


class Kind(NamedTuple):
    """What is measured: with which words, on which form of which circuits."""

    words: str
    form: str
    # The form that comes out, where that is written down.
    wanted: str = ""
    families: tuple = FAMILIES
    # Which stimulus is simulated.
    stimulus: str = ""
    # What a time is divided by, for each gate.
    times: int = 1
    # Whether the peer can do it.
    has_peer: bool = True


KINDS = {
    "in-order": Kind("aigtoaig", "ordered.aag", wanted="aig"),
    "shuffled": Kind("aigtoaig", "shuffled.aag"),
    "sparse": Kind("aigtoaig", "sparse.aag"),
    "wild": Kind("aigtoaig", "wild.aag"),
    "huge": Kind("aigtoaig", "huge.aag"),
    "chain": Kind("aigtoaig", "reversed.aag", families=("chain",)),
    "binary-to-ascii": Kind("aigtoaig --ascii", "aig", wanted="ordered.aag"),
    "binary-to-binary": Kind("aigtoaig", "aig", wanted="aig"),
    "ascii-to-ascii": Kind("aigtoaig --ascii", "shuffled.aag", wanted="shuffled.aag"),
    "later": Kind("aigtoaig --ascii", "later.aag", wanted="later.aag", has_peer=False),
    "keep-map": Kind("aigtoaig --keep-map", "shuffled.aag"),
    "undo-map": Kind("aigtoaig --undo-map --ascii", "mapped.aig", wanted="shuffled.aag"),
    "one-run": Kind("aigsim", "aig", stimulus="one.steps"),
    "many-runs": Kind("aigsim", "aig", stimulus="runs.steps"),
    "batch": Kind("aigsim --batch", "aig", stimulus="runs.steps"),
    "unrolled": Kind(f"aigunroll --frames {FRAMES}", "aig", times=FRAMES),
    "unrolled-to-ascii": Kind(f"aigunroll --frames {FRAMES} --ascii", "aig", times=FRAMES),
}


def end(status, words):
    print(f"bench/run.py: {words}", file=sys.stderr)
    sys.exit(status)


def content(file):
    with open(file, "rb") as it:
        return it.read()


class Contender:
    """A program that is measured, with variables where the environment has no others."""

    def __init__(self, path, **variables):
        self.path, self.variables = os.path.abspath(path), {**variables, **os.environ}
        if not os.access(self.path, os.X_OK):
            hint = " (./prove links it, ./aiger unpacks the released one)" if path in PROGRAMS else ""
            end(MISSING, f"no executable file: {path}{hint}")

    def seconds(self, words, source, target=os.devnull):
        """How long the processor runs it."""
        opened = [(os.POSIX_SPAWN_OPEN, 0, source, os.O_RDONLY, 0)]
        opened.append((os.POSIX_SPAWN_OPEN, 1, target, os.O_WRONLY | os.O_CREAT | os.O_TRUNC, 0o644))
        child = os.posix_spawn(self.path, [self.path, *words], self.variables, file_actions=opened)
        _, ended, used = os.wait4(child, 0)
        if ended:
            end(WRONG, f"{self.path} {' '.join(words)} < {source} ends with {os.waitstatus_to_exitcode(ended)}")
        return used.ru_utime + used.ru_stime

    def peak_bytes(self, words, source):
        """Peak memory by GNU time, since the kernel counts this script's own memory to what it starts itself."""
        how = {"stdout": subprocess.DEVNULL, "stderr": subprocess.PIPE, "env": self.variables, "check": True}
        with open(source, "rb") as given:
            ran = subprocess.run([GNU_TIME, "-f", "%M", self.path, *words], stdin=given, **how)
        return 1024 * int(ran.stderr.split()[-1])


class Task(NamedTuple):
    """A kind on one circuit."""

    kind: Kind
    name: str

    def path(self, form):
        return generate.path_of(self.name, form)

    def source(self):
        return os.devnull if self.kind.stimulus else self.path(self.kind.form)

    def words(self):
        return self.kind.words.split() + [self.path(it) for it in ("aig", self.kind.stimulus) if self.kind.stimulus]

    def gates(self):
        """How many there are, by the header."""
        with open(self.path(self.kind.form), "rb") as it:
            return int(it.readline().split()[5])

    def units(self):
        """How many gates are read, simulated in a step, or written."""
        steps = math.prod(generate.steps_of(self.kind.stimulus, self.count())) if self.kind.stimulus else 1
        return self.gates() * self.kind.times * steps

    def count(self):
        return generate.count_of(self.name)

    def short(self):
        """Its name, without the folder of a file."""
        return os.path.basename(self.name).removesuffix(".aig")

    def make(self, program):
        """Makes the files that are missing, and with the program the one that has a map."""
        forms = [self.kind.form, *filter(None, (self.kind.wanted, self.kind.stimulus))]
        generate.write(self.name, [it for it in forms if it != "mapped.aig"])
        if "mapped.aig" in forms:
            program.seconds(["aigtoaig", "--keep-map"], self.path("shuffled.aag"), self.path("mapped.aig"))

    def judge(self, contenders):
        """Ends the run where an output is wrong: a wrong answer has no speed."""
        scratch = f"{generate.OUT}/scratch"
        wanted = content(self.path(self.kind.wanted)) if self.kind.wanted else None
        for contender in contenders:
            contender.seconds(self.words(), self.source(), scratch)
            came = content(scratch)
            wanted = came if wanted is None else wanted
            if came != wanted:
                end(WRONG, f"wrong output: {contender.path} {' '.join(self.words())} < {self.source()}")
        os.remove(scratch)

    def least_seconds(self, contenders, runs):
        """The least time of each. They take turns: what slows the machine for a while then slows all of them."""
        rounds = [[it.seconds(self.words(), self.source()) for it in contenders] for _ in range(runs)]
        return [min(times) for times in zip(*rounds)]


def measure(name, contenders, floors, circuits, runs):
    """The cells of a kind."""
    kind, quotients, spent, held = KINDS[name], {}, [], {}
    contenders = contenders[: 1 + kind.has_peer]
    tasks = [Task(kind, it) for it in circuits]
    most = max(it.count() for it in tasks)
    for task in tasks:
        task.make(contenders[0])
        task.judge(contenders)
        times = task.least_seconds(contenders, runs)
        if kind.has_peer:
            quotients[task.short()] = times[0] / times[1]
        if task.count() > most // 2:
            peaks = [it.peak_bytes(task.words(), task.source()) - floor for it, floor in zip(contenders, floors)]
            spent.append(times[0] * 1e9 / task.units())
            held[task.short()] = [max(it, 0) / task.gates() for it in peaks]
        print(name, task.short(), *(f"{it * 1e3:.1f} ms" for it in times), file=sys.stderr, flush=True)
    worst = max(quotients, key=quotients.get, default="")
    shown = [f"{mean(quotients.values()):.2f}", f"{quotients[worst]:.2f}", worst] if worst else ["", "", ""]
    ours, *peers = (f"{max(it):.0f}" for it in zip(*held.values()))
    of_random = "".join(f"{it[0]:.0f}" for name, it in held.items() if name.startswith("random-"))
    return [f"`{name}`", *shown, digits(mean(spent)), ours, of_random, *peers], quotients


def mean(numbers):
    """The geometric mean."""
    return math.exp(sum(map(math.log, numbers)) / len(numbers))


def digits(number):
    return f"{number:.3g}" if number < 100 else f"{number:.0f}"


def row(cells):
    print("| " + " | ".join(cells) + " |", flush=True)


def launcher_memory():
    """The settings of memory that the launcher gives the program."""
    with open(LAUNCHER, encoding="utf-8") as it:
        return "".join(re.findall(r"\bmemory\+?=(\S+)", it.read()))


def make_peer():
    """Builds the peer, where it is missing or older than its source."""
    if os.path.isfile(PEER) and os.path.getmtime(PEER) > os.path.getmtime(PEER_SOURCE):
        return
    name = os.environ.get("CC", "cc")
    compiler = shutil.which(name) or end(MISSING, f"no C compiler {name} for bench/fast.c (CC may name one)")
    if subprocess.run([compiler, "-O3", "-march=native", "-o", PEER, PEER_SOURCE], check=False).returncode:
        end(MISSING, f"{compiler} does not build bench/fast.c")


def asked():
    """The words of the command line."""
    words = argparse.ArgumentParser(description=__doc__, formatter_class=argparse.RawDescriptionHelpFormatter)
    linked = next(filter(os.path.isfile, PROGRAMS), PROGRAMS[0])
    words.add_argument("--program", default=linked, help="the executable to measure (crates/aiger/out/aiger, else released)")
    words.add_argument("--peer", help="another build of bench/fast.c (bench/out/fast)")
    kinds = f"a kind to measure, which may be given again (all): {', '.join(KINDS)}"
    words.add_argument("--only", metavar="KIND", action="append", choices=KINDS, help=kinds)
    sizes = "a size of the circuits, which may be given again (10000, 100000 and 1000000)"
    words.add_argument("--gates", action="append", type=int, help=sizes)
    models = "forms of this binary file in the place of such circuits; may be given again"
    words.add_argument("--model", metavar="FILE", action="append", type=generate.name_of, help=models)
    words.add_argument("--runs", type=int, default=9, help="runs of each, of which the least counts (9)")
    given = words.parse_args()
    if given.runs < 1 or min(given.gates or [100]) < 100:
        words.error("--runs takes a number from 1, --gates one from 100")
    return given


def main():
    given = asked()
    if not GNU_TIME:
        end(MISSING, "no GNU time, by which memory is measured (Debian's package time)")
    os.makedirs(generate.OUT, exist_ok=True)
    contenders = [Contender(given.program, GLIBC_TUNABLES=launcher_memory(), LD_BIND_NOW="1")]
    if not given.peer:
        make_peer()
    contenders.append(Contender(given.peer or PEER))
    smallest = f"{generate.OUT}/smallest.aag"
    with open(smallest, "w", encoding="ascii") as it:
        it.write("aag 0 0 0 0 0\n")
    floors = [it.peak_bytes(["aigtoaig"], smallest) for it in contenders]
    sizes, quotients = given.gates or [10_000, 100_000, 1_000_000], []
    row(["kind", "mean", "worst", "which", "ns a gate", "bytes a gate", "of random", "peer's"])
    print("|---|---:|---:|---|---:|---:|---:|---:|")
    for name in given.only or KINDS:
        circuits = given.model or [f"{family}-{size}" for size in sizes for family in KINDS[name].families]
        cells, found = measure(name, contenders, floors, circuits, given.runs)
        row(cells + [""] * (8 - len(cells)))
        quotients += found.values()
    if quotients:
        row(["all", f"{mean(quotients):.2f}", f"{max(quotients):.2f}", "", "", "", "", ""])


if __name__ == "__main__":
    main()
