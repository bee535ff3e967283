"""Rows of concurrent assertions made by chance: in which steps the registers say that an attempt fails, matches or
waits, by Yosys's translation of the rewritten source, beside the definition of the standard."""
import functools
import random
import subprocess
import sys

from lib.check import checked, sva_reference
from lib.check.sva_reference import Chance, Run

sys.path.append(str(checked.TOP / "python"))
from aiger_check.front.sva.rewriting import rewritten

#: so many designs, each of so many assertions, on so many runs of so many steps
DESIGNS, ASSERTIONS, RUNS, STEPS = 6, 40, 10, 16
HEAD = """module made(input clk, input rst, input a, input b, input c, input [2:0] w);
  parameter N0 = 0; localparam N1 = 1, N2 = 2, N3 = 3;
"""
GATES = "opt_clean; techmap; dffunmap; simplemap; aigmap; opt_clean"


def kinds(chance):
    """An assertion of a kind by chance: the kind, its word, and the property."""
    kind = chance.one("fails", "fails", "fails", "matches", "waits")
    if kind == "fails":
        return kind, chance.one("assert", "assume"), chance.property()
    last = ("eventually", chance.expression()) if kind == "waits" else ("sequence", chance.sequence(free=True))
    for _ in range(chance.one(0, 1, 1, 2)):
        last = (chance.one("implies", "next"), chance.sequence(free=True), last)
    return kind, "cover" if kind == "matches" else chance.one("assert", "assume"), last


def design(seed):
    """A source, and of each assertion its kind, its property and whether it is disabled by rst."""
    chance = Chance(seed)
    lines, made = [HEAD], []
    # of the whole module, or of each assertion
    clocked, disabled = chance.one(True, False), chance.one(True, False)
    lines.append("  default clocking cb @(posedge clk); endclocking\n" if clocked else "")
    lines.append("  default disable iff (rst);\n" if disabled else "")
    for at in range(ASSERTIONS):
        kind, word, property_ = kinds(chance)
        text, its = chance.text(property_), chance.one(True, False)
        clock = chance.one("@(posedge clk) ", "@(posedge clk)\n")
        front = ("" if clocked and chance.one(True, False) else clock) + ("disable iff (rst) " if its else "")
        if not chance.random.randrange(4):
            lines.append(f"  property p{at};\n    {front}{text};\n  endproperty : p{at}\n")
            front, text = "", f"p{at}"
        action = "" if word == "cover" else chance.one("", " else $error(\"%0d\", w)")
        lines.append(f"  k{at}: {word} property ({front}{text}){action};\n")
        made.append((kind, property_, its or disabled))
    return "".join([*lines, "endmodule\n"]), made


def circuit(room, text, name="made"):
    """The rewritten design as an AIGER file in ASCII, with the last register of each assertion as an output."""
    found = rewritten(text, f"{name}.sv")
    checked.need(not found.refused, f"refused {[str(it) for it in found.refused.values()]}", text)
    checked.need(found.text.count("\n") == text.count("\n"), "lines moved", found.text)
    (room.here / f"{name}.sv").write_text(found.text, encoding="ascii")
    kinds_ = " ".join(f"t:${it}" for it in ("assert", "assume", "cover", "live", "fair"))
    script = f"read_verilog -sv -formal {name}.sv; hierarchy -check -top {name}; proc; delete {kinds_}"
    script += f"; expose w:*asked; {GATES}; write_aiger -ascii -symbols {name}.aag"
    ran = subprocess.run(["yosys", "-q", "-p", script], cwd=room.here, capture_output=True, text=True, check=False)
    checked.need(ran.returncode == 0, f"Yosys says {ran.stderr[-500:]}", found.text)
    return found, (room.here / f"{name}.aag").read_text(encoding="latin-1")


class Machine:
    """Runs an AIGER file in ASCII."""

    def __init__(self, text):
        lines = text.split("\n")
        _, _, inputs, latches, outputs, gates, *_ = [int(it) if it.isdigit() else 0 for it in lines[0].split(" ")]
        numbers = [[int(it) for it in line.split(" ")] for line in lines[1 : 1 + inputs + latches + outputs]]
        self.inputs = [it[0] for it in numbers[:inputs]]
        self.latches, self.outputs = numbers[inputs : inputs + latches], numbers[inputs + latches :]
        # behind the outputs may be bad states, of which there are none here
        first = 1 + inputs + latches + outputs
        self.gates = sorted([int(it) for it in line.split(" ")] for line in lines[first : first + gates])
        symbols = [line.split(" ", 1) for line in lines[first + gates :] if line[:1] in ("i", "o") and " " in line]
        self.names = {kind: name for kind, name in symbols}

    def run(self, steps, before):
        """The outputs, by name, in each step; registers without initial value start at one bit."""
        state = {it[0]: it[2] if len(it) > 2 and it[2] < 2 else (0 if len(it) < 3 else before) for it in self.latches}
        found = {self.names[f"o{at}"]: [] for at in range(len(self.outputs))}
        for step in steps:
            values = {0: 0, **state}
            for at, literal in enumerate(self.inputs):
                name, _, index = self.names.get(f"i{at}", "").partition("[")
                values[literal] = step.get(name, 0) >> int(index.rstrip("]") or 0) & 1

            def value(literal):
                return values[literal & ~1] ^ literal & 1

            for literal, left, right in self.gates:
                values[literal] = value(left) & value(right)
            for at, (literal,) in enumerate(self.outputs):
                found[self.names[f"o{at}"]].append(value(literal))
            state = {it[0]: value(it[1]) for it in self.latches}
        return found


def run_of(chance, before):
    """Signals by chance, of which some stay for a while."""
    often, steps = chance.random.choice([0.02, 0.1, 0.3]), []
    for _ in range(STEPS):
        step = {name: chance.random.randrange(mask + 1) for name, mask in (("a", 1), ("b", 1), ("c", 1), ("w", 7))}
        if steps and not chance.random.randrange(3):
            step = {name: steps[-1][name] for name in step}
        steps.append({**step, "rst": int(chance.random.random() < often)})
    return Run(steps, before)


WANTED = {"fails": sva_reference.failures, "matches": sva_reference.matches, "waits": sva_reference.waits}


def wanted_of(kind, property_, is_disabled, run):
    """The last register of an assertion in each step but the first: it is what was so in the step before."""
    if not is_disabled:
        run = Run([{**step, "rst": 0} for step in run.steps], run.before)
    found = WANTED[kind](run, property_)
    return found if kind == "matches" else [1 - it for it in found]


def agree(came, wanted, kind):
    """Whether registers say what is so. Behind the first failure an attempt that has failed may fail again, where the
    definition counts it once."""
    if kind != "fails" or 0 not in wanted:
        return came == wanted
    first = wanted.index(0)
    return came[: first + 1] == wanted[: first + 1] and all(it <= so for it, so in zip(came, wanted))


def by_chance(seed, room):
    """One design, whose registers are compared in each step of some runs."""
    if not checked.is_there("yosys"):
        raise checked.Skipped("yosys is missing")
    text, made = design(seed)
    found, written = circuit(room, text)
    machine, chance = Machine(written), Chance(random.Random(seed).random())
    checked.need(len(found.taken) == len(made), "some were not rewritten", text)
    for at in range(RUNS):
        run = run_of(chance, at % 2)
        came = machine.run(run.steps, at % 2)
        for it, (kind, property_, is_disabled) in zip(found.taken, made):
            wanted, last = wanted_of(kind, property_, is_disabled, run), came[f"{it.prefix}asked"]
            if not agree(last[1:], wanted[:-1], kind):
                line = text.split("\n")[it.line - 1]
                raise checked.Wrong(f"{last[1:]} is not {wanted[:-1]} of {line!r} ({kind}) on {run}; in {text}")


def rows():
    for seed in range(DESIGNS):
        yield f"concurrent assertions {seed} by chance", functools.partial(by_chance, seed)
