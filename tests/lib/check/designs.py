"""The designs of tests/verilog: what is to be said of each assertion, and what Yosys's own `sat` says.

Behind an assertion stands `//: NAME: ANSWER`, with `; ` between several. Where a design has several clocks an answer
`reached` has no number: what a step is, is Yosys's choice, so that the number is its own. Nor has `lasso`: where the
loop of the least one begins, is the solver's choice. The number of `vacuous at N` is for how many steps a run can keep
what is assumed.
"""
import dataclasses
import re
import subprocess
from pathlib import Path

FOLDER = Path(__file__).resolve().parent.parent.parent / "verilog"
WANTED = re.compile(r"//: (.*)")
# steps that `sat` looks at
STEPS = 12


@dataclasses.dataclass(frozen=True)
class Design:
    """Files by their names in the folder, and words of the command line beside them."""

    top: str
    files: tuple
    words: tuple = ()
    # how Yosys reads the files for `sat`
    reading: str = ""
    has_clocks: bool = False
    steps: int = STEPS
    # files that those include, with assertions too
    included: tuple = ()
    # whether `sat` and ABC are to be compared with: they choose a value for some x, which may be any
    has_others: bool = True


@dataclasses.dataclass(frozen=True)
class Assertion:
    """What is to be said of one: answer is never, reached or vacuous, and step None where it is Yosys's choice; of
    liveness it is holds or lasso."""

    name: str
    place: str
    answer: str
    step: int | None = None
    kept: int | None = None

    @property
    def is_live(self):
        return self.answer in ("holds", "lasso")


def one(top, **more):
    return Design(top, (f"{top}.sv",), **more)


ONE_CLOCK = ["counter", "memory", "filled_memory", "any_constant", "any_sequence", "any_functions", "past"]
ONE_CLOCK += ["edges_of_data", "assumed", "assumed_clocked", "contradictory", "assumed_later", "restricted"]
ONE_CLOCK += ["uninitialised", "reset_to_1", "initial_violated", "initial_assumed", "not_inductive", "left_out"]
ONE_CLOCK += ["no_ports", "combinational", "rom", "odd_names", "many_on_one_line", "identical", "generated"]
ONE_CLOCK += ["undefined", "kept", "system", "asynchronous"]
CLOCKS = ["two_clocks", "clock_bits", "global_clock", "gclk", "falling", "both_edges", "latch", "clocked_latch"]
BOARD = Design("board", ("parts/meter.sv", "parts/board.sv", "parts/chooser.sv"))
DEFINED = Design(
    "defined", ("defined.sv",), ("-D", "CHECKED", "-DWIDTH=3", "-I", "parts"), "-DCHECKED -DWIDTH=3 -I{folder}/parts"
)
DEEP = one("deep", words=("--frames", "70"), steps=62)
DESIGNS = [one(it) for it in ONE_CLOCK] + [one(it, has_clocks=True) for it in CLOCKS]
DESIGNS += [one("out_of_range", has_others=False)]
DESIGNS += [BOARD, DEFINED, DEEP, one("included", included=("parts/properties.svh",))]
DESIGNS += [Design("plain", ("parts/plain.v",)), one("fair_alone")]
LIVE = [one("granted"), one("starved"), one("drained"), one("waiters"), one("clocks_go_on", has_clocks=True)]
DESIGNS += LIVE


def named(top):
    return next(it for it in DESIGNS if it.top == top)


def wanted(design):
    """The assertions of a design in the order of its source."""
    found = []
    for file in [*design.files, *design.included]:
        for number, line in enumerate((FOLDER / file).read_text(encoding="ascii").splitlines(), 1):
            said = WANTED.search(line)
            for words in said[1].split("; ") if said else []:
                name, answer = words.split(": ")
                answer, _, step = answer.partition(" at ")
                at = int(step) if step else None
                its = (None, at) if answer == "vacuous" else (at, None)
                found.append(Assertion(name, f"{file}:{number}", answer, *its))
    return found


def selected(design, assertion):
    """How Yosys selects the cell of an assertion."""
    inner = assertion.name.split(".", 1)[1]
    path, _, label = inner.rpartition(".")
    file, line = assertion.place.rsplit(":", 1)
    if label != "assert":
        named = re.sub(r"\W", "?", inner)
        return f"t:$assert a:src=*{Path(file).name}:{line}.* %i c:{named} %i"
    # where one without a label begins, Yosys says where the statement before it ends
    there = f"t:$assert a:src=*{Path(file).name}:*-{line}.* %i"
    return f"{there} c:*{path}* %i" if path else there


def prepared(design, assertion):
    """The commands of Yosys for a design with this assertion alone: without opt, which makes one of two equal ones."""
    clocks = "clk2fflogic" if design.has_clocks else "async2sync"
    return (
        f"hierarchy -check -top {design.top}; proc; flatten; memory; {clocks}; setundef -undriven -anyseq; "
        f"chformal -live -fair -cover -remove; select -set one {selected(design, assertion)}; "
        "select -assert-min 1 @one; delete t:$assert @one %d; opt_clean"
    )


def yosys(design, script):
    """What Yosys says."""
    reading = "verilog -sv -formal " + design.reading.format(folder=FOLDER)
    files = [str(FOLDER / it) for it in design.files]
    words = ["yosys", "-Q", "-T", "-f", reading, *files, "-p", script]
    said = subprocess.run(words, capture_output=True, text=True, check=False, cwd=FOLDER)
    if said.returncode:
        raise ValueError(f"Yosys: {said.stderr}")
    return said.stdout


def by_sat(design, assertion):
    """The least step in which Yosys's `sat` has the assertion fail, if it does within some steps; and whether it shows
    by induction that none does."""
    constants = f"techmap -map {FOLDER}/constant_map.v"
    asked = f"sat -tempinduct -prove-asserts -set-assumes -maxsteps {design.steps}"
    said = yosys(design, f"{prepared(design, assertion)}; {constants}; {asked}")
    if "model found for base case: FAIL!" in said:
        return int(re.findall(r"\[base case (\d+)\] Solving", said)[-1]) - 1, False
    return None, "Induction step proven: SUCCESS!" in said


def written(design, assertion, file):
    """Writes the model of a design with this assertion alone."""
    gates = "techmap; simplemap; dffunmap; aigmap; opt_clean"
    yosys(design, f"{prepared(design, assertion)}; {gates}; write_aiger {file}")


def by_abc(file, steps):
    """The least step in which ABC has the bad state of a model be 1, or None where it shows that there is none."""
    commands = f"&r {file}; &put; bmc3 -F {steps}; pdr -T 60"
    said = subprocess.run(["berkeley-abc", "-q", commands], capture_output=True, text=True, check=False).stdout
    asserted = re.search(r"was asserted in frame (\d+)", said)
    if not asserted and not re.search("Property proved|Explored all reachable states", said):
        raise ValueError(f"ABC: {said}")
    return int(asserted[1]) if asserted else None
