"""Runs aiger-check in a folder of its own, and judges what it says, leaves and keeps.

What is so of an assertion is its name, its place and the first step in which it fails, or None; of liveness, whether
there is a lasso. An answer may be wanted in one of three ways: exact (`never` where it never fails), bounded (`none
within K` will do), and safe, where tools lie or are missing: then `unknown` will do too, but nothing that is wrong.
"""
import dataclasses
import itertools
import json
import os
import re
import shutil
import subprocess
import sys
import tempfile
from pathlib import Path

from lib import liveness
from lib.check import reached

TOP = Path(__file__).resolve().parent.parent.parent.parent
CHECK = os.environ.get("CHECK", str(TOP / "python" / "aiger_check"))
FRAMES = 50
# what a machine under load may take
LONGEST = 300
ANSWERS = "never|none within|reached at|holds|no lasso within|lasso at|vacuous|unknown"
LINE = re.compile(rf"(?P<name>.*) \((?P<source>.*?)\): (?P<answer>{ANSWERS})(?P<rest>.*)", re.DOTALL)
KINDS = ["never", "none within", "reached", "vacuous", "unknown"]
LIVE_KINDS = ["holds", "no lasso within", "lasso", "vacuous", "unknown"]
SUM = re.compile(r"(\d+) (liveness )?assertions?(?:: (.*))?")
KEPT_FILE = re.compile(r"(model|live)-[0-9a-f]+\.aig|.+\.(aiw|vcd|drat|pla|check\.sh)|commands\.(sh|txt)|design-[0-9a-f]+")
KEPT_OF_ONE = (".aiw", ".vcd", ".stimulus", ".drat", ".pla", ".check.sh")
EXACT, BOUNDED, SAFE = "exact", "bounded", "safe"
# why something is unknown where the time for the whole is over
LATE = "no time left"
# with what a run ends: what is asked is kept, broken, refused as a command line, kept by nothing, unknown, or not all of
# it was answered in time; or no answer comes, since a tool fails, or a file is missing or refused
KEPT, BROKEN, USAGE, VACUOUS, UNKNOWN, TIMEOUT, TROUBLE = 0, 1, 2, 3, 4, 8, 16


class Wrong(Exception):
    """What is wrong, in words."""


class Skipped(Exception):
    """Why a row is left out, in words."""


@dataclasses.dataclass(frozen=True)
class Truth:
    name: str
    source: str
    step: int | None
    # of liveness alone: the step is then how many the least lasso has, where that is known
    has_lasso: bool | None = None
    # for how many steps a run keeps what is assumed, or None where one does for ever; of liveness a fair one
    kept: int | None = None

    def place(self):
        """Where it stands among what has its name."""
        is_live = self.has_lasso is not None
        return (self.name, is_live, not self.has_lasso if is_live else self.step is None, 0 if is_live else self.step)


@dataclasses.dataclass(frozen=True)
class Answer:
    name: str
    source: str
    answer: str
    steps: int | None = None
    witness: str | None = None
    reason: str | None = None

    def place(self):
        """Where it stands among what has its name."""
        is_live = self.answer in LIVE_KINDS[:-2]
        return (self.name, is_live, self.answer not in ("reached", "lasso"), 0 if is_live else self.steps)


@dataclasses.dataclass
class Said:
    """How a run ended, and what it left."""

    status: int
    out: str
    err: str
    words: tuple

    def __str__(self):
        return f"{' '.join(self.words)!r} ended with {self.status}, said {self.out[:1500]!r} and {self.err[:1500]!r}"


def need(holds, why, said=""):
    if not holds:
        raise Wrong(f"{why}: {said}")


def ended(run):
    """What a run says until it ends, which it must."""
    try:
        return run.communicate(timeout=LONGEST)
    except subprocess.TimeoutExpired as why:
        run.kill()
        raise Wrong(f"it does not end in {LONGEST} s: {run.args}") from why


class Room:
    """A folder to run in, and one for temporary files, which must be empty behind each run."""

    def __init__(self, program, folder):
        self.program, self.folder = program, Path(folder)
        self.here, self.temporary = self.folder / "here", self.folder / "temporary"
        self.here.mkdir()
        self.temporary.mkdir()
        self.may_write = set()

    def settings(self, changes):
        """The environment, with these changes; None takes a variable out."""
        found = dict(os.environ, AIGER=self.program, TMPDIR=str(self.temporary), PYTHONDONTWRITEBYTECODE="1")
        for name in ("ABC", "YOSYS", "SOLVER", "XDG_RUNTIME_DIR"):
            found.pop(name, None)
        found.update({name: value for name, value in changes.items() if value is not None})
        return {name: value for name, value in found.items() if changes.get(name, "") is not None}

    def start(self, *words, changes=None, **more):
        """A run that goes on."""
        streams = {"stdin": subprocess.DEVNULL, "stdout": subprocess.PIPE, "stderr": subprocess.PIPE, **more}
        return subprocess.Popen(
            [sys.executable, CHECK, *words], cwd=self.here, env=self.settings(changes or {}), **streams
        )

    def files(self):
        return {str(it.relative_to(self.here)) for it in self.here.rglob("*") if not it.is_dir()}

    def end(self, run, words, before):
        """What a run said. It may leave nothing in the folder for temporary files, nor here but where it is told to."""
        out, err = ended(run)
        text = [(it or b"").decode("utf-8", "surrogateescape") for it in (out, err)]
        said = Said(run.returncode, *text, words)
        need("Traceback" not in said.err, "a traceback", said)
        need(not any(self.temporary.iterdir()), f"left {[it.name for it in self.temporary.iterdir()]}", said)
        made = {it for it in self.files() - before if Path(it).parts[0] not in self.may_write}
        need(not made, f"made {made}", said)
        lost = {it for it in before - self.files() if not self.may_go(it)}
        need(not lost, f"lost {lost}", said)
        return said

    def may_go(self, name):
        """Whether it is a file that an earlier run kept where this one keeps its own."""
        return Path(name).parts[0] in self.may_write and name.endswith(KEPT_OF_ONE)

    def run(self, *words, changes=None, **more):
        before = self.files()
        return self.end(self.start(*words, changes=changes, **more), words, before)


def room(program):
    """A room for a while."""
    folder = tempfile.TemporaryDirectory(prefix="check.")
    return folder, Room(program, folder.name)


def of_line(line, said):
    """The answer in a line."""
    found = LINE.fullmatch(line)
    need(found, f"the line {line!r}", said)
    answer, rest, more = found["answer"], found["rest"], {}
    if answer in ("reached at", "lasso at"):
        spelled = re.fullmatch(r" (\d+)(?:, (.+))?", rest, re.DOTALL)
        need(spelled, f"the line {line!r}", said)
        more = {"steps": int(spelled[1]), "witness": spelled[2]}
    elif answer in ("none within", "no lasso within"):
        need(re.fullmatch(r" [1-9]\d*", rest), f"the line {line!r}", said)
        more = {"steps": int(rest)}
    elif answer in ("unknown", "vacuous"):
        need(re.fullmatch(r": .+", rest), f"the line {line!r} without a reason", said)
        more = {"reason": rest[2:]}
    else:
        need(not rest, f"the line {line!r}", said)
    return Answer(found["name"], found["source"], answer.removesuffix(" at"), **more)


def of_lines(said):
    """The answers of the lines, whose last one must add them up."""
    need(said.out.endswith("\n"), "the last line does not end", said)
    *lines, last = said.out.removesuffix("\n").split("\n")
    found = [of_line(it, said) for it in lines]
    sums = [SUM.fullmatch(it) for it in last.split("; ")]
    need(all(sums) and sum(int(it[1]) for it in sums) == len(found), "another sum", said)
    counts = {}
    for part in (part for it in sums if it[3] for part in it[3].split(", ")):
        number, _, kind = part.partition(" ")
        # the bound stands behind its words
        counts[re.sub(r" \d+$", "", kind)] = counts.get(re.sub(r" \d+$", "", kind), 0) + int(number)
    wanted = {kind: sum(it.answer == kind for it in found) for kind in (*KINDS, *LIVE_KINDS)}
    need(counts == {kind: count for kind, count in wanted.items() if count}, "another sum", said)
    return found


def of_json(said):
    """The answers of the one object."""
    try:
        object_ = json.loads(said.out)
        need(set(object_) == {"assertions", "notes"}, "another object", said)
        found = object_["assertions"]
        for it in found:
            kinds = LIVE_KINDS if it.pop("kind", "safety") == "liveness" else KINDS
            need(it["answer"] in kinds, f"{it} is an answer of another kind", said)
        return [Answer(**it) for it in found]
    except (ValueError, KeyError, TypeError) as why:
        raise Wrong(f"no such object, {why!r}: {said}") from why


def answers_of(said):
    return of_json(said) if "--json" in said.words else of_lines(said)


def status_of(found, frames):
    """How a run with these answers must end."""
    if any(it.answer in ("reached", "lasso") for it in found):
        return BROKEN
    if any(it.reason == LATE for it in found):
        return TIMEOUT
    bounds = ("none within", "no lasso within")
    holds = ("never", "holds", "vacuous")
    if not all(it.answer in holds or it.answer in bounds and it.steps >= frames for it in found):
        return UNKNOWN
    if any(it.answer == "vacuous" for it in found):
        return VACUOUS
    return KEPT if found else TROUBLE


def is_rightly_vacuous(truth, it, way):
    """Whether it may be said that what is assumed cannot be kept, which is so beyond a step."""
    if truth.step is not None or truth.has_lasso:
        return False
    told = re.search(r"cannot be kept beyond step (\d+)$", it.reason)
    if told or "contradict" in it.reason:
        return truth.kept == (int(told[1]) + 1 if told else 0)
    if re.search("cannot be kept for ever", it.reason):
        return truth.kept is not None
    return truth.kept is not None or way == SAFE


def is_right_of_live(truth, it, way, frames):
    """Whether an answer may be given of liveness."""
    if it.answer == "vacuous":
        return is_rightly_vacuous(truth, it, way)
    if it.answer in ("holds", "no lasso within") and not is_said_of_runs(truth, it):
        return False
    if it.answer == "no lasso within":
        may_be = not truth.has_lasso or truth.step is not None and it.steps <= truth.step
        return may_be and (way == SAFE or it.steps >= frames and (truth.has_lasso or way == BOUNDED))
    return it.answer == ("lasso" if truth.has_lasso else "holds") or it.answer == "unknown" and way == SAFE


def is_said_of_runs(truth, it):
    """Whether there are runs of which an answer that something is kept can speak."""
    return truth.kept is None or it.steps is not None and it.steps <= truth.kept


def is_right(truth, it, way, frames):
    """Whether an answer may be given of this."""
    if truth.has_lasso is not None:
        return is_right_of_live(truth, it, way, frames)
    step = truth.step
    if it.answer == "vacuous":
        return is_rightly_vacuous(truth, it, way)
    if it.answer in ("never", "none within") and not is_said_of_runs(truth, it):
        return False
    if it.answer == "unknown":
        return way == SAFE
    if it.answer == "never":
        return step is None
    if it.answer == "none within":
        is_enough = it.steps >= frames and (step is not None or way == BOUNDED)
        return (step is None or it.steps <= step) and (way == SAFE or is_enough)
    if it.answer != "reached" or step is None:
        return False
    return it.steps == step or way == SAFE and it.steps > step


def judge(said, truths, way=EXACT, frames=FRAMES):
    """The answers of a run, which must be right, in their order, and its status."""
    found = answers_of(said)
    need([it.source for it in found] == [it.source for it in truths], "other assertions", said)
    # in one place the order is of no matter
    for source, there in itertools.groupby(truths, lambda it: it.source):
        wanted = sorted(there, key=Truth.place)
        came = sorted((it for it in found if it.source == source), key=Answer.place)
        need([it.name for it in came] == [it.name for it in wanted], f"other names in {source}", said)
        for truth, it in zip(wanted, came):
            need(is_right(truth, it, way, frames), f"{truth} has the answer {it}", said)
    need(said.status == status_of(found, frames), f"status {status_of(found, frames)} is due", said)
    return found


def refused(said, *words, status=TROUBLE):
    """That a run says what is wrong, and no answer that anything holds or fails."""
    need(said.status == status, f"status {status} is due", said)
    need(re.search("^aiger-check: .", said.err, re.MULTILINE), "it does not say why", said)
    answers = r"never$|none within|reached at|holds$|no lasso within|lasso at"
    need(not re.search(answers, said.out, re.MULTILINE), "an answer", said)
    for word in words:
        need(re.search(word, said.err, re.IGNORECASE), f"{word} is not said", said)


def succeeds(script, room_, folder):
    """Whether a kept script ends with 0, in another folder."""
    settings = room_.settings({"PATH": f"{Path(room_.program).parent}:{os.environ['PATH']}"})
    ran = subprocess.run(["sh", script], cwd=folder, env=settings, capture_output=True, check=False, timeout=LONGEST)
    return ran.returncode == 0


def model_of(kept, name="model"):
    models = list(kept.glob(f"{name}-*.aig"))
    need(len(models) == 1, f"there are {len(models)} models in {sorted(os.listdir(kept))}")
    return models[0]


def circuit_of(program, model):
    """The circuit of a file."""
    words = [program, "aigtoaig", "--ascii", str(model)]
    return reached.read(subprocess.run(words, capture_output=True, check=True, timeout=LONGEST).stdout)


def judge_lasso(room_, kept, it, said):
    """The witness of a lasso: its run is one, by a plain model, and so is the waveform's."""
    file = room_.here / (it.witness or "none")
    one, property_, state, *inputs = file.read_text(encoding="ascii").split("\n")
    need(one == "1" and re.fullmatch(r"j\d+", property_) and inputs[-2:] == [".", ""], f"{it} has another form", said)
    made = circuit_of(room_.program, model_of(kept, "live"))
    starts = liveness.starts(made, int(property_[1:]), state, inputs[:-2])
    need([it.steps] == starts[:1], f"{it} has a witness that begins at {starts}", said)
    waves = file.with_suffix(".vcd").read_text(encoding="latin-1")
    need(waves.startswith(f"$comment confirmed {it.steps} $end\n"), f"{it} has another waveform", said)
    code = f"i{len(made.inputs)}"
    need(f"$var wire 1 {code} loop $end" in waves, f"the waveform of {it} does not tell the loop", said)
    changes, step = {}, None
    for line in waves.partition("$enddefinitions")[2].splitlines():
        step = int(line[1:]) if line[:1] == "#" else step
        changes |= {step: line[0]} if line[1:] == code else {}
    begins = {0: "1"} if it.steps == 0 else {0: "0", it.steps: "1"}
    need(changes == {**begins, len(inputs) - 2: "z"}, f"the waveform of {it} tells the loop by {changes}", said)
    for name in re.findall(rb"^[il]\d+ ([A-Za-z_]\w*)$", model_of(kept, "live").read_bytes(), re.MULTILINE):
        need(f" {name.decode()} $end" in waves, f"the waveform of {it} lacks the name {name}", said)


def judge_kept(room_, kept, found, said):
    """What is kept of these answers: each witness is confirmed, and each script succeeds."""
    names = sorted(os.listdir(kept))
    need(all(map(KEPT_FILE.fullmatch, names)), f"kept {names}", said)
    broken = [it for it in found if it.answer in ("reached", "lasso")]
    need(len({it.witness for it in broken}) == len(broken), "one witness for two", said)
    for it in broken:
        if it.answer == "lasso":
            judge_lasso(room_, kept, it, said)
            continue
        file = room_.here / (it.witness or "none")
        words = [room_.program, "aigsim", "--witness", str(model_of(kept)), str(file)]
        ran = subprocess.run(words, capture_output=True, text=True, check=False, timeout=LONGEST)
        need(ran.stdout == f"confirmed {it.steps}\n", f"{it} has a witness {ran}", said)
        need("$enddefinitions" in file.with_suffix(".vcd").read_text(encoding="latin-1"), f"{it} has no waveform", said)
    scripts = sorted(kept.glob("*.check.sh"))
    shown = [it for it in found if it.answer not in ("reached", "vacuous", "unknown")]
    need(len(scripts) == len(shown), f"{names} for {len(shown)} certificates", said)
    for script in scripts:
        text = script.read_text(encoding="utf-8", errors="surrogateescape")
        lines = [line for line in text.split("\n") if re.search(r"aigunroll|aigsim|aigtoaig", line)]
        need(1 <= len(lines) <= 5, f"{script.name} is {text!r}", said)
        need(succeeds(str(script), room_, room_.folder), f"{script.name} fails: {text!r}", said)


def is_there(name):
    return shutil.which(name) is not None
