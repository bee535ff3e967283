#!/usr/bin/env python3
"""Sees that the prover refuses each wrong body tests/wrong_bodies/CRATE/NAME.edit.

    tests/run/wrong_bodies.py [CRATE ..]     tries those of the crates named, or of all

A wrong body is a file with a line 'file: src/F.rt' and pairs of lines 'old: TEXT' and 'new: TEXT', as in must-fail/:
each old text stands in that file exactly once, and further pairs apply to what the earlier ones made. A line
'in: Type::function' has the pairs after it look in that function alone.

They are put into a copy of the repository, which takes over the libraries that were built. Those of distinct
functions are put in together, these functions alone are checked, and each body is judged by what is said of its own.
One whose function only waits for another that is not proved is tried again when that one is right again. One that
seems to be proved is tried again alone, over the whole crate.

Three ways of refusing are told apart: the prover refutes a goal, with values at which it is false; it finds no proof;
or all that fails is an answer that names what the wrong body took away, which says little of the contract, so these are
listed.

Each public function that has a body wants a wrong one, here or in must-fail/, but for those of the file WITHOUT.

The last line is 'N passed, M failed'. The variable RT names another rt than the one on the PATH.
"""
import re
import shutil
import subprocess
import sys
import tempfile
from pathlib import Path

sys.dont_write_bytecode = True
sys.path[0] = str(Path(__file__).resolve().parent.parent)
from lib.bodies import RT, TOP, Unfit, WrongBody, crates, functions_of, tell

BODIES = TOP / "tests" / "wrong_bodies"
# What the check says of a function with goals of its own that are open, and not of one that waits for another alone.
OPEN = re.compile(r"not proved|no proof: expected answers")
# A goal with values at which it is false, any other, and a proof file that names what is not there any more.
REFUTED = "allow values at which this goal is false"
OPEN_GOAL = "it is not proved that"
MISSING_NAME = re.compile(r"has no field|\(nearest: |is not in scope|has no `|was not admitted|has no goal")

# The ways in which a wrong body is refused.
WAYS = ("refuted", "without a proof", "for want of a name")


class Said:
    """What a check said: whether all is proved, or None with no verdict; of each function; which lines have errors."""

    def __init__(self, text):
        self.text = text = re.sub(r"^so far: .*\n", "", text, flags=re.M)
        verdict = re.findall(r"^logic=(proved|not-proved)|^only=(\d+) proved=(\d+)", text, re.M)
        self.is_proved = verdict[-1][0] == "proved" or verdict[-1][1] == verdict[-1][2] != "" if verdict else None
        self.functions = dict(re.findall(r"^fn (\S+): (.*)$", text, re.M))
        self.faults = {(file, int(line)) for file, line in re.findall(r"^(src/\S+?):(\d+):\d+: error", text, re.M)}

    def of(self, function):
        """Of the function whose name ends so; "proved" where that is not one function, so that it is tried alone."""
        is_method = function.startswith("::")
        named = [it for it in self.functions if it == function or is_method and it.endswith(function)]
        return self.functions[named[0]] if len(named) == 1 else "proved"

    def way(self, function=None):
        """In which way this check refused a function, or all that it says: the strongest that a line shows."""
        notes, folder = self.text, ""
        if function:
            # (the notes on a function stand before its line)
            line = re.search(rf"^fn \S*{re.escape(function)}: ", self.text, re.M)
            notes = self.text[: line.start()].rpartition("\nfn ")[2] if line else self.text
            folder = re.escape("/".join(function.split("::")[1:])) + "/"
        if REFUTED in notes:
            return WAYS[0]
        errors = re.findall(rf"^\./proofs/(?:\S*/)?{folder}\S+: error: .*", self.text, re.M)
        lacks_names = errors and all(MISSING_NAME.search(it) for it in errors) and OPEN_GOAL not in notes
        return WAYS[2] if lacks_names else WAYS[1]

    def refuses(self, function):
        """Whether goals of it are open. Where it waits for others too, a missing name may be all that shows yet."""
        line = self.of(function)
        return OPEN.match(line) and not ("; it calls" in line and self.way(function) == WAYS[2])

    def start(self):
        lines = self.text.splitlines()
        return " / ".join([it for it in lines if "error" in it][:2] or lines[-2:])[:300]


def needed(crate, known):
    """A crate and all that it stands on."""
    return {crate}.union(*(needed(it, known) for it in known[crate]))


class Copy:
    """A copy of the repository in which one crate is changed and checked."""

    def __init__(self, crate, room):
        self.folder, self.checks, self.ways = Path(room) / "crates" / crate, 0, {}
        known = crates()
        shutil.copy2(TOP / "crates.txt", room)
        for name in known:
            unread = shutil.ignore_patterns("must-fail", *[] if name in needed(crate, known) else ["out"])
            shutil.copytree(TOP / "crates" / name, Path(room) / "crates" / name, ignore=unread)

    def with_bodies(self, bodies):
        """The bodies that fit in together, and the texts of the files that they change."""
        fitting, texts = [], {}
        for body in bodies:
            made = dict(texts)
            try:
                for it in body.changes:
                    made[it.file] = it.made(made.get(it.file) or (self.folder / it.file).read_text(encoding="utf-8"))
            except Unfit:
                continue
            fitting, texts = [*fitting, body], made
        return fitting, texts

    def is_right(self):
        """Whether the crate is proved as it is, which a library that was built tells without a check."""
        command = "lib" if (self.folder / "out" / "rlib").is_dir() else "check"
        how = {"stdin": subprocess.DEVNULL, "stdout": subprocess.DEVNULL, "stderr": subprocess.DEVNULL}
        return subprocess.run([RT, command], cwd=self.folder, **how).returncode == 0

    def check(self, texts, functions=()):
        """What a check of these functions, or of all, says with these texts in place of the files."""
        self.checks += 1
        were = {it: (self.folder / it).read_text(encoding="utf-8") for it in texts}
        for file, text in texts.items():
            (self.folder / file).write_text(text, encoding="utf-8")
        how = {"stdin": subprocess.DEVNULL, "stdout": subprocess.PIPE, "stderr": subprocess.STDOUT}
        only = [word for it in functions for word in ("--only", it.removeprefix("::"))]
        ran = subprocess.run([RT, "check", *only], cwd=self.folder, text=True, errors="replace", **how)
        for file, text in were.items():
            (self.folder / file).write_text(text, encoding="utf-8")
        return Said(ran.stdout)

    def alone(self, body):
        """Why a body fails; None where the prover refuses it."""
        texts = self.with_bodies([body])[1]
        said = self.check(texts, body.functions) if body.function() else self.check(texts)
        if said.is_proved and body.function():
            said = self.check(texts)
        if said.is_proved is None:
            return f"it could not be judged: {said.start()}"
        self.ways[body] = said.way(body.function())
        return "NOT REFUSED: the crate is still proved with it" if said.is_proved else None

    def together(self, bodies):
        """Why each of the bodies that could be judged fails; None where the prover refuses it."""
        bodies, texts = self.with_bodies(bodies)
        if len(bodies) == 1:
            return {bodies[0]: self.alone(bodies[0])}
        said = self.check(texts, [it.function() for it in bodies])
        if said.is_proved is None:
            bad = [it for it in bodies if it.lines & said.faults]
            bad = bad if 0 < len(bad) < len(bodies) else bodies[: len(bodies) // 2]
            return {**self.together(bad), **self.together([it for it in bodies if it not in bad])}
        judged = {it: None for it in bodies if said.refuses(it.function())}
        self.ways.update({it: said.way(it.function()) for it in judged})
        judged.update({it: self.alone(it) for it in bodies if said.of(it.function()).startswith("proved")})
        return judged or {bodies[0]: self.alone(bodies[0])}

    def judge(self, bodies):
        waiting, judged = list(bodies), {}
        while waiting:
            # (of those of one function the first)
            batch = {it.function(): it for it in reversed(waiting) if it.function()}
            found = self.together([*batch.values()] or waiting[:1])
            tell(f"{body.label}: {why}" for body, why in found.items() if why)
            judged.update(found)
            waiting = [it for it in waiting if it not in judged]
        return judged


def without(crate, changed):
    """The public functions with a body that are in neither of these and the file WITHOUT."""
    excused = re.findall(rf"^{crate}/(\S+: \S+)", (BODIES / "WITHOUT").read_text(), re.M)
    for path in sorted((TOP / "crates" / crate / "src").rglob("*.rt")):
        file = str(path.relative_to(TOP / "crates" / crate))
        for it in functions_of(path.read_text(encoding="utf-8")):
            if it.is_public_with_a_body and it.path(crate, file) not in changed and f"{file}: {it.name}" not in excused:
                yield f"{crate}/{file}: {it.name}"


def try_crate(crate):
    """How many of a crate's wrong bodies are refused, and how many failures there are."""
    bodies, changed, failed = [], set(), 0
    tried = sorted((BODIES / crate).glob("*.edit"))
    for path in [*tried, *(TOP / "crates" / crate / "must-fail").glob("*.edit")]:
        try:
            body = WrongBody(crate, path)
            changed |= body.functions
            bodies += [body] * (path in tried)
        except Unfit as why:
            failed += tell([f"{path.relative_to(TOP)}: {why}"])
    failed += tell(f"{it} has no wrong body" for it in without(crate, changed))
    if not bodies:
        return 0, failed
    with tempfile.TemporaryDirectory(prefix="wrong-bodies-") as room:
        copy = Copy(crate, room)
        if not copy.is_right():
            return 0, failed + tell([f"{crate} is not proved as it is, so nothing was tried"])
        judged = copy.judge(bodies)
    refused = [body for body, why in judged.items() if not why]
    counts = ", ".join(f"{sum(copy.ways[it] == way for it in refused)} {way}" for way in WAYS)
    told = f"{len(refused)} of {len(bodies)} wrong bodies are refused ({counts})"
    print(f"{crate}: {told}, after {copy.checks} checks", flush=True)
    for body in refused:
        if copy.ways[body] == WAYS[2]:
            print(f"    {body.label}: {WAYS[2]}")
    return len(refused), failed + len(judged) - len(refused)


def main(names):
    known = crates()
    passed, failed = 0, tell(f"crates.txt lists no crate {it}" for it in names if it not in known)
    if not shutil.which(RT):
        known, failed = {}, tell([f"there is no command {RT}"])
    for crate in [it for it in names or known if it in known]:
        refused, told = try_crate(crate)
        passed, failed = passed + refused, failed + told
    print(f"{passed} passed, {failed} failed")
    return 1 if failed or not passed else 0


if __name__ == "__main__":
    sys.exit(main(sys.argv[1:]))
