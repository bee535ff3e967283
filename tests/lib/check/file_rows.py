"""Rows of files: full disks, folders that cannot be written, runs side by side, files of the user's, and certificates
that are changed."""
import concurrent.futures
import functools
import os
import re
import resource
import shutil
import subprocess
import sys
from pathlib import Path

from lib import traces
from lib.check import checked, design_rows, designs, model_rows
from lib.check.model_rows import LATE, NEVER, TEXTS, TOGGLE, TOKENS

# what scripts of old wrote where they were run, and other names that one might take
USERS = ["answer", "result", "run.aiw", "run.vcd", "clauses.cnf", "clauses.drat", "counterexample", "design.aig"]
USERS += ["design.map", "proved.pla", "invariant.pla", "model.aig", "abc.log", "solver.log", "b0.aiw", "b0.vcd"]
USERS += ["b0.check.sh", "abc.history"]


def put(room, which, name="model.aag"):
    text, steps = TEXTS[which]
    (room.here / name).write_text(text, encoding="ascii")
    return model_rows.named(text, steps, name)


def limited(size, room):
    """No file may be larger: right answers, or none."""
    truths = put(room, NEVER)
    said = room.run(
        "--frames", "4", "model.aag", changes=model_rows.honest(room),
        preexec_fn=lambda: resource.setrlimit(resource.RLIMIT_FSIZE, (size, size)),
    )
    if said.status == checked.TROUBLE and not said.out:
        checked.need("aiger-check: " in said.err, "it is not said", said)
    else:
        checked.judge(said, truths, checked.SAFE, 4)


def limited_design(size, room):
    design_rows.need_tools(*design_rows.TOOLS)
    design_rows.placed(room)
    said = room.run(
        "--top", "counter", "counter.sv", preexec_fn=lambda: resource.setrlimit(resource.RLIMIT_FSIZE, (size, size))
    )
    if said.status == checked.TROUBLE and not said.out:
        checked.need("aiger-check: " in said.err, "it is not said", said)
    else:
        checked.judge(said, design_rows.truths(designs.one("counter")), checked.SAFE)


def small_disk(size, keeps, room):
    """The folder for temporary files, or that to keep files in, is on a disk of this size."""
    truths = put(room, LATE)
    disk = room.folder / "disk"
    disk.mkdir()
    words = [sys.executable, checked.CHECK, "--frames", "8", *(["--keep", str(disk)] if keeps else []), "model.aag"]
    script = f'mount -t tmpfs -o size={size} tmpfs "$0" || exit 99; "$@"; status=$?; '
    script += '[ -z "$(ls -A "$TMPDIR")" ] || exit 98; exit $status'
    settings = room.settings({**model_rows.honest(room), "TMPDIR": str(room.temporary if keeps else disk)})
    ran = subprocess.run(
        ["unshare", "-rm", "bash", "-c", script, str(disk), *words], cwd=room.here, env=settings, text=True,
        capture_output=True, check=False,
    )
    said = checked.Said(ran.returncode, ran.stdout, ran.stderr, tuple(words))
    if ran.returncode == 99 or "unshare" in ran.stderr:
        raise checked.Skipped("no small disk can be mounted")
    checked.need(ran.returncode != 98, "something is left", said)
    checked.need("Traceback" not in said.err, "a traceback", said)
    is_whole = bool(re.search(r"^\d+ assertions", said.out, re.MULTILINE))
    found = checked.of_lines(said) if is_whole else [checked.of_line(it, said) for it in said.out.splitlines()]
    for truth, it in zip(truths, found):
        checked.need(checked.is_right(truth, it, checked.SAFE, 8), f"{truth} has the answer {it}", said)
    if is_whole:
        checked.need(said.status == checked.status_of(found, 8), "another status", said)
    else:
        checked.need(said.status == checked.TROUBLE and "aiger-check: " in said.err, "it is not said", said)


def full(stream, words, room):
    """Standard output or error cannot be written: the status is never that of an answer which nobody sees."""
    put(room, TOKENS)
    with open("/dev/full", "wb") as device:
        said = room.run(*words, "model.aag", changes=model_rows.honest(room), **{stream: device})
    if stream == "stdout":
        checked.need(said.status == checked.TROUBLE and "aiger-check: " in said.err, "it is not said", said)
    else:
        checked.need(said.status in (checked.KEPT, checked.TROUBLE), "another status", said)


def closed(streams, room):
    """Some of the streams are closed."""
    put(room, TOKENS)
    words = [sys.executable, checked.CHECK, "model.aag"]
    words = ["bash", "-c", '"$@" ' + streams, "-", *words]
    settings = room.settings(model_rows.honest(room))
    ran = subprocess.run(words, cwd=room.here, env=settings, capture_output=True, check=False)
    due = checked.TROUBLE if ">&-" in streams.replace("2>&-", "") else checked.KEPT
    checked.need(ran.returncode == due, "another status", ran)
    checked.need(not any(room.temporary.iterdir()), "something is left", ran)
    checked.need(b"Traceback" not in ran.stderr, "a traceback", ran)


def unwritable(make, room):
    """The folder to keep files in cannot be made or written."""
    put(room, LATE)
    (room.here / "file").write_text("a file\n", encoding="ascii")
    folder = make(room)
    said = room.run("--keep", folder, "model.aag", changes=model_rows.honest(room))
    checked.need(said.status == checked.TROUBLE, f"status {checked.TROUBLE} is due", said)
    is_said = any(it.startswith("aiger-check: ") and Path(folder).name in it for it in said.err.splitlines())
    checked.need(is_said, "it is not said", said)


def forbidden(room):
    if os.geteuid() == 0:
        raise checked.Skipped("root may write any folder")
    folder = room.here / "forbidden"
    folder.mkdir(mode=0o555)
    return "forbidden"


UNWRITABLE = {
    "is a file": lambda _: "file",
    "is below a file": lambda _: "file/below",
    "is of the system": lambda _: "/proc/below",
    "is forbidden": forbidden,
    "has a long name": lambda _: "n" * 300,
    "is a broken link": lambda room: (os.symlink("/no/such/folder/at/all", room.here / "link"), "link")[1],
}


def temporary_missing(room):
    """TMPDIR names no folder: Python then takes another."""
    truths = put(room, TOKENS)
    said = room.run("model.aag", changes={**model_rows.honest(room), "TMPDIR": "/no/such/folder"})
    checked.judge(said, truths)


def temporary_named(name, room):
    """TMPDIR has an odd name."""
    truths = put(room, LATE)
    folder = room.folder / name
    folder.mkdir()
    said = room.run("model.aag", changes={**model_rows.honest(room), "TMPDIR": str(folder)})
    checked.judge(said, truths)
    checked.need(not any(folder.iterdir()), "something is left", said)


def temporary_named_design(name, room):
    design_rows.need_tools(*design_rows.TOOLS)
    design_rows.placed(room)
    folder = room.folder / name
    folder.mkdir()
    said = room.run("--top", "counter", "counter.sv", changes={"TMPDIR": str(folder)})
    checked.judge(said, design_rows.truths(designs.one("counter")))
    checked.need(not any(folder.iterdir()), "something is left", said)


def users_files(room):
    """Files of the user's that have names one might take are as they were."""
    truths = put(room, LATE)
    for name in USERS:
        (room.here / name).write_text(f"of the user: {name}\n", encoding="ascii")
    checked.judge(room.run("model.aag", changes=model_rows.honest(room)), truths)
    for name in USERS:
        checked.need((room.here / name).read_text(encoding="ascii") == f"of the user: {name}\n", f"{name} is changed")


def users_files_of_design(room):
    design_rows.need_tools(*design_rows.TOOLS)
    design_rows.placed(room)
    for name in USERS:
        (room.here / name).write_text(f"of the user: {name}\n", encoding="ascii")
    checked.judge(room.run("--top", "counter", "counter.sv"), design_rows.truths(designs.one("counter")))
    for name in USERS:
        checked.need((room.here / name).read_text(encoding="ascii") == f"of the user: {name}\n", f"{name} is changed")


def read_only(room):
    """The user's folder may not be written: nothing is to be written there."""
    truths = put(room, LATE)
    room.here.chmod(0o555)
    try:
        checked.judge(room.run("model.aag", changes=model_rows.honest(room)), truths)
    finally:
        room.here.chmod(0o755)


def side_by_side(words, keeps, room):
    """Eight runs at once in one folder, of several models: each has its own answers."""
    changes = model_rows.honest(room)
    names = {which: f"model {at}.aag" for at, which in enumerate([LATE, TOKENS, TOGGLE, NEVER])}
    truths = {which: put(room, which, name) for which, name in names.items()}
    room.may_write.add("kept")
    with concurrent.futures.ThreadPoolExecutor(8) as pool:
        asked = []
        for which in [*names, *names]:
            more = ["--keep", f"kept/{names[which]}" if keeps else "kept"] if keeps is not None else []
            call = functools.partial(run_beside, room, [*words, *more, names[which]], changes)
            asked.append((which, pool.submit(call)))
        for which, it in asked:
            checked.judge(it.result(), truths[which], checked.EXACT)
    checked.need(not any(room.temporary.iterdir()), "something is left")
    if keeps:
        for name in names.values():
            for script in (room.here / "kept" / name).glob("*.check.sh"):
                checked.need(checked.succeeds(str(script), room, room.folder), f"{script} fails")


def run_beside(room, words, changes):
    """A run beside others, so that the folder for temporary files need not be empty."""
    run = room.start(*words, changes=changes)
    out, err = checked.ended(run)
    return checked.Said(run.returncode, out.decode(), err.decode(), tuple(words))


def designs_side_by_side(room):
    """Eight runs at once in one folder, of several designs."""
    design_rows.need_tools(*design_rows.TOOLS)
    design_rows.placed(room)
    some = [it for it in designs.DESIGNS if it.top in ("counter", "memory", "two_clocks", "identical")]
    with concurrent.futures.ThreadPoolExecutor(8) as pool:
        asked = [(it, pool.submit(run_beside, room, design_rows.words_of(it), {})) for it in [*some, *some]]
        for design, it in asked:
            checked.judge(it.result(), design_rows.truths(design))
    checked.need(not any(room.temporary.iterdir()), "something is left")


def one_after_another(room):
    """Two models keep in one folder files of one name: what is there then is of the last one, and holds."""
    room.may_write.add("kept")
    kept = room.here / "kept"
    for which in (TOKENS, NEVER, LATE, TOKENS):
        truths = put(room, which)
        said = room.run("--keep", "kept", "model.aag", changes=model_rows.honest(room))
        for it in checked.judge(said, truths):
            if it.answer == "never":
                checked.need((kept / f"{it.name}.check.sh").exists(), "no script", said)
        for script in kept.glob("*.check.sh"):
            checked.need(checked.succeeds(str(script), room, room.folder), f"{script} fails", said)


def certificate(which, frames, changes, room):
    """A certificate that is kept, for whom knows nothing but aiger."""
    put(room, which)
    room.may_write.add("kept")
    said = room.run("--frames", frames, "--keep", "kept", "model.aag", changes={**model_rows.honest(room), **changes})
    kept = room.here / "kept"
    found = checked.judge(said, model_rows.named(*TEXTS[which], "model.aag"), checked.BOUNDED, int(frames))
    checked.judge_kept(room, kept, found, said)
    return kept, kept / "b0.check.sh"


def moved(which, frames, changes, room):
    """The folder is moved, and the script is run from where it is and from elsewhere, by its path and from within."""
    kept, _ = certificate(which, frames, changes, room)
    other = room.folder / "another place's"
    shutil.move(str(kept), str(other))
    checked.need(checked.succeeds(str(other / "b0.check.sh"), room, room.folder), "it fails elsewhere")
    checked.need(checked.succeeds("./b0.check.sh", room, other), "it fails within")
    settings = room.settings({"PATH": f"{room.folder}:{os.environ['PATH']}", "AIGER": None})
    os.symlink(room.program, room.folder / "aiger")
    for words in (["sh", str(other / "b0.check.sh")], ["bash", "b0.check.sh"]):
        ran = subprocess.run(words, cwd=other, env=settings, capture_output=True, check=False)
        checked.need(ran.returncode == 0, "it fails by the PATH", ran)


def changed(which, frames, changes, how, room):
    """Something of a certificate is changed: the script must say so."""
    kept, script = certificate(which, frames, changes, room)
    how(room, kept)
    checked.need(not checked.succeeds(str(script), room, room.folder), f"it holds of {how.__name__}")


def another_model(room, kept):
    """In place of the model one in which a bad state is reached at once."""
    head, *lines = traces.converted(room.program, checked.model_of(kept).read_bytes(), "--ascii").decode().split("\n")
    counts = [int(it) for it in head.split()[1:]]
    at = counts[1] + counts[2] + counts[3]
    lines[at] = "1"
    other = traces.converted(room.program, "\n".join([head, *lines]).encode())
    checked.model_of(kept).write_bytes(other)


def no_model(_, kept):
    checked.model_of(kept).unlink()


def empty_model(_, kept):
    checked.model_of(kept).write_bytes(b"")


def no_refutation(_, kept):
    (kept / "b0.drat").unlink()


def any_refutation(_, kept):
    (kept / "b0.drat").write_bytes(bytes(range(250, 0, -1)))


def no_invariant(_, kept):
    (kept / "b0.pla").unlink()


def wrong_invariant(_, kept):
    text = (kept / "b0.pla").read_text(encoding="ascii")
    rows = re.findall(r"^([01-]+) 1$", text, re.MULTILINE)
    (kept / "b0.pla").write_text(f"{'-' * len(rows[0] if rows else '--')} 1\n", encoding="ascii")


def another_program(room, kept):
    """A script that succeeds must not do so where aiger fails."""
    (kept / "aiger").write_text("#!/bin/sh\nexit 1\n", encoding="ascii")
    (kept / "aiger").chmod(0o755)
    room.program = str(kept / "aiger")


def silent_program(room, kept):
    """Nor where aiger says nothing."""
    (kept / "aiger").write_text("#!/bin/sh\nexit 0\n", encoding="ascii")
    (kept / "aiger").chmod(0o755)
    room.program = str(kept / "aiger")


INVARIANT = TOKENS, "6", {}
BOUND = NEVER, "6", {"ABC": "false"}


def rows():
    each = functools.partial
    for size in (0, 1, 100, 1000, 4000):
        yield f"no file above {size} bytes", each(limited, size)
        yield f"no file above {size} bytes, for a design", each(limited_design, size)
    for size in ("4k", "8k", "16k", "64k"):
        yield f"a disk of {size}", each(small_disk, size, False)
        yield f"a disk of {size} to keep files", each(small_disk, size, True)
    for words in ([], ["--json"], ["--quiet"]):
        yield f"a full standard output {words}", each(full, "stdout", words)
        yield f"a full standard error {words}", each(full, "stderr", words)
    for streams in ("<&-", ">&-", "2>&-", ">&- 2>&-", "<&- 2>&-"):
        yield f"closed: {streams}", each(closed, streams)
    for called, make in UNWRITABLE.items():
        yield f"a folder to keep that {called}", each(unwritable, make)
    yield "TMPDIR is no folder", temporary_missing
    for name in ("with spaces", "a'b\"c", "$(touch hacked);x", "-x"):
        yield f"TMPDIR is {name}", each(temporary_named, name)
        yield f"TMPDIR is {name}, for a design", each(temporary_named_design, name)
    yield "files of the user's", users_files
    yield "files of the user's, beside a design", users_files_of_design
    yield "a folder that is only read", read_only
    for words, keeps in (([], None), (["--json"], None), ([], True), (["--json"], True)):
        yield f"side by side {words}, {keeps}", each(side_by_side, words, keeps)
    yield "designs side by side", designs_side_by_side
    yield "one after another", one_after_another
    for called, of in (("an invariant", INVARIANT), ("a bound", BOUND)):
        yield f"{called} that is moved", each(moved, *of)
        ways = [another_model, no_model, empty_model, no_refutation, another_program, silent_program]
        ways += [no_invariant, wrong_invariant] if of is INVARIANT else [any_refutation]
        for how in ways:
            yield f"{called} with {how.__name__}", each(changed, *of, how)
