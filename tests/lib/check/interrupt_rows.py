"""Rows of interrupts: at whatever moment one comes, nothing is left, no file, no child, and the status tells it."""
import functools
import os
import signal
import subprocess
import sys
import time

from lib.check import checked, design_rows, designs, model_rows, stand_ins
from lib.check.model_rows import LATE, RING

STATUSES = {signal.SIGINT: 130, signal.SIGTERM: 143}
# they end a program that does not take them
OTHERS = [signal.SIGHUP, signal.SIGXCPU, signal.SIGALRM, signal.SIGUSR1, signal.SIGUSR2, signal.SIGQUIT]
OTHERS += [signal.SIGVTALRM, signal.SIGPROF, signal.SIGPOLL, signal.SIGPWR]
TOOLS = ("YOSYS", "ABC", "SOLVER", "AIGER")


def wait_for(holds, run, longest=120):
    """Waits until this holds, or the run has ended."""
    last = time.monotonic() + longest
    while not holds() and run.poll() is None:
        checked.need(time.monotonic() < last, "it does not begin")
        time.sleep(0.005)


def has_numbers(begun):
    return begun.exists() and begun.read_text(encoding="ascii").endswith("\n")


def slept(room, name):
    """The words and changes of a run in which this tool sleeps, and the file that tells its processes."""
    begun, changes = room.folder / "begun", model_rows.honest(room)
    (room.here / "model.aag").write_text(model_rows.TEXTS[LATE if name == "AIGER" else RING][0], encoding="ascii")
    called = {"SOLVER": "cadical", "ABC": "berkeley-abc", "YOSYS": "yosys", "AIGER": "aiger"}[name]
    changes[name] = stand_ins.sleeping(room.folder / "slow", called, begun)
    words = ["model.aag"]
    if name == "YOSYS":
        design_rows.placed(room)
        words = ["--top", "counter", "counter.sv"]
    if name == "SOLVER":
        changes["ABC"] = "false"
    return words, changes, begun


def of_tool(name, number, is_group, count, keeps, room):
    """The signal comes while this tool runs, perhaps to all processes as from a terminal, perhaps more than once."""
    words, changes, begun = slept(room, name)
    if keeps:
        room.may_write.add("kept")
        words = ["--keep", "kept", *words]
    before = room.files()
    run = room.start(*words, changes=changes, start_new_session=True)
    wait_for(lambda: has_numbers(begun), run)
    checked.need(run.poll() is None, "it ended before", run.communicate() if run.poll() is not None else "")
    for _ in range(count):
        if run.poll() is None:
            (os.killpg if is_group else os.kill)(run.pid, number)
            time.sleep(0.01)
    said = room.end(run, tuple(words), before)
    checked.need(said.status == 128 + number, f"status {128 + number} is due", said)
    checked.need("reached" not in said.out and "never" not in said.out, "an answer", said)
    stand_ins.need_ended(begun, said)


def behind_pipe(numbers, room):
    """The signals come, one after another, while a pipe is waited for, into which nobody writes; SIGPIPE ends nothing."""
    changes = model_rows.honest(room)
    os.mkfifo(room.here / "pipe")
    before = room.files()
    run = room.start("pipe", changes=changes, start_new_session=True)
    wait_for(lambda: any(room.temporary.iterdir()), run)
    for number in numbers:
        time.sleep(0.3)
        checked.need(run.poll() is None, "it ended before", run.args)
        os.kill(run.pid, number)
    said = room.end(run, ("pipe",), before)
    checked.need(said.status == 128 + numbers[-1], f"status {128 + numbers[-1]} is due", said)


def at_some_moment(part, room):
    """With the tools themselves, some while after the run has begun to write."""
    design_rows.need_tools(*design_rows.TOOLS)
    design_rows.placed(room)
    room.may_write.add("kept")
    design = designs.named(["board", "memory", "not_inductive", "two_clocks"][part % 4])
    words, before = ["--keep", "kept", *design_rows.words_of(design)], room.files()
    run = room.start(*words, start_new_session=True)
    wait_for(lambda: any(room.temporary.iterdir()), run)
    time.sleep(part * 0.02)
    if run.poll() is None:
        os.kill(run.pid, signal.SIGINT)
    said = room.end(run, tuple(words), before)
    kept = room.here / "kept"
    names = os.listdir(kept) if kept.exists() else []
    checked.need(all(map(checked.KEPT_FILE.fullmatch, names)), f"kept {names}", said)
    for name in names:
        if name.endswith(".check.sh"):
            checked.need(checked.succeeds(str(kept / name), room, room.folder), f"{name} fails", said)
    if said.status != 130:
        checked.judge(said, design_rows.truths(design))


def ended_reader(room):
    """Who reads the lines has gone."""
    changes = model_rows.honest(room)
    (room.here / "model.aag").write_text(model_rows.TEXTS[LATE][0], encoding="ascii")
    reading, writing = os.pipe()
    os.close(reading)
    with os.fdopen(writing, "wb") as stream:
        said = room.run("model.aag", changes=changes, stdout=stream)
    checked.need(said.status == checked.TROUBLE, f"status {checked.TROUBLE} is due", said)


def ignored(room):
    """Where SIGINT is ignored from the first, as behind nohup and &, the run goes on or ends: nothing is left."""
    changes = model_rows.honest(room)
    (room.here / "model.aag").write_text(model_rows.TEXTS[RING][0], encoding="ascii")
    words = ["bash", "-c", 'trap "" INT; "$@" & wait $!', "-", sys.executable, checked.CHECK, "model.aag"]
    ran = subprocess.run(words, cwd=room.here, env=room.settings(changes), capture_output=True, check=False, text=True)
    checked.need(ran.returncode == 0 and "never" in ran.stdout, "another answer", ran)
    checked.need(not any(room.temporary.iterdir()), "something is left", ran)


def rows():
    each = functools.partial
    for at, number in enumerate(OTHERS):
        for keeps, name in ((False, TOOLS[at % 4]), (True, TOOLS[(at + 1) % 4])):
            yield f"{number.name} while {name} runs, keeps: {keeps}", each(of_tool, name, number, keeps, 1, keeps)
    for number in (*STATUSES, *OTHERS[:4]):
        yield f"{number.name} behind a pipe", each(behind_pipe, [number])
    yield "SIGPIPE and SIGTERM behind a pipe", each(behind_pipe, [signal.SIGPIPE, signal.SIGTERM])
    for name in TOOLS:
        for number in STATUSES:
            for is_group in (False, True):
                whom = "all" if is_group else "it"
                yield f"{number.name} to {whom} while {name} runs", each(of_tool, name, number, is_group, 1, False)
        yield f"SIGINT five times while {name} runs", each(of_tool, name, signal.SIGINT, True, 5, False)
        yield f"SIGINT while {name} runs, with files to keep", each(of_tool, name, signal.SIGINT, False, 1, True)
    for part in range(16):
        yield f"SIGINT at moment {part}", each(at_some_moment, part)
    yield "a reader that has gone", ended_reader
    yield "SIGINT ignored from the first", ignored
