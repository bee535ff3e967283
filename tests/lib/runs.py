"""How the hostile programs run what they try: over the rows of rows/small.py, each in a folder of its own."""
import collections
import concurrent.futures
import os
import shutil
import signal
import subprocess
import tempfile
from pathlib import Path

from lib import counts
from rows import small

# how many seconds a run may take
PATIENCE = 20
# compiles fail_call.c in the way that the other scripts have
COMPILE = '. "$0/judge.sh"; compile_preload fail_call && cp "$work/fail_call.so" "$1"'


def folder():
    """A folder for many small files, which goes with the script: in memory, if there is such a place."""
    return tempfile.TemporaryDirectory(dir="/dev/shm" if os.access("/dev/shm", os.W_OK) else None)


class Runner:
    """Runs the program in a folder of its own, made under this one, over files that are there by name."""

    def __init__(self, program, under):
        self.program = program
        os.chdir(tempfile.mkdtemp(dir=under))
        signal.signal(signal.SIGALRM, signal.default_int_handler)

    def put(self, name, text):
        Path(name).write_bytes(text)

    def run(self, words, given, environment=None, source="given", output="output"):
        """Standard output, standard error and the status of these words over this standard input, or over another file
        that is there by name; a signal is a status below 0, and SIGKILL a run that took too long. Standard output may
        go to another file, or to a descriptor; then nothing of it is read here."""
        if given is not None:
            self.put("given", given)
        errors, to_errors = os.pipe()
        actions = [(os.POSIX_SPAWN_OPEN, 0, source, os.O_RDONLY, 0), (os.POSIX_SPAWN_DUP2, to_errors, 2)]
        if isinstance(output, int):
            actions.append((os.POSIX_SPAWN_DUP2, output, 1))
        else:
            actions.append((os.POSIX_SPAWN_OPEN, 1, output, os.O_WRONLY | os.O_CREAT | os.O_TRUNC, 0o600))
        child = os.posix_spawn(self.program, [self.program, *words], environment or {}, file_actions=actions)
        os.close(to_errors)
        signal.alarm(PATIENCE)
        try:
            _, ended = os.waitpid(child, 0)
        except KeyboardInterrupt:
            os.kill(child, signal.SIGKILL)
            _, ended = os.waitpid(child, 0)
        signal.alarm(0)
        with open(errors, "rb") as said:
            sent = Path(output).read_bytes() if output == "output" else b""
            return sent, said.read(), os.waitstatus_to_exitcode(ended)


def judge_rows(judged, program, name=""):
    """Judges each row that has this in its name in a process of its own, by a function of the program, of what
    fail_call.c was compiled to, of a folder and of the row's number, which gives how often what came, and what was
    wrong. Prints the sums."""
    total, wrong = collections.Counter(), []
    program = counts.need_program(program)
    numbers = [number for number, row in enumerate(small.ROWS) if name in row.name]
    counts.need(numbers, name)
    pools = concurrent.futures.ProcessPoolExecutor(os.cpu_count())
    # a library is not loaded from everywhere, as from where there are only files in memory
    with tempfile.TemporaryDirectory() as compiled, folder() as under, pools as pool:
        words = ["bash", "-c", COMPILE, Path(__file__).parent, compiled]
        said = subprocess.run(words, capture_output=True, check=False)
        preload = f"{compiled}/fail_call.so"
        if not any(map(shutil.which, ("gcc", "cc", "clang", os.environ.get("RT") or "rt"))):
            print("SKIPPED: there is no C compiler")
            counts.finish([], 0, len(numbers))
        if not os.path.exists(preload):
            counts.finish([f"tests/preload/fail_call.c compiles: {said}"], 0)
        asked = [pool.submit(judged, program, preload, under, number) for number in numbers]
        for came, said in (it.result() for it in asked):
            total += came
            wrong += said
    for kind, count in sorted(total.items()):
        print(f"{count:7} {kind}")
    counts.finish(wrong, total.total() - len(wrong))
