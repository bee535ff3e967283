"""Programs in the place of aiger, Yosys, ABC and the solver: honest small ones, and those that lie, fail, sleep or are
killed."""
import shlex
import sys
import time
from pathlib import Path

from lib.check import checked

TOOLS = Path(__file__).resolve().parent / "tools"

# for a stand-in of a solver: its clauses, and where it is to write a refutation
FILES = """files=()
for word; do case $word in -* | *[0-9]) [ -e "$word" ] && files+=("$word") ;; *) files+=("$word") ;; esac; done
clauses=${files[0]-} refutation=${files[1]-/dev/null}
"""
UNSAT, SAT = 'echo "s UNSATISFIABLE"; exit 20', 'echo "s SATISFIABLE"'

# what a solver says that was not asked to solve anything
SOLVER_LIES = {
    "no refutation": UNSAT,
    "an empty refutation": f': > "$refutation"; {UNSAT}',
    "a forged refutation": f'echo 0 > "$refutation"; {UNSAT}',
    "a refutation by what does not follow": f"printf '1 0\\n-1 0\\n0\\n' > \"$refutation\"; {UNSAT}",
    "a foreign refutation": f"printf -- '-3 4 0\\n-5 0\\nd -3 4 0\\n0\\n' > \"$refutation\"; {UNSAT}",
    "a refutation over variables that are not there": f"printf '999999 0\\n0\\n' > \"$refutation\"; {UNSAT}",
    "a refutation that is cut": f"printf 'a\\006' > \"$refutation\"; {UNSAT}",
    "any bytes for a refutation": f'head -c 3000 /dev/urandom > "$refutation"; {UNSAT}',
    "a folder for a refutation": f'rm -rf "$refutation"; mkdir "$refutation"; {UNSAT}',
    "all values 0": f"{SAT}; echo 'v 0'; exit 10",
    "all values 1": f"{SAT}; echo v $(seq 1 $(sed -n 's/^p cnf \\([0-9]*\\) .*/\\1/p' \"$clauses\")) 0; exit 10",
    "values with status 0": f"{SAT}; echo 'v 0'",
    "values with status 20": f"{SAT}; echo 'v 0'; exit 20",
    "no values": f"{SAT}; exit 10",
    "values that do not end": f"{SAT}; echo 'v 1 2'; exit 10",
    "values of other variables": f"{SAT}; echo 'v 1 -2 999999999 0'; exit 10",
    "both": f"{SAT}; echo 'v 0'; {UNSAT}",
    "unsatisfiable with status 10": 'echo 0 > "$refutation"; echo "s UNSATISFIABLE"; exit 10',
    "unsatisfiable with status 1": 'echo 0 > "$refutation"; echo "s UNSATISFIABLE"; exit 1',
    "nothing": "exit 0",
    "nothing with status 10": "exit 10",
    "nothing with status 20": "exit 20",
    "that it does not know": 'echo "s UNKNOWN"',
    "other words": "echo never; echo 'none within 50'; echo 'confirmed 3'; exit 20",
    "any bytes": "head -c 3000 /dev/urandom; exit 20",
    "much on standard error": f"head -c 300000 /dev/zero >&2; {UNSAT}",
    "that it failed": "echo 'out of memory' >&2; exit 1",
    "nothing, since it was killed": "kill -KILL $$",
    "half, since it was killed": 'echo "s UNSATISFIABLE"; echo 0 > "$refutation"; kill -SEGV $$',
}

# where ABC is to write an invariant
INVARIANT = """text="$*"
invariant=$(sed -n 's/.*-I *"\\{0,1\\}\\([^ ;"]*\\).*/\\1/p' <<< "$text")
[ "$invariant" ] || invariant=/dev/null
run=$(sed -n 's/.*write_cex -a *"\\{0,1\\}\\([^ ;"]*\\).*/\\1/p' <<< "$text")
[ "$run" ] || run=/dev/null
"""
ASSERTED = "echo 'Output 0 of miter \"model\" was asserted in frame"
PROVED = "echo 'Property proved.  Time =     0.00 sec'"

# what ABC says, with rows or without
ABC_LIES = {
    "proved, and no rows": PROVED,
    "proved, and an empty file": f': > "$invariant"; {PROVED}',
    "proved, and no row of a file": f"printf '.i 2\\n.o 1\\n.p 0\\n.e\\n' > \"$invariant\"; {PROVED}",
    "proved, and a row for all": f"printf -- '%s 1\\n' - -- --- ---- ----- ------ > \"$invariant\"; {PROVED}",
    "proved, and rows of another width": f"printf -- '%s 1\\n' 111111111111 > \"$invariant\"; {PROVED}",
    "proved, and rows of one latch": "w=$(grep -a -o -m 1 '^aig [0-9]* [0-9]* [0-9]*' \"$model\" | cut -d ' ' -f 4); "
    f"for one in $(seq $w); do printf '%*s%s%*s 1\\n' $((one - 1)) '' 1 $((w - one)) '' | tr ' ' - | sed 's/-1$/ 1/'; "
    f'done > "$invariant"; {PROVED}',
    "proved, and any bytes": f'head -c 3000 /dev/urandom > "$invariant"; {PROVED}',
    "proved, and a folder": f'rm -rf "$invariant"; mkdir "$invariant"; {PROVED}',
    "rows that are not said to be proved": "printf -- '--1 1\\n' > \"$invariant\"; echo 'Property UNDECIDED.'",
    "that it is not so": "echo 'Property DISPROVED.'",
    "no counterexample": f"{ASSERTED} 7.'",
    "a counterexample of no step": f"echo > \"$run\"; {ASSERTED} 0.'",
    "a counterexample of zeros": f"printf '00\\n0\\n0\\n0\\n0\\n0\\n0# DONE\\n' > \"$run\"; {ASSERTED} 5.'",
    "a counterexample of ones": f"printf '00\\n1\\n1\\n1\\n1\\n1\\n1# DONE\\n' > \"$run\"; {ASSERTED} 5.'",
    "a counterexample of other inputs": f"printf '000\\n101\\n111# DONE\\n' > \"$run\"; {ASSERTED} 1.'",
    "any bytes for a counterexample": f"head -c 3000 /dev/urandom > \"$run\"; {ASSERTED} 1.'",
    "nothing": "exit 0",
    "any bytes": "head -c 3000 /dev/urandom",
    "that it failed": "echo 'Error: cannot' ; exit 1",
    "nothing, since it was killed": "kill -KILL $$",
}
MODEL = "model=$(sed -n 's/.*read[a-z_]* *\"\\{0,1\\}\\([^ ;\"]*\\).*/\\1/p' <<< \"$text\")\n"


def put(folder, name, body):
    """A program of this name, which bash runs."""
    file = Path(folder) / name
    file.parent.mkdir(parents=True, exist_ok=True)
    file.write_text(f"#!/bin/bash\n{body}\n", encoding="utf-8")
    file.chmod(0o755)
    return str(file)


def runs(name):
    """The words that run one of the tools beside this file, for bash."""
    return f"exec {shlex.quote(sys.executable)} -S -E {shlex.quote(str(TOOLS / name))}"


def honest_solver(folder, name="cadical"):
    return put(folder, name, f'{runs("solver.py")} "$@"')


def honest_abc(folder, name="berkeley-abc"):
    return put(folder, name, f'{runs("abc.py")} "$@"')


def lying_solver(folder, said, name="cadical"):
    return put(folder, name, FILES + SOLVER_LIES[said])


def lying_abc(folder, said):
    return put(folder, "berkeley-abc", INVARIANT + MODEL + ABC_LIES[said])


def turned_solver(folder):
    """One that solves, and says the opposite."""
    solves = f"{shlex.quote(sys.executable)} -S -E {shlex.quote(str(TOOLS / 'solver.py'))}"
    turned = f'{solves} "$@" > /dev/null; [ $? = 10 ] && {{ {UNSAT}; }}; {SAT}; echo "v 0"; exit 10'
    return put(folder, "cadical", turned)


def sleeping(folder, name, begun):
    """One that sleeps, and so does its own child, until they are killed; it writes both their numbers to a file."""
    return put(folder, name, f"sleep 400 & echo $$ $! > {shlex.quote(str(begun))}; wait")


def failing(folder, name, real, word, with_words="", status=1):
    """One that fails where one of its words is this, and else is the real one. Of an aiger of another version than the
    library is no call made, so that each question goes through it."""
    other = 'case "$1" in --version) exec echo another version ;; esac\n' if name == "aiger" else ""
    said = f"echo {shlex.quote(with_words)}; " if with_words else ""
    body = f'{other}case " $* " in *" {word} "*) {said}exit {status} ;; esac\nexec {shlex.quote(real)} "$@"'
    return put(folder, name, body)


def is_alive(number):
    """Whether a process is there, and not ended already."""
    try:
        state = Path(f"/proc/{number}/stat").read_text(encoding="ascii").rpartition(")")[2].split()[0]
    except OSError:
        return False
    return state not in "ZX"


def need_ended(begun, said=""):
    """That what wrote its numbers is ended, and so are its children; a signal takes a while."""
    numbers = begun.read_text(encoding="ascii").split()
    last = time.monotonic() + 60
    while any(map(is_alive, numbers)):
        if time.monotonic() > last:
            raise checked.Wrong(f"{numbers} are still there: {said}")
        time.sleep(0.02)
