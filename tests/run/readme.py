#!/usr/bin/env python3
"""Runs the commands of pages, and sees that each prints what stands there.

    tests/run/readme.py PROGRAM [PAGE ..]      by default README.md, examples/README.md, docs/TOOLS.md and the manuals

A command is an indented line that begins with `$`. What it prints is the indented lines behind it. In a manual page
both stand in literal displays. Those of a page run in one shell, in which the program is found on the PATH too, so that
a folder and a variable hold for the next ones. Those with python3 are skipped where the library is too old for the
Python module, as the released one is while a version is made; tests/run/library.py sees that it is not. Those with
aiger-check are skipped there too, and where a tool that it works with is not installed; so are those of docs/TOOLS.md.

Then the commands of README's table run one after another, over the example that its first row names, and do what the
table says: once as printed, so that a run is found, and once over so few frames that there is none. A row that begins
with `after 10` or `after 20` is for that status of the solver before it; after the other one it fails.

The last line is 'N passed, M failed', with ', K skipped' behind it where something was skipped, and counts commands.
"""
import os
import re
import shutil
import subprocess
import sys
import tempfile
from pathlib import Path

sys.dont_write_bytecode = True
sys.path[0] = str(Path(__file__).resolve().parent.parent)
from lib import counts

TOP = Path(__file__).resolve().parents[2]
README = TOP / "README.md"
OF_TOOLS = TOP / "docs" / "TOOLS.md"
PAGES = (README, TOP / "examples" / "README.md", OF_TOOLS, TOP / "man" / "aiger.1", TOP / "man" / "aiger-check.1")
TOOLS = "yosys", "berkeley-abc", "cadical"
COMMAND = re.compile(r"^    \$ (.*)\n((?:    (?!\$ ).*\n)*)", re.M)
SKIPPED = object()
DISPLAY = re.compile(r"^\.Bd -literal.*\n((?:(?!\.Ed$).*\n)*)", re.M)
TABLE = re.compile(r"^Command \| Result\n---\|---\n((?:`.*\n)+)", re.M)
TABLE_ROW = re.compile(r"`(.*?)` \| (?:after (\d+): )?(.*)")
# how many frames the table has, and so few that no run is found
FRAMES, FEWER = 20, 2


def commands(page):
    """The commands of a page, each with the lines that it prints; those of a manual page without the escapes of roff."""
    text = Path(page).read_text(encoding="utf-8")
    if Path(page).suffix == ".1":
        displays = "".join(DISPLAY.findall(text))
        text = re.sub(r"^", "    ", displays.replace(r"\&", "").replace(r"\e", "\\"), flags=re.M)
    return COMMAND.findall(text)


def furnish(room, program):
    """Puts what the commands of pages name into a folder, and gives the variables for them."""
    shutil.copytree(TOP / "examples", Path(room) / "examples")
    (Path(room) / "aiger").symlink_to(program)
    for name in ("python", "aiger-check"):
        (Path(room) / name).symlink_to(TOP / name)
    path = f"{room}:{os.environ['PATH']}"
    return {**os.environ, "PATH": path, "AIGER": program, "PYTHONDONTWRITEBYTECODE": "1"}


def printed(program, words):
    """What each of the commands prints, in one shell."""
    script = "\n".join(f"{command}\nprintf '\\0'" for command in words)
    with tempfile.TemporaryDirectory() as room:
        how = {"cwd": room, "env": furnish(room, program), "stdout": subprocess.PIPE, "stderr": subprocess.STDOUT}
        return subprocess.run(["bash", "-c", script], check=False, text=True, **how).stdout.split("\0")


def has_module():
    """Whether the Python module finds a library that has its calls."""
    variables = {**os.environ, "PYTHONPATH": str(TOP / "python")}
    ran = subprocess.run(["python3", "-Bc", "import aigtools"], env=variables, stderr=subprocess.DEVNULL, check=False)
    return ran.returncode == 0


def has_tools():
    """Whether what aiger-check works with is installed."""
    return all(map(shutil.which, TOOLS))


def skipped_words(page, of_module, of_tools):
    """The words whose commands are skipped on a page, since there is no module, or a tool is not installed."""
    if of_module and of_tools:
        return ()
    if page == OF_TOOLS:
        return ("",)
    return ("aiger-check",) if of_module else ("aiger-check", "python3")


def judged(program, page, skips):
    """Of each command of a page what is wrong with what it prints, if anything is."""
    found = commands(page)
    said = printed(program, [command for command, _ in found])
    if not found or len(said) <= len(found):
        yield f"{page} ends at its command {len(said)}" if found else f"{page} has no command"
        return
    for (command, lines), came in zip(found, said):
        if any(word in command for word in skips):
            yield SKIPPED
            continue
        wanted = re.sub(r"^    ", "", lines, flags=re.M)
        # a comment may end without a line feed
        is_same = came.rstrip("\n") == wanted.rstrip("\n")
        yield None if is_same else f"{command} prints\n{came}and not\n{wanted}"


# what the example comes to, by the command that answers for all its bad states
ANSWERS = "three (model.aag): never\nis two (model.aag): reached at 2\n2 assertions: 1 never, 1 reached\n"


def wanted_statuses(command, result, is_for_this):
    """With what a command of README's table may end."""
    if not is_for_this:
        return (1,)
    if command.startswith("cadical"):
        return tuple(map(int, re.findall(r"\b([12]0): ", result)))
    return (1,) if command == "aiger-check model.aag" else (0,)


def is_told(command, result, text):
    """Whether what a command of README's table prints is what stands there, if anything does."""
    if command == "aiger-check model.aag":
        return text == ANSWERS
    forms = re.findall(r"`(.*?)`", result.partition(";")[0]) if result.startswith("`") else []
    forms = [re.sub(r"\b[KN]\b", r"\\d+", form) for form in forms]
    return not forms or re.search(rf"^(?:.*: )?(?:{'|'.join(forms)})$", text, re.M) is not None


def table_row(row, how, status):
    """What is wrong with a row of README's table behind a solver's status, if anything is, and how it ends."""
    command, after, result = row
    is_for_this = not after or int(after) == status
    ran = subprocess.run(["bash", "-c", command], check=False, capture_output=True, text=True, **how)
    is_right = ran.returncode in wanted_statuses(command, result, is_for_this)
    is_right = is_right and (not is_for_this or is_told(command, result, ran.stdout))
    wrong = f"{command} has status {ran.returncode} and prints {ran.stdout!r}, {ran.stderr!r}"
    return None if is_right else wrong, ran.returncode


def table_rows(program):
    """Of each row of README's table, as printed and with fewer frames, what is wrong with it."""
    table = TABLE.search(README.read_text(encoding="utf-8"))
    if not table or not has_module():
        yield SKIPPED if table else "README has no table"
        return
    for frames, wanted in ((FRAMES, 10), (FEWER, 20)):
        text = re.sub(rf"(frames|within) {FRAMES}\b", rf"\1 {frames}", table[1])
        with tempfile.TemporaryDirectory() as room:
            how, status, statuses = {"cwd": room, "env": furnish(room, program)}, 0, []
            for row in TABLE_ROW.findall(text):
                wrong, ended = table_row(row, how, status)
                status = ended if row[0].startswith("cadical") else status
                statuses.append(ended)
                yield wrong
            yield None if wanted in statuses else f"no row of README's table ends with {wanted} over {frames} frames"


def main(program, *pages):
    program, there = counts.need_program(program), (has_module(), has_tools())
    said = [it for page in pages or PAGES for it in judged(program, page, skipped_words(page, *there))]
    if not pages:
        said += table_rows(program) if has_tools() else [SKIPPED]
    skipped = said.count(SKIPPED)
    wrong = [it for it in said if it and it is not SKIPPED]
    counts.finish(wrong, len(said) - len(wrong) - skipped, skipped)


if __name__ == "__main__":
    main(*sys.argv[1:])
