#!/usr/bin/env python3
"""Completions of a command for bash, zsh and fish, made of what its --help says, so that they have the same options.

    release/completions.py NAME FOLDER WORD ..     writes FOLDER/NAME.bash, FOLDER/NAME.zsh and FOLDER/NAME.fish;
                                                   the words run the command here
"""
import re
import subprocess
import sys
from pathlib import Path
from typing import Iterator, List, NamedTuple, Sequence, Tuple

# the names of an option, each perhaps with what it takes, and what it does
NAME = r"--?[A-Za-z][A-Za-z-]*(?: <[^>]*>[.]*)?"
OPTION = re.compile(rf" {{2,6}}({NAME}(?:, {NAME})*)(?: +(\S.*))?$")
COMMAND = re.compile(r"  ([a-z]+)  +(\S.*)$")
FILES, FOLDER = ("FILE", "LIST"), "DIR"


class Option(NamedTuple):
    """An option: its names, as -s and --solver, what it takes, if anything, and what it does."""

    names: Tuple[str, ...]
    value: str
    about: str


class Page(NamedTuple):
    """What --help says: of the whole program, or of one command of it."""

    name: str
    about: str
    options: List[Option]


def whole_lines(text: str) -> List[str]:
    """The lines of a page, each with those that go on with it."""
    return re.sub(r"\n {10,}(?=\S)", " ", text).splitlines()


def commands_of(text: str) -> List[Tuple[str, str]]:
    """The commands that a page lists, and what they do."""
    found = re.search(r"^Commands:\n((?: .*\n)*)", text, re.M)
    matches = map(COMMAND.match, whole_lines(found[1]) if found else [])
    return [(it[1], in_short(it[2])) for it in matches if it]


def in_short(about: str) -> str:
    """The beginning of what an option does."""
    return re.split(r"[;.?](?: |$)| \(default", about)[0]


def options_of(text: str) -> List[Option]:
    """The options of a page."""
    found = [(it[1], it[2] or "") for it in map(OPTION.match, whole_lines(text)) if it]
    names = [tuple(re.findall(r"(?:^|, )(-[A-Za-z-]+)", head)) for head, _ in found]
    values = [re.search(r"<(.+?)>", head) for head, _ in found]
    return [Option(of, it[1] if it else "", in_short(about)) for of, it, (_, about) in zip(names, values, found)]


def help_of(words: Sequence[str]) -> str:
    """What --help of these words says."""
    return subprocess.run([*words, "--help"], check=True, stdout=subprocess.PIPE, text=True).stdout


def pages_of(name: str, words: Sequence[str]) -> Iterator[Page]:
    """The program's own page, and one for each of its commands."""
    text = help_of(words)
    yield Page(name, "", options_of(text))
    for command, about in commands_of(text):
        yield Page(command, about, options_of(help_of([*words, command])) if command != "help" else [])


def in_bash(name: str, pages: Sequence[Page]) -> str:
    """The completions for bash. Where nothing is found it takes the names of files."""
    own, *commands = pages
    words, *of_commands = [" ".join(option for it in page.options for option in it.names) for page in pages]
    names = " ".join(page.name for page in commands)
    cases = [f"        {page.name}) words='{of_page}' ;;\n" for page, of_page in zip(commands, of_commands) if of_page]
    by_command = f"""    case ${{COMP_WORDS[1]}} in
{"".join(cases)}\
        help) words='{names}' is_word=yes ;;
    esac
    [ "$COMP_CWORD" != 1 ] || words='{names} {words}' is_word=yes
"""
    function = "_" + name.replace("-", "_")
    return f"""# Completions of {name} for bash, made of its --help
{function}() {{
    local word=${{COMP_WORDS[COMP_CWORD]}} words='{words}' is_word=
    [[ $word != -* ]] || is_word=yes
{by_command if commands else ""}\
    COMPREPLY=()
    [ -z "$is_word" ] || COMPREPLY=($(compgen -W "$words" -- "$word"))
}}
complete -o default -F {function} {name}
"""


def zsh_option(option: Option) -> str:
    """An option as _arguments takes it."""
    about = re.sub(r"([\[\]:\\])", r"\\\1", option.about).replace("'", "'\\''")
    action = {FOLDER: "_files -/", **dict.fromkeys(FILES, "_files")}.get(option.value, "")
    value = re.sub(r"[^\w]", " ", option.value).strip()
    takes = f":{value}:{action}" if value else ""
    return " ".join(f"'*{it}[{about}]{takes}'" for it in option.names)


def in_zsh(name: str, pages: Sequence[Page]) -> str:
    """The completions for zsh."""
    own, *commands = pages
    lists = [
        " \\\n        ".join(["_arguments -s", *map(zsh_option, page.options), "'*:file:_files'"]) for page in pages
    ]
    if not commands:
        return f"#compdef {name}\n# made of its --help\n{lists[0]}\n"
    described = "\n".join(f"    '{page.name}:{page.about}'" for page in commands)
    cases = "\n".join(f"    {page.name}) {of_page} ;;" for page, of_page in zip(commands, lists[1:]) if page.options)
    return f"""#compdef {name}
# made of its --help
local -a commands
commands=(
{described}
)
if (( CURRENT == 2 )) || [[ $words[2] == help ]]; then
    _describe command commands
    (( CURRENT != 2 )) || _arguments {' '.join(map(zsh_option, own.options))}
    return
fi
local command=$words[2]
shift words
(( CURRENT-- ))
case $command in
{cases}
esac
"""


def fish_option(start: str, option: Option) -> str:
    """The line for an option."""
    names = "".join(f" -l {it[2:]}" if it.startswith("--") else f" -s {it[1:]}" for it in option.names)
    takes = "" if not option.value else " -r" if option.value in (*FILES, FOLDER) else " -x"
    about = option.about.replace("\\", "\\\\").replace("'", "\\'")
    return f"{start}{names}{takes} -d '{about}'"


def in_fish(name: str, pages: Sequence[Page]) -> str:
    """The completions for fish."""
    own, *commands = pages
    lines = [f"# Completions of {name} for fish, made of its --help"]
    alone = f"complete -c {name} -n __fish_use_subcommand" if commands else f"complete -c {name}"
    lines += [f"{alone} -f -a {page.name} -d '{page.about}'" for page in commands]
    lines += [fish_option(alone, option) for option in own.options]
    for page in commands:
        start = f"complete -c {name} -n '__fish_seen_subcommand_from {page.name}'"
        lines += [fish_option(start, option) for option in page.options]
    return "\n".join(lines) + "\n"


def main(name: str, folder: str, *words: str) -> None:
    pages = list(pages_of(name, words))
    for shell, made in (("bash", in_bash), ("zsh", in_zsh), ("fish", in_fish)):
        Path(folder, f"{name}.{shell}").write_text(made(name, pages), encoding="utf-8")


if __name__ == "__main__":
    main(*sys.argv[1:])
