"""A Yosys that runs."""

import contextlib
import json
import os
import re
import secrets
import signal
import subprocess
import threading
from typing import IO, Any, Dict, List, Optional, Sequence, cast

from aiger_check.faults import Stopped, Trouble, visible
from aiger_check.front.sources import Sources
from aiger_check.tools.processes import Children


#: warnings that are refusals or notes of their own
TOLD = re.compile(r"logic loop|multiple conflicting drivers|is used but has no driver\.$")
#: words of the language that Yosys does not know
UNREAD = re.compile(
    r"(?<![\w$.\\])(?:force|release|deassign|fork|wait|disable|forever|tri0|tri1|trireg|pullup|pulldown|primitive|class"
    r"|covergroup|program|checker|break|continue|return|inside|foreach|do|expect|randcase|string|event)(?![\w$])"
)
#: seconds that a Yosys may take for a design
LIMIT = 600.0


class Yosys:
    """A Yosys that runs, and is told what to do bit by bit."""

    def __init__(self, program: str, children: Children, sources: Sources, limit: float = LIMIT) -> None:
        self.children, self.sources, self.limit = children, sources, limit
        self.said: List[str] = []
        self.told: List[str] = []
        # where nothing is that it might read
        (sources.folder / "empty").mkdir()
        self.child = children.start(
            [program, "-q", "-s", "-"],
            stdin=subprocess.PIPE,
            stdout=subprocess.DEVNULL,
            stderr=subprocess.PIPE,
            cwd=sources.folder / "empty",
            pass_fds=(sources.descriptor,),
            # Yosys would take ABC for the path of its own ABC
            env={name: value for name, value in os.environ.items() if name != "ABC"},
        )
        # both are pipes
        self.input, self.errors = cast(IO[bytes], self.child.stdin), cast(IO[bytes], self.child.stderr)
        self.late = False
        self.clock = threading.Timer(limit, self.end_late)
        self.clock.daemon = True
        self.clock.start()

    def end_late(self) -> None:
        """Ends it when its time is over: what it says then has an end too."""
        self.late = True
        with contextlib.suppress(ProcessLookupError, PermissionError):
            os.killpg(self.child.pid, signal.SIGKILL)

    def __enter__(self) -> "Yosys":
        return self

    def __exit__(self, *_: Any) -> None:
        self.clock.cancel()
        self.children.end(self.child)
        for pipe in (self.input, self.errors):
            with contextlib.suppress(OSError):
                pipe.close()

    def do(self, *commands: str) -> List[str]:
        """Gives commands, and waits until they are done. What Yosys says of them is returned."""
        self.told += commands
        mark = f"done-{secrets.token_hex(8)}"
        text = "\n".join([*commands, f"log -stderr -nolog {mark}", ""])
        with contextlib.suppress(BrokenPipeError):
            self.input.write(text.encode(errors="surrogateescape"))
            self.input.flush()
        said: List[str] = []
        for line in self.errors:
            words = line.decode(errors="replace").rstrip("\n")
            if words == mark:
                self.said += said
                return said
            said.append(words)
        if self.children.stopped:
            raise Stopped
        if self.late:
            raise Trouble(f"Yosys did not end in {self.limit:g} s")
        raise Trouble(visible(self.failure(said)))

    def script(self) -> str:
        """What it was told until the model was there, for one that runs in a folder beside the sources."""
        model = f"{self.sources.alias}/model.aig"
        end = next((at for at, line in enumerate(self.told, 1) if line.endswith(model)), len(self.told))
        return "".join(f"{line}\n" for line in self.told[:end]).replace(self.sources.alias, "..")

    def failure(self, said: Sequence[str]) -> str:
        """Why Yosys ended."""
        for line in said:
            match = re.match(r"(?:(.*?):(\d+): )?ERROR: (.*)", line)
            if match:
                unknown = re.fullmatch(r"Can't find object for defparam .(.*).!", match[3])
                if unknown:
                    return f"-P {unknown[1]}: the top module has no such parameter"
                foreign = re.fullmatch(r"Found DPI function \\(.*)\.", match[3])
                if foreign:
                    file = self.sources.users_name(match[1])
                    return f"{file}: {foreign[1]} is imported by DPI, and no function of another language is called"
                refused = re.search(r"undefined macro `(\w+)", match[3])
                if refused and refused[1] in self.sources.refused:
                    return self.sources.refused[refused[1]]
                place = f"{self.sources.shown(match[1], int(match[2]))}: " if match[1] else ""
                if match[3].endswith("expecting TOK_PROPERTY"):
                    return f"{place}outside of an always block write assert property (..)"
                hint = self.unread(match[1], match[2]) if match[3].startswith("syntax error") else ""
                return place + self.sources.with_users_names(match[3]) + hint
        self.child.wait()
        last = f": {said[-1]}" if said else ""
        return f"Yosys ended with status {self.child.returncode}{last}"

    def unread(self, path: Optional[str], line: Optional[str]) -> str:
        """What stands in a line that Yosys does not read, as a hint, if it is known."""
        lines = self.sources.lines(path or "")[int(line or 1) - 1 :][:1]
        words = UNREAD.findall(re.sub(r"//.*|\"[^\"]*\"", "", lines[0])) if lines else []
        return f": {words[0]} is not read by Yosys" if words else ""

    def warnings(self) -> List[str]:
        """What Yosys warned of, with the user's names."""
        kept = (line.partition("Warning: ")[2] for line in self.said if not TOLD.search(line))
        return [visible(self.sources.with_users_names(line)) for line in kept if line]

    def netlist(self, name: str) -> Dict[str, Any]:
        """The modules of the design as it is now."""
        self.do(f"write_json {self.sources.alias}/{name}.json")
        with open(self.sources.folder / f"{name}.json", encoding="utf-8", errors="replace") as file:
            return dict(json.load(file)["modules"])

    def rtlil(self, name: str) -> str:
        """The design as it is now in Yosys's own language."""
        self.do(f"write_rtlil {self.sources.alias}/{name}.il")
        return (self.sources.folder / f"{name}.il").read_text(encoding="utf-8", errors="replace")


def bare(name: str) -> str:
    """A name of Yosys without the backslash that it has where it could be one of Yosys's own."""
    return name[1:] if name.startswith("\\") else name


def in_netlist(name: str) -> str:
    """A name of RTLIL as a netlist in JSON has it."""
    return name[1:] if re.match(r"\\[^\\$0-9]", name) else name


def quoted(name: str) -> str:
    """A name of a netlist as a word of a command."""
    return name if name[:1] in "\\$" else f"\\{name}"


def top_of(modules: Dict[str, Any]) -> str:
    return next(name for name, module in modules.items() if int(module["attributes"].get("top", "0"), 2))
