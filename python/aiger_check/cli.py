"""The program."""

import os
import signal
import sys
from typing import Sequence

from aiger_check import PROGRAM, VERSION
from aiger_check.arguments import check_arguments, parse_arguments
from aiger_check.ending import Ended, end_by, open_descriptors, work
from aiger_check.faults import Late, Trouble, Usage, visible
from aiger_check.help import HELP
from aiger_check.report import say, show
from aiger_check.statuses import Status, expected
from aiger_check.tools.processes import SIGNALS


def main(arguments: Sequence[str]) -> int:
    open_descriptors()
    sys.stderr = sys.stderr or open(os.devnull, "w")
    outcomes: Sequence[str] = ()
    try:
        for number in SIGNALS:
            # nohup has SIGHUP ignored; a shell that has none of its jobs interrupted is not asked
            if number in (signal.SIGINT, signal.SIGTERM) or signal.getsignal(number) is not signal.SIG_IGN:
                signal.signal(number, end_by)
        given = parse_arguments(arguments)
        outcomes = given.expect
        if given.help or given.version:
            show(HELP.rstrip("\n") if given.help else f"{PROGRAM} {VERSION}")
            return Status.KEPT
        return expected(work(check_arguments(given)), outcomes)
    except Usage as why:
        say(f"{why}\nTry '{PROGRAM} --help'.")
        return Status.USAGE
    except Trouble as why:
        say(str(why))
    except Late as why:
        say(str(why))
        return expected(Status.TIMEOUT, outcomes)
    except Ended as why:
        return 128 + why.number
    except OSError as why:
        say(f"{visible(os.fsdecode(why.filename))}: {why.strerror}" if why.filename else str(why.strerror))
    except MemoryError:
        say("out of memory")
    except Exception as why:  # whatever it is, status 1 would say that an assertion is broken
        say(f"internal error: {type(why).__name__}: {visible(str(why))}")
    return expected(Status.TROUBLE, outcomes)
