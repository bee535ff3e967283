"""Verilog that is given."""

import contextlib
from pathlib import Path
from typing import List, Sequence

from aiger_check.arguments import Design as Files
from aiger_check.asked.question import Question, Translation, question_of
from aiger_check.faults import visible
from aiger_check.front.asked import Asked
from aiger_check.front.replay import Replay
from aiger_check.front.reset import Reset
from aiger_check.front.second.beside import Second
from aiger_check.front.second.comparison import Design
from aiger_check.front.shown import WholeDesign
from aiger_check.front.sources import Sources
from aiger_check.front.translation import Front
from aiger_check.front.vhdl.ghdl import Vhdl, is_vhdl, translated
from aiger_check.front.yosys import LIMIT, Yosys
from aiger_check.programs import Programs
from aiger_check.session import Session


#: what there may be none of in a mode
ABSENT = {"cover": "cover", "live": "liveness assertion"}


def started(stack: contextlib.ExitStack, session: Session, programs: Programs, design: Files, place: Path) -> Yosys:
    """A Yosys for these files, which ends with the stack."""
    program = programs.yosys()
    place.mkdir()
    given = session.given
    if is_vhdl(design.files[0]):
        vhdl = of_vhdl(session, programs, design, place / "ghdl")
        sources = Sources([str(vhdl.path)], [], [], place, vhdl=vhdl)
    else:
        sources = Sources(design.files, given.include, given.defines, place, given.parameters)
    stack.callback(sources.close)
    return stack.enter_context(Yosys(program, session.children, sources, LIMIT))


def of_vhdl(session: Session, programs: Programs, design: Files, place: Path) -> Vhdl:
    """What ghdl makes of these files."""
    program = programs.ghdl()
    place.mkdir()
    made = translated(program, session.children, design.files, design.top, session.given.parameters, place)
    for words in made.notes:
        session.notes.warn(visible(words))
    session.notes.tell("what ghdl made of the VHDL is what Yosys and the second front end run")
    return made


def note_all(session: Session, front: Front) -> None:
    """Says what came up in the translation: all of it but asides may change what an answer means."""
    for words in (*(f"Yosys: {line}" for line in front.yosys.warnings()), *front.notes):
        session.notes.warn(words)
    for words in front.asides:
        session.notes.tell(words)
    for reason, cells in front.doubts:
        session.doubts.add(reason, None if session.given.equal else cells)


def of_verilog(session: Session, programs: Programs) -> Question:
    """What is asked of the design that is given."""
    program, place, top = programs.yosys(), session.folder / "verilog", session.given.tops[0]
    design = Files(top, session.given.files, top)
    with contextlib.ExitStack() as stack:
        asked, clocks = Asked(session.given.mode, session.given.cover_asserts), session.given.clocks
        front = Front(started(stack, session, programs, design, place), top, False, clocks, asked)
        if session.given.reset:
            front.reset = Reset.of(session.given.reset, session.given.reset_steps)
        assertions = front.translate()
    note_all(session, front)
    if not assertions:
        session.notes.warn(f"there is no {ABSENT.get(session.given.mode, 'assertion')}")
    question = question_of(place / "model.aig", assertions)
    question.replay = Replay(program, session.children, place, top, front.clock, front.replays)
    question.whole = WholeDesign(program, place, top, front.clock, bool(front.reason))
    question.unset = None if session.given.reset else front.unset_registers
    question.translations = [translation(front)]
    question.seconds = seconds(session, program, [front])
    return question


def seconds(session: Session, program: str, fronts: Sequence[Front]) -> List[Second]:
    """Has a second front end asked of each design, while the search goes on."""
    if session.given.second == "none":
        return []
    found = []
    for at, front in enumerate(fronts):
        design = Design(front.sources, front.top, front.properties, bool(front.reason), front.asynchronous)
        second = Second(design, program, session.children, session.folder / f"second{at}", session.doubts)
        second.wanted, second.is_of_all = session.given.second, session.given.equal
        found.append(second.start())
    return found


def translation(front: Front) -> Translation:
    vhdl = front.sources.vhdl
    return Translation(front.sources.folder, front.yosys.script(), vhdl.words if vhdl else [])
