"""How the model and the assertions are come by."""

from aiger_check.asked.chosen import chosen
from aiger_check.asked.of_aiger import of_aiger
from aiger_check.asked.of_two import OfTwo
from aiger_check.asked.of_verilog import of_verilog
from aiger_check.asked.question import Question
from aiger_check.order import by_name
from aiger_check.programs import Programs
from aiger_check.session import Session
from aiger_check.tools.aiger import Aiger


def ask(session: Session, programs: Programs, aiger: Aiger) -> Question:
    """What is asked of the files that are given, in the order in which it is answered."""
    given, question = session.given, asked(session, programs, aiger)
    if given.only:
        is_model = not given.verilog and not given.equal
        question.assertions = chosen(question.assertions, given.only, is_model, session.notes)
    if given.sort == "name":
        question.assertions.sort(key=by_name)
    return question


def asked(session: Session, programs: Programs, aiger: Aiger) -> Question:
    if session.given.equal:
        return OfTwo(session, programs, aiger).question()
    return of_verilog(session, programs) if session.given.verilog else of_aiger(session, aiger)
