"""The answers as a report of JUnit, which other programs read."""

import re
from typing import Dict, NamedTuple, Optional, Sequence
from xml.etree import ElementTree

from aiger_check import PROGRAM
from aiger_check.answers import Assertion
from aiger_check.faults import visible
from aiger_check.statuses import Status, outcome_of, status_of_one
from aiger_check.tallies import Answered

#: what is an error of a test, and of which type
ERRORS = {
    Status.VACUOUS: "vacuous",
    Status.UNKNOWN: "unknown",
    Status.TIMEOUT: "timeout",
    Status.TROUBLE: "error",
}


class Suite(NamedTuple):
    """What was checked: what it is called, how long that took, what was noted, and why there is no answer, if so."""

    name: str
    seconds: float
    notes: Sequence[str]
    trouble: Optional[str] = None


def report(suite: Suite, answered: Sequence[Answered], status: Status) -> bytes:
    """The text of a report; what XML cannot have is escaped, as it is in lines."""
    of_all = ElementTree.Element("testsuites")
    root = ElementTree.SubElement(of_all, "testsuite", name=visible(suite.name), time=f"{suite.seconds:.3f}")
    properties = ElementTree.SubElement(root, "properties")
    ElementTree.SubElement(properties, "property", name="status", value=outcome_of(status))
    for it in answered:
        add_test(root, suite.name, it)
    if suite.trouble is not None:
        test = ElementTree.SubElement(root, "testcase", classname=visible(suite.name), name=PROGRAM)
        kind = ERRORS.get(status, ERRORS[Status.TROUBLE])
        ElementTree.SubElement(test, "error", type=kind, message=visible(suite.trouble))
    if suite.notes:
        ElementTree.SubElement(root, "system-err").text = "".join(f"{visible(it)}\n" for it in suite.notes)
    counts = {"tests": "testcase", "failures": "testcase/failure", "errors": "testcase/error"}
    root.attrib.update({name: str(len(root.findall(path))) for name, path in counts.items()}, skipped="0")
    return bytes(ElementTree.tostring(of_all, encoding="utf-8", xml_declaration=True)) + b"\n"


def add_test(root: ElementTree.Element, name: str, it: Answered) -> None:
    """Adds the test that an assertion is."""
    assertion, verdict = it
    named = {"classname": visible(name), "name": visible(called(assertion)), **place_of(assertion)}
    test = ElementTree.SubElement(root, "testcase", named)
    status, said = status_of_one(assertion, verdict), visible(assertion.said(verdict))
    if status is Status.BROKEN:
        ElementTree.SubElement(test, "failure", type=assertion.called(verdict.answer), message=said)
    elif status in ERRORS:
        ElementTree.SubElement(test, "error", type=ERRORS[status], message=said)
    else:
        ElementTree.SubElement(test, "system-out").text = said


def called(assertion: Assertion) -> str:
    """The name of a test; several kinds may have one name."""
    return assertion.name if assertion.listed in ("assertions", "pairs") else f"{assertion.unit} {assertion.name}"


def place_of(assertion: Assertion) -> Dict[str, str]:
    """The file and the line of an assertion, where it has these."""
    match = re.fullmatch(r"(.*):(\d+)", assertion.place, re.DOTALL)
    if match:
        return {"file": visible(match[1]), "line": match[2]}
    return {"file": visible(assertion.place)} if assertion.shown() else {}
