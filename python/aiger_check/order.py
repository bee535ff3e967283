"""In which order answers are said, where it is not that of the files."""

import re
from typing import List, Tuple

from aiger_check.answers import Answer, Assertion, Assumption, Verdict
from aiger_check.statuses import FIRST, status_of_one


def by_name(assertion: Assertion) -> Tuple[bool, List[Tuple[str, int]]]:
    """A key by names, in which numbers count as such; what one design assumes stands behind all that is compared."""
    parts = re.findall(r"(\D*)(\d*)", assertion.name)
    return isinstance(assertion, Assumption), [(word, int(digits or -1)) for word, digits in parts]


def by_answer(assertion: Assertion, verdict: Verdict) -> Tuple[int, bool, int]:
    """A key that is least for the worst answer: what breaks soonest; of what is kept, that for the fewest steps."""
    steps = verdict.steps if verdict.steps is not None else 0
    return FIRST.index(status_of_one(assertion, verdict)), verdict.answer is Answer.NEVER, steps
