"""What each assertion was worth in each step of a simulation."""

from typing import Dict, List, Sequence, Tuple

from aiger_check.front.second.told import Said, Statement

#: a statement by its number, in a scope of the design
Where = Tuple[int, str]
#: in a step of which nothing is known
UNKNOWN = "-"
SCOPE = "second_tb.dut"


def inside(scope: str) -> str:
    """A scope of the simulation as one of the design."""
    scope = scope[4:] if scope.startswith("TOP.") else scope
    return scope[len(SCOPE) + 1 :].replace("\\", "").replace(" .", ".").strip()


class Traces:
    """By what was told, the value of each assertion for each step."""

    def __init__(self, statements: Sequence[Statement], said: Sequence[Said], steps: int, is_global: bool) -> None:
        self.statements, self.steps, self.is_global = statements, steps, is_global
        self.values: Dict[Where, List[Tuple[int, int, str]]] = {}
        self.begun: Dict[Tuple[str, str], List[Tuple[int, int]]] = {}
        for at, it in enumerate(said):
            if it.who.startswith("p"):
                self.begun.setdefault((it.who, inside(it.scope)), []).append((at, it.moment))
            else:
                self.values.setdefault((int(it.who), inside(it.scope)), []).append((at, it.moment, it.value))

    def all(self) -> Dict[Where, List[str]]:
        return {where: self.trace(where) for where in self.values}

    def trace(self, where: Where) -> List[str]:
        statement = self.statements[where[0]]
        if statement.is_mixed:
            return [UNKNOWN] * self.steps
        if statement.is_clocked:
            return self.clocked(where)
        if statement.is_initial or statement.process is None:
            rest = "1" if statement.is_initial else UNKNOWN
            return self.filled([(self.step(moment), value) for _, moment, value in self.values[where]], rest)
        return self.combinational(where)

    def step(self, moment: int) -> int:
        """The step of which values at a moment are."""
        return max(0, (moment - 1) // 2 if self.is_global else (moment + 1) // 2)

    def filled(self, told: Sequence[Tuple[int, str]], rest: str) -> List[str]:
        found = [rest] * self.steps
        for step, value in told:
            if step < self.steps:
                found[step] = value
        return found

    def clocked(self, where: Where) -> List[str]:
        """What was told at the edge of each step; where nothing was, it is not asked."""
        found = ["1" if not self.is_global else UNKNOWN] * self.steps
        several = set()
        for _, moment, value in self.values[where]:
            step = (moment - 1) // 2
            if moment % 2 and 0 <= step < self.steps:
                several.add(step) if found[step] not in "1-" else None
                found[step] = value
        return found

    def combinational(self, where: Where) -> List[str]:
        """What was told last in each step, behind the last beginning of its process."""
        number, scope = where
        process = f"p{self.statements[number].process}"
        mine = [it for it in self.begun if it[0] == process and f"{scope}.".startswith(f"{it[1]}." if it[1] else "")]
        begun = self.begun[max(mine, key=lambda it: len(it[1]))] if mine else []
        last: Dict[int, Tuple[int, str]] = {}
        for at, moment in begun:
            last[self.step(moment)] = (at, "1")
        told: Dict[int, Tuple[int, str]] = {}
        for at, moment, value in self.values[where]:
            step = self.step(moment)
            if step in last and at < last[step][0]:
                continue
            # told twice behind one beginning, as in a loop, it is of several
            is_again = step in told and (step not in last or told[step][0] > last[step][0])
            told[step] = (at, UNKNOWN if is_again else value)
        found, now = [], UNKNOWN
        for step in range(self.steps):
            now = told[step][1] if step in told else last[step][1] if step in last else now
            found.append(now)
        return found
