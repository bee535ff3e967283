"""In the place of CaDiCaL: solves small clauses by trying values, and writes what it learns as a refutation.

    solver.py [OPTION].. CLAUSES [REFUTATION]     without CLAUSES they come from the standard input
"""
import sys


class Search:
    """Values of variables, those that follow by unit propagation among them."""

    def __init__(self, largest, clauses):
        self.having = {}
        self.true, self.order, self.levels, self.lemmas = set(), [], [], []
        self.largest, self.is_refuted = largest, False
        for clause in clauses:
            self.keep(clause)

    def keep(self, clause):
        """Takes a clause in, and what follows from it."""
        for literal in set(clause):
            self.having.setdefault(literal, []).append(clause)
        start = len(self.order)
        if self.is_false(clause) or self.has_conflict(start):
            self.is_refuted = True

    def assume(self, literal):
        self.true.add(literal)
        self.order.append(literal)

    def is_false(self, clause):
        """Whether all literals are false; a last one that is open becomes true."""
        open_one = 0
        for literal in clause:
            if literal in self.true:
                return False
            if -literal not in self.true:
                if open_one and open_one != literal:
                    return False
                open_one = literal
        if open_one:
            self.assume(open_one)
        return not open_one

    def has_conflict(self, start):
        while start < len(self.order):
            if any(map(self.is_false, self.having.get(-self.order[start], ()))):
                return True
            start += 1
        return False

    def learn(self):
        """Learns of a conflict that what was chosen cannot be, and takes the last choice back."""
        while self.levels:
            lemma = [-choice for choice, _ in self.levels]
            self.lemmas.append(lemma)
            _, size = self.levels.pop()
            self.true.difference_update(self.order[size:])
            del self.order[size:]
            for literal in set(lemma):
                self.having.setdefault(literal, []).append(lemma)
            start = len(self.order)
            if not self.is_false(lemma) and not self.has_conflict(start):
                return True
        return False

    def is_satisfied(self):
        """Whether values are found."""
        if self.is_refuted:
            return False
        variable = 1
        while variable <= self.largest:
            if variable in self.true or -variable in self.true:
                variable += 1
                continue
            self.levels.append((-variable, len(self.order)))
            start = len(self.order)
            self.assume(-variable)
            if self.has_conflict(start):
                if not self.learn():
                    return False
                variable = 1
        return True


def main(words):
    files = [it for it in words if not it.startswith("-")]
    with open(files[0], encoding="ascii") if files else sys.stdin as file:
        numbers = [line.split() for line in file if line[:1] not in ("c", "p", "\n")]
    clauses = [[int(it) for it in line[:-1]] for line in numbers]
    search = Search(max((abs(it) for clause in clauses for it in clause), default=0), clauses)
    if search.is_satisfied():
        values = [it if it in search.true else -it for it in range(1, search.largest + 1)]
        print("s SATISFIABLE\nv", *values, 0)
        sys.exit(10)
    if len(files) > 1:
        with open(files[1], "w", encoding="ascii") as proof:
            proof.writelines(" ".join(map(str, [*it, 0])) + "\n" for it in [*search.lemmas, []])
    print("s UNSATISFIABLE")
    sys.exit(20)


if __name__ == "__main__":
    main(sys.argv[1:])
