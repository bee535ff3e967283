"""Lines of refutations that bring in variables, made by chance, one after the other beside a checker.

Solvers define a variable as the conjunction of two literals, with the clause that has its negation last or first; or add it to
clauses that differ in one literal, and delete those. Here both are done, over variables of the clauses and new ones. What is
defined stands in lines that follow, and is deleted. Others are damaged: in another order, behind a clause that does not allow
them, of a number that is too large, or of a variable of the model. Clauses with any literals are tried as well. Mostly what
does not follow is left out; if it is not, it is the last line.
"""

ADDED, DELETED = "added", "deleted"
# steps in front, at most; of so many lines that do not follow one is kept, and of those of a damaged definition
STEPS, RARE, DAMAGED = 120, [2, 10, 60, 400], 2
# as many literals as are looked at in a clause before they change places, and more
LONG = 40


class Maker:
    """The lines so far, what they define, and the clauses that are there."""

    def __init__(self, chance, checker, clauses):
        self.chance, self.checker, self.is_over = chance, checker, False
        self.literals = sorted({it for clause in clauses for it in clause})
        self.lines, self.clauses, self.own, self.defined = [], list(clauses), [], []
        self.newest, self.rare = checker.largest, chance.choice(RARE)

    def add(self, clause, rare=None):
        """Adds a line if it follows, and answers whether it does. If it does not, it is the last one or left out."""
        does_follow = self.checker.follows(clause) or self.checker.extends(clause)
        if does_follow or not self.chance.randrange(rare or self.rare):
            self.put(ADDED, clause)
            self.is_over = self.is_over or not does_follow
        return does_follow

    def put(self, how, clause):
        """Keeps a line, if none before it was the last."""
        if self.is_over or self.checker.is_refuted:
            return
        self.lines.append((how, [*clause]))
        if how == DELETED:
            self.checker.delete([*clause])
            return
        self.checker.keep([*clause])
        self.newest = max(self.newest, *map(abs, clause), 0)
        self.own.append(clause)

    def fresh(self):
        """A literal of the next variable, rarely of the last that may stand there, or of one that may not."""
        most = self.checker.largest + len(self.lines) + 1
        far = self.chance.choice([most, most, most + 1]) if not self.chance.randrange(30) else self.newest + 1
        return self.chance.choice([far, -far])

    def literal(self):
        """A literal of the clauses, or of one of the last new variables."""
        of_new = range(max(self.checker.largest, self.newest - 4) + 1, self.newest + 1)
        if of_new and self.chance.randrange(2):
            return self.chance.choice(of_new) * self.chance.choice([1, -1])
        return self.chance.choice(self.literals)

    def some(self, most):
        return [self.literal() for _ in range(self.chance.randrange(most))]

    def pair(self):
        """Two literals, often the negations of two in one clause."""
        clause = self.chance.choice(self.clauses)
        if len(clause) > 1 and self.chance.randrange(2):
            return [-it for it in self.chance.sample(clause, 2)]
        return [self.literal(), self.literal()]

    def define(self):
        """A conjunction of two literals. The clause with both may be the last, as in Kissat and CaDiCaL, or the first, as in
        CryptoMiniSat."""
        own, (left, right) = self.fresh(), self.pair()
        both = [[-own, left], [-own, right]]
        lines = self.chance.choice([[*both, [own, -left, -right]], [[own, -left, -right], *both]])
        is_damaged = not self.chance.randrange(6)
        if is_damaged:
            self.damage(own, lines)
        if all([self.add(line, DAMAGED if is_damaged else None) for line in lines]):
            self.defined.append((own, left, right))

    def damage(self, own, lines):
        """Puts a literal of the clauses in front of a line; or before them all a clause with the variable, or with it alone."""
        at, which = self.chance.randrange(len(lines)), self.chance.randrange(3)
        if which == 0:
            lines[at] = lines[at][::-1]
        else:
            lines.insert(0, [self.chance.choice([own, -own]), *[self.literal()] * (which == 1)])

    def share(self):
        """Of clauses that differ in one literal alone, a variable for what they share, which stands in their place."""
        one = self.chance.choice(self.clauses)
        rest = sorted(self.chance.sample(one, len(one) - 1))
        alike = {(set(it) - set(rest)).pop(): it for it in self.clauses if len(it) == len(one) and set(rest) < set(it)}
        own, lines = self.fresh(), []
        lines += [[own, it] for it in alike]
        lines.insert(self.chance.choice([0, len(lines)]), [-own, *rest])
        if len(alike) > 1 and all([self.add(line) for line in lines]) and self.chance.randrange(2):
            for it in alike.values():
                self.put(DELETED, it)

    def use(self):
        """In the place of two literals a conjunction of them; the clause with both may go."""
        own, left, right = self.chance.choice(self.defined)
        for it in [it for it in [*self.clauses, *self.own] if -left in it and -right in it and own not in it][:2]:
            rest = [literal for literal in it if literal not in (-left, -right)]
            self.add(self.chance.choice([[-own, *rest], [*rest, -own]]))
            if self.chance.randrange(2):
                self.put(DELETED, it)

    def attempt(self):
        """A clause with any literals, of which the first is of a new variable, or of one of the model."""
        most = LONG if not self.chance.randrange(20) else 4
        of_model = self.chance.randrange(self.checker.largest) + 1
        first = self.chance.choice([self.fresh(), self.literal(), self.literal(), of_model, -of_model])
        self.add([first, *self.some(most)])

    def delete(self):
        """Deletes one of the lines before, rarely one of the clauses, in any order."""
        it = self.chance.choice(self.clauses if not self.chance.randrange(20) else self.own)
        self.put(DELETED, self.chance.sample(it, len(it)))

    def step(self):
        """One of these, if there is anything for it."""
        some = [self.define, self.define, self.share, self.attempt, self.attempt]
        some += [self.use, self.use] * bool(self.defined) + [self.delete] * bool(self.own)
        self.chance.choice(some)()


def with_new_variables(chance, checker, clauses, found):
    """These lines of a refutation, with others in front that bring in variables, and between them."""
    maker = Maker(chance, checker, clauses)
    for _ in range(chance.randrange(STEPS)):
        maker.step()
    for how, clause in found:
        maker.put(how, clause)
        if not chance.randrange(8):
            maker.step()
    return maker.lines
