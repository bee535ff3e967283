"""Compares what the program makes of refutations with a plain checker: forward, by unit propagation, and by the first literal
of a line if that is of a new variable.

The circuits are those of answers.py, and some that compare two sums of the same inputs and latches in other orders, which are
mostly equal. A refutation of their clauses is made here by trying all inputs: behind each conflict stands
the clause that forbids the inputs that were tried, so that each line follows by unit propagation. It is spelled in some way, in
text or binary, with deletions, and mostly spoiled: cut, with a line left out, moved or of another kind, a sign or a bit
turned, a number changed; or it is that of other frames, or of another bad state. Where clauses can be satisfied, what comes of
the inputs that were tried is given as a forged one. In half of them other lines bring in variables, as in new_variables.py. The
program must say what the checker says. Where that finds them refuted, trying all inputs must find no assignment.

A third of them is in LRAT: with all clauses as hints, with some of them, with wrong ones or with none, and with numbers as
solvers give them, or any. What is said must be as without hints and deletions.
"""
import collections
import random
import re
from pathlib import Path

from lib import answers, images, traces, unrolled, witnesses
from lib.new_variables import ADDED, DELETED, with_new_variables

CIRCUITS = 600
# so many lemmas are enough: then fewer frames are taken
LEMMAS = 200
BLANKS = re.compile(rb"[ \r\n]*")
COMMENT = re.compile(rb"c[^\n]*")
NUMBER = re.compile(rb"(?:-[1-9][0-9]*|[0-9]+)(?=[ \r\n]|\Z)")
BAD = "bad"
# the parts of a line of LRAT: its number, literals, hints, or numbers of clauses that are deleted
OWN, LITERALS, HINTS, GONE = "own", "literals", "hints", "gone"
BITS = [1 << at for at in range(8)]
# a number in a binary refutation, and what begins as one
CODE, BEGUN = re.compile(rb"[\x80-\xff]{0,4}[\0-\x7f]"), re.compile(rb"[\x80-\xff]{0,4}\Z")


class Checker:
    """Clauses, and the literals that follow from them by unit propagation. These stay, whatever is deleted."""

    def __init__(self, clauses, largest):
        self.largest = largest
        self.having, self.places = collections.defaultdict(list), collections.defaultdict(list)
        self.true, self.false, self.order, self.is_refuted = set(), set(), [], False
        for clause in clauses:
            self.keep(clause)

    def keep(self, clause):
        """Keeps a clause, and what follows from it."""
        it = [True, frozenset(clause)]
        self.places[tuple(sorted(clause))].append(it)
        for literal in it[1]:
            self.having[literal].append(it)
        start = len(self.order)
        if self.is_false(it[1]) or self.has_conflict(start):
            self.is_refuted = True

    def delete(self, clause):
        """Deletes a clause once, if it is there, and not a single number of a new variable."""
        found = self.places[tuple(sorted(clause))]
        if found and (len(clause) > 1 or abs(clause[0]) <= self.largest):
            found.pop()[0] = False

    def assume(self, literal):
        self.true.add(literal)
        self.false.add(-literal)
        self.order.append(literal)

    def is_false(self, clause):
        """Whether all literals are false. If just one is open, it is true from here on."""
        if not self.true.isdisjoint(clause):
            return False
        free = clause - self.false
        if len(free) == 1:
            self.assume(*free)
            return False
        return not free

    def has_conflict(self, start):
        """Whether what follows from the literals behind this one has a conflict."""
        while start < len(self.order):
            for is_there, clause in self.having[-self.order[start]]:
                if is_there and self.is_false(clause):
                    return True
            start += 1
        return False

    def follows(self, clause):
        """Whether a clause follows by unit propagation."""
        start = len(self.order)
        found = any(self.contradicts(it) for it in clause) or self.has_conflict(start)
        self.forget(start)
        return found

    def extends(self, clause):
        """Whether the first literal is of a new variable, and can be made true: what the clauses with its negation come to,
        joined to this one, follows."""
        if not clause or abs(clause[0]) <= self.largest or -clause[0] in self.true:
            return False
        others = [it for is_there, it in self.having[-clause[0]] if is_there]
        return all(self.follows([*clause, *(other - {-clause[0]})]) for other in others)

    def contradicts(self, literal):
        """Whether this literal is true; if not, it is false from here on."""
        if literal in self.true:
            return True
        if literal not in self.false:
            self.assume(-literal)
        return False

    def forget(self, start):
        self.true.difference_update(self.order[start:])
        self.false.difference_update(-it for it in self.order[start:])
        del self.order[start:]


def is_text(proof):
    """Binary begins with a, or with d and no space. A space is a code too, which no clause has twice: behind d and a space
    another space shows a text, and what is of no number, or too long for one, shows codes."""
    if proof[:1] == b"a":
        return False
    if proof[:1] != b"d" or proof[1:2] == b"":
        return True
    if proof[1:2] != b" ":
        return False
    held = re.match(rb"[-0-9]{0,11}", proof[2:]).end()
    return proof[2 + held : 3 + held] in (b"", b" ")


def lines_of_text(proof, largest):
    """The lines of a text: what each is, its clause, and the number of the line where it ends."""
    at, clause, how = 0, [], ADDED
    while True:
        at = BLANKS.match(proof, at).end()
        line = proof.count(b"\n", 0, at) + 1
        if at == len(proof) or proof[at:] == b"-":
            return
        is_open = how == DELETED or clause
        number, comment = NUMBER.match(proof, at), COMMENT.match(proof, at)
        if number:
            at, digits = number.end(), number[0].lstrip(b"-0")
            if len(digits) > 10 or int(digits or 0) > largest + line:
                yield BAD, [], line
                return
            if digits:
                clause.append(int(number[0]))
            else:
                yield how, clause, line
                clause, how = [], ADDED
        elif comment and not is_open:
            at = comment.end()
        elif proof[at : at + 1] == b"d" and not is_open:
            at, how = at + 1, DELETED
        else:
            yield BAD, [], line
            return


def lines_of_binary(proof, largest):
    """The lines of a binary refutation."""
    at, line = 0, 0
    while at < len(proof):
        line, how, clause = line + 1, {97: ADDED, 100: DELETED}.get(proof[at], BAD), []
        at += 1
        while how != BAD:
            if BEGUN.match(proof, at):
                return
            found = CODE.match(proof, at)
            value = sum((it & 127) << 7 * place for place, it in enumerate(found[0])) if found else 1
            if value == 0:
                at = found.end()
                break
            if 2 <= value < 2 * (largest + line) + 2:
                at = found.end()
                clause.append(-(value // 2) if value % 2 else value // 2)
            else:
                how = BAD
        yield how, clause, line
        if how == BAD:
            return


def lines_of_lrat(proof, largest):
    """The lines of an LRAT text that add a clause, likewise. Hints and deletions are passed over."""
    at, clause, part = 0, [], OWN
    while True:
        at = BLANKS.match(proof, at).end()
        line = proof.count(b"\n", 0, at) + 1
        if at == len(proof) or proof[at:] == b"-":
            return
        number, comment = NUMBER.match(proof, at), COMMENT.match(proof, at)
        digits, is_negative = number[0].lstrip(b"-0") if number else None, proof[at : at + 1] == b"-"
        if not number and part == OWN and comment:
            at = comment.end()
        elif part == LITERALS and not clause and proof[at : at + 1] == b"d":
            at, part = at + 1, GONE
        elif not number or is_negative and part in (OWN, GONE) or part == OWN and not digits:
            yield BAD, [], line
            return
        elif part == LITERALS and digits and (len(digits) > 10 or int(digits) > largest + line):
            yield BAD, [], line
            return
        else:
            at = number.end()
            if part == LITERALS and digits:
                clause.append(int(number[0]))
            elif part == HINTS and not digits:
                yield ADDED, clause, line
                clause = []
            if part == OWN or not digits:
                part = {OWN: LITERALS, LITERALS: HINTS, HINTS: OWN, GONE: OWN}[part]


def lines(proof, largest):
    if re.fullmatch(rb"d [-0-9]{0,11}", proof):
        return iter(())  # cut where a text and codes still look alike
    return (lines_of_text if is_text(proof) else lines_of_binary)(proof, largest)


def why_not(clauses, largest, proof, is_lrat=False):
    """Why a text does not show that the clauses cannot be satisfied, if it does not."""
    checker = Checker(clauses, largest)
    found = iter(() if checker.is_refuted else (lines_of_lrat if is_lrat else lines)(proof, largest))
    for how, clause, line in found:
        if how == BAD:
            return f"line {line}: bad line"
        if how == DELETED:
            checker.delete(clause)
        elif not checker.follows(clause) and not checker.extends(clause):
            return f"line {line}: does not follow"
        else:
            checker.keep(clause)
        if checker.is_refuted:
            break
    return None if checker.is_refuted else "no refutation"


def read_clauses(text):
    """The largest variable and the clauses of a DIMACS text."""
    head, *rest = text.decode().splitlines()
    return int(head.split()[2]), [[int(it) for it in line.split()[:-1]] for line in rest]


def wanted(made, frames, bad, name, proof, is_lrat=False):
    """Standard output, standard error and the status for this refutation, of a model that has clauses."""
    largest, clauses = read_clauses(answers.clauses(answers.asked(made, bad), frames))
    why = why_not(clauses, largest, proof, is_lrat)
    return answers.fault(name, why) if why else (f"none within {frames}\n".encode(), b"", 0)


def sums(chance):
    """Two sums, modulo 2, of some inputs and latches; its bad state is that they differ, which they may always do."""
    count, some = chance.randrange(2, 6), chance.randrange(3)
    inputs, latches, gates = range(1, count - some % count + 1), range(count - some % count + 1, count + 1), []

    def conjunction(left, right):
        gates.append((2 * (count + len(gates) + 1), left, right))
        return gates[-1][0]

    def different(left, right):
        return conjunction(conjunction(left, right) ^ 1, conjunction(left ^ 1, right ^ 1) ^ 1)

    def total(terms):
        found = chance.sample(terms, len(terms))
        while len(found) > 1:
            found.insert(chance.randrange(len(found) - 1), different(found.pop(), found.pop()))
        return found[0]

    terms = [2 * it + chance.randrange(2) for it in range(1, count + 1)]
    end = different(total(terms), total(terms)) ^ (not chance.randrange(8))
    kept = [chance.choice([2 * it, 2 * it + 1, *terms]) for it in latches]
    resets = [chance.choice("01x") for _ in latches]
    made = {"inputs": list(inputs), "latches": list(latches), "nexts": kept, "resets": resets, "bad": [end], "gates": gates}
    lists = {"outputs": [], "constraints": [], "justice": [], "fairness": []}
    return images.Circuit(largest=gates[-1][0] // 2, symbols="", comment=None, **made, **lists)


def circuit(chance):
    return chance.choice([witnesses.circuit, answers.small, sums, sums])(chance)


class TooMany(Exception):
    """There are too many lemmas."""


def search(clauses, inputs):
    """Whether no values of the inputs satisfy the clauses, and the lemmas that show it or that were tried."""
    checker, lemmas = Checker(clauses, 0), []

    def fails(tried):
        if len(lemmas) > LEMMAS:
            raise TooMany
        start = len(checker.order)
        has_conflict = any(checker.contradicts(-it) for it in tried) or checker.has_conflict(start)
        free = [it for it in inputs if it not in checker.true and -it not in checker.true]
        checker.forget(start)
        if not has_conflict:
            if not free:
                return False
            if not all(fails([*tried, it]) for it in (free[0], -free[0])):
                return False
        lemmas.append([-it for it in tried])
        return True

    return checker.is_refuted or fails([]), lemmas


def variables(made, frames):
    """The inputs of the unrolled circuit, as DIMACS numbers."""
    return range(2, 2 + len(unrolled.free_latches(made)) + frames * len(made.inputs))


def searched(made, frames, bad):
    """Frames, no more than these, and what a search says of the clauses."""
    while True:
        largest, clauses = read_clauses(answers.clauses(answers.asked(made, bad), frames))
        try:
            return frames, largest, clauses, *search(clauses, variables(made, frames))
        except TooMany:
            if frames == 1:
                return frames, largest, clauses, None, []
            frames -= 1


def with_deletions(chance, clauses, lemmas):
    """The lemmas as lines, behind some of which clauses are deleted, mostly those that are no longer needed."""
    found, old = [], []
    for lemma in lemmas:
        found.append((ADDED, lemma))
        # both of those that forbid one input more are no longer needed
        for it in [it for it in old if len(it) == len(lemma) + 1 and set(lemma) < set(it)]:
            if chance.randrange(2):
                found.append((DELETED, chance.sample(it, len(it))))
                old.remove(it)
        old.append(lemma)
        if not chance.randrange(20):
            found.append((DELETED, chance.choice([[1, 1], [-2], [], chance.choice(clauses), chance.choice(lemmas)])))
    return found


def code(number):
    """A number in groups of seven bits."""
    found = []
    while number > 127:
        found.append(number & 127 | 128)
        number >>= 7
    return bytes([*found, number])


def spelled_binary(found):
    """The lines as a binary refutation."""
    parts = []
    for how, clause in found:
        parts += [b"a" if how == ADDED else b"d", *(code(2 * abs(it) + (it < 0)) for it in clause), b"\0"]
    return b"".join(parts)


def spelled_text(chance, found):
    """The lines as a text, perhaps between comments, with more spaces or with CR LF."""
    parts, end = [], chance.choice([b"\n", b"\n", b"\r\n"])
    space = chance.choice([b" ", b" ", b"  ", b"\n"])
    for how, clause in found:
        if not chance.randrange(10):
            parts += [chance.choice([b"c", b"c a 1 0\0\xff", b"", b" "]), b"\n"]
        words = [b"d"] * (how == DELETED) + [b"%d" % it for it in clause] + [chance.choice([b"0", b"0", b"00"])]
        parts += [space.join(words), end]
    text = b"".join(parts)
    return text if chance.randrange(4) else text.removesuffix(b"\n")


def hints(chance, count, newest):
    """Numbers of clauses: all of them, in order or not, some, or such as no clause has."""
    which, numbers = chance.randrange(5), range(1, newest + 1)
    if which < 2:
        return [*numbers, *numbers, *numbers] if which else chance.sample(numbers, len(numbers))
    if which == 2:
        return []
    found = [chance.choice(numbers) for _ in range(chance.randrange(9))]
    odd = [0x7FFFFFFF, 1 << 32, 10**18, newest + 1, count + 1, -chance.choice(numbers)]
    return [*found, chance.choice(odd), *found] if which == 3 else found


def spelled_lrat(chance, count, found):
    """The lines as a text in LRAT, beside so many clauses. Mostly numbers are as solvers give them."""
    parts, end = [], chance.choice([b"\n", b"\n", b"\r\n"])
    space, newest, is_odd = chance.choice([b" ", b" ", b"  ", b"\n"]), count, not chance.randrange(6)
    for how, clause in found:
        if not chance.randrange(10):
            parts += [chance.choice([b"c", b"c a 1 0\0\xff", b"", b" "]), b"\n"]
        numbers = hints(chance, count, newest)
        if how == ADDED:
            newest += 1
            words = [newest, *clause, 0, *numbers]
        else:
            words = [newest, "d", *map(abs, numbers)]
        if is_odd:
            words[0] = chance.choice([1, count, newest + chance.randrange(9), 0xFFFFFFFF, 10**18, max(1, count - newest + 99)])
        parts += [space.join(str(it).encode() for it in [*words, 0]), end]
    text = b"".join(parts)
    return text if chance.randrange(4) else text.removesuffix(b"\n")


def spoiled(chance, largest, found):
    """The lines, with one of them not as it was."""
    if not found:
        return [(ADDED, chance.choice([[], [largest], [-largest], [largest + 1]]))]
    place, which = chance.randrange(len(found)), chance.randrange(7)
    how, clause = found[place]
    if which == 0:
        return found[:place] + found[place + 1 :]
    if which == 1:
        return [*found[:place], *found[place + 1 :], found[place]]
    if which == 2:
        how = DELETED if how == ADDED else ADDED
    elif clause and which == 3:
        at = chance.randrange(len(clause))
        clause = [*clause[:at], -clause[at], *clause[at + 1 :]]
    elif clause and which == 4:
        clause = clause[1:]
    else:
        most = [largest, -largest, largest + 1, -largest - 1, 2147483647, 2147483648, chance.randrange(1, largest + 1)]
        clause = [*clause, chance.choice(most)]
    return [*found[:place], (how, clause), *found[place + 1 :]]


def turned(chance, proof):
    """The text with one bit turned."""
    if not proof:
        return proof
    at = chance.randrange(len(proof))
    return proof[:at] + bytes([proof[at] ^ chance.choice(BITS)]) + proof[at + 1 :]


def given(chance, largest, clauses, lemmas, is_lrat=False):
    """The text of a refutation, or of what is nearly one."""
    found, which = with_deletions(chance, clauses, lemmas), chance.randrange(8)
    if chance.randrange(2):
        found = with_new_variables(chance, Checker(clauses, largest), clauses, found)
    if which < 3:
        found = spoiled(chance, largest, found)
    if is_lrat:
        proof = spelled_lrat(chance, len(clauses), found)
    else:
        proof = spelled_binary(found) if chance.randrange(2) else spelled_text(chance, found)
    if which == 3:
        return turned(chance, proof)
    return proof[: chance.randrange(len(proof) + 1)] if which == 4 else proof


def judge(program, folder, at):
    """What is wrong with what the program says of a refutation of these clauses, if anything is."""
    chance = random.Random(at)
    made = circuit(chance)
    frames, bad = chance.randrange(1, unrolled.FRAMES + 1), chance.choice([None, chance.randrange(max(1, len(made.bad)))])
    why, is_unsatisfiable, proof = answers.refusal(made, bad), None, chance.choice([b"", b"0\n", b"a\0"])
    is_lrat = not chance.randrange(3)
    if not why:
        frames, largest, clauses, is_unsatisfiable, lemmas = searched(made, frames, bad)
        proof = given(chance, largest, clauses, lemmas, is_lrat)
        if not chance.randrange(8):
            frames, _, _, is_unsatisfiable, _ = searched(made, chance.randrange(1, unrolled.FRAMES + 1), bad)
    source = images.ascii_text(made)
    model, file = Path(folder) / f"refuted.{at}", Path(folder) / f"refutation.{at}"
    model.write_bytes(traces.converted(program, source, *chance.choice([[], ["--keep-map"]])))
    file.write_bytes(proof)
    named = ("-", file), (model, "-")
    wants = [answers.fault(name, why) if why else wanted(made, frames, bad, it, proof, is_lrat) for name, it in named]
    said, words = None, [*answers.words_of(frames, bad), *["--lrat"] * is_lrat]
    for asks, to, come in (
        ([*words, "-", "--refutation", str(file)], source, wants[0]),
        ([*words, "--refutation", "-", str(model)], proof, wants[1]),
    ):
        came = traces.ran(program, to, *asks)
        if came != come:
            said = said or f"{asks} of {source!r} and {proof!r}: wanted {come!r}, came {came!r}"
        if came[2] == 0 and is_unsatisfiable is False:
            said = f"{asks} of {source!r} and {proof!r}: a bad state is reached, came {came!r}"
    model.unlink()
    file.unlink()
    return said


def cases(program, folder):
    for at in range(CIRCUITS):
        yield judge, program, folder, at
