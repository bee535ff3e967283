"""Concurrent assertions made by chance, and what they are by the definition of the standard: each attempt by itself,
from the step in which it begins, on a run that is known up to some step."""
import dataclasses
import random

WIDTHS = {"a": 1, "b": 1, "c": 1, "w": 3}
MASK = {1: 1, 3: 7}
TRUE, FALSE, OPEN = "true", "false", "open"


@dataclasses.dataclass
class Run:
    """The values of signals in each step, and what was before the first step: of each bit this one."""

    steps: list
    before: int
    known: dict = dataclasses.field(default_factory=dict, repr=False)

    def value(self, e, t):
        """An expression in a step, by which it is known from then on."""
        key = (id(e), t)
        if key not in self.known:
            self.known[key] = self.found(e, t)
        return self.known[key]

    def found(self, e, t):
        kind = e[0]
        if t < 0:
            return self.before * MASK[width(e)]
        if kind == "signal":
            return self.steps[t][e[1]]
        if kind == "number":
            return e[1]
        if kind == "past":
            return self.value(e[1], t - e[2])
        if kind in ("rose", "fell", "stable", "changed"):
            now, last = self.value(e[1], t), self.value(e[1], t - 1)
            rose, fell = now & 1 & ~last, last & 1 & ~now
            return {"rose": rose, "fell": fell, "stable": int(now == last), "changed": int(now != last)}[kind]
        inner = [self.value(it, t) for it in e[1:] if isinstance(it, tuple)]
        ones = inner[0].bit_count()
        return {
            "not": lambda: int(not inner[0]),
            "and": lambda: int(bool(inner[0] and inner[1])),
            "or": lambda: int(bool(inner[0] or inner[1])),
            "same": lambda: int(inner[0] == inner[1]),
            "sum": lambda: inner[0] + inner[1] & MASK[width(e)],
            "bit": lambda: inner[0] >> e[2] & 1,
            "onehot": lambda: int(ones == 1),
            "onehot0": lambda: int(ones <= 1),
            "ones": lambda: int(ones == e[2]),
        }[kind]()


def width(e):
    if e[0] == "signal":
        return WIDTHS[e[1]]
    if e[0] == "number":
        return e[2]
    return width(e[1]) if e[0] in ("past", "sum") else 1


def spelled(e):
    """An expression in Verilog."""
    kind, inner = e[0], [spelled(it) for it in e[1:] if isinstance(it, tuple)]
    if kind == "signal":
        return e[1]
    if kind == "number":
        return f"{e[2]}'d{e[1]}"
    if kind == "past":
        return f"$past({inner[0]})" if e[2] == 1 else f"$past({inner[0]}, {e[2]})"
    if kind in ("rose", "fell", "stable", "changed", "onehot", "onehot0"):
        return f"${kind}({inner[0]})"
    if kind in ("and", "or", "same", "sum"):
        return f"({inner[0]} {dict(zip(('and', 'or', 'same', 'sum'), ('&&', '||', '==', '+')))[kind]} {inner[1]})"
    return {"not": f"!{inner[0]}", "bit": f"{inner[0]}[{e[-1]}]", "ones": f"($countones({inner[0]}) == {e[-1]})"}[kind]


def ends(run, s, t, known, length):
    """The steps in which a sequence that begins in a step may end, as far as the run is known: what is not known may be
    true."""
    kind = s[0]
    if kind == "is":
        return {t} if t < length and (t > known or run.value(s[1], t)) else set()
    if kind == "either":
        return ends(run, s[1], t, known, length) | ends(run, s[2], t, known, length)
    if kind == "times":
        found = ends(run, s[1], t, known, length)
        for _ in range(s[2] - 1):
            found = {end for it in found for end in ends(run, s[1], it + 1, known, length)}
        return found
    first = ends(run, s[1], t, known, length) if kind == "then" else {t}
    return {
        end
        for it in first
        for more in range(s[2], s[3] + 1)
        for end in ends(run, s[4], it + more, known, length)
    }


def turned(value):
    return {TRUE: FALSE, FALSE: TRUE}.get(value, OPEN)


def all_of(values):
    values = list(values)
    return FALSE if FALSE in values else OPEN if OPEN in values else TRUE


def any_of(values):
    return turned(all_of(map(turned, values)))


def state(run, p, t, known, length):
    """Whether a property that is asked in a step is true, false or open, as far as the run is known."""
    kind = p[0]
    if t > known:
        return OPEN
    if kind == "sequence":
        found = ends(run, p[1], t, known, length)
        return TRUE if any(it <= known for it in found) else OPEN if found else FALSE
    if kind in ("implies", "next"):
        asked = [it + (kind == "next") for it in ends(run, p[1], t, known, length)]
        return all_of([state(run, p[2], it, known, length) for it in asked])
    if kind == "if":
        sides = p[2] if run.value(p[1], t) else p[3]
        return state(run, sides, t, known, length) if sides else TRUE
    inner = [state(run, it, t, known, length) for it in p[1:]]
    if kind == "not":
        return turned(inner[0])
    if kind == "and":
        return all_of(inner)
    if kind == "or":
        return any_of(inner)
    if kind == "arrow":
        return any_of([turned(inner[0]), inner[1]])
    return any_of([all_of(inner), all_of(map(turned, inner))])


def failures(run, p):
    """In which steps some attempt fails that was not disabled."""
    count = len(run.steps)
    # what lies behind the run is never known
    length = count + 40
    failed = set()
    for t in range(count):
        for known in range(t, count):
            if run.steps[known]["rst"]:
                break
            found = state(run, p, t, known, length)
            if found != OPEN:
                failed |= {known} if found == FALSE else set()
                break
    return [int(at in failed) for at in range(count)]


def matches(run, p):
    """In which steps some attempt matches that was not disabled."""
    count, found = len(run.steps), set()
    for t in range(count):
        at, starts = p, {t}
        while at[0] in ("implies", "next"):
            starts = {it + (at[0] == "next") for s in starts for it in ends(run, at[1], s, count - 1, count)}
            at = at[2]
        for end in (it for s in starts for it in ends(run, at[1], s, count - 1, count)):
            if not any(run.steps[it]["rst"] for it in range(t, end + 1)):
                found.add(end)
    return [int(at in found) for at in range(count)]


def waits(run, p):
    """In which steps some attempt still waits for what must come, and was not disabled."""
    count, found = len(run.steps), set()
    for t in range(count):
        at, starts = p, {t}
        while at[0] in ("implies", "next"):
            starts = {it + (at[0] == "next") for s in starts for it in ends(run, at[1], s, count - 1, count)}
            at = at[2]
        for known in range(t, count):
            if run.steps[known]["rst"]:
                break
            open_ = (s for s in starts if s <= known)
            if any(not any(run.value(at[1], it) for it in range(s, known + 1)) for s in open_):
                found.add(known)
    return [int(at in found) for at in range(count)]


class Chance:
    """Makes expressions, sequences and properties by chance."""

    def __init__(self, seed):
        self.random = random.Random(seed)

    def one(self, *kinds):
        return self.random.choice(kinds)

    def plain(self, depth):
        """One without functions, of which samples may be taken."""
        kind = self.one("signal", "not", "and", "or", "bit", "same") if depth else "signal"
        wide = ("signal", "w")
        if kind == "signal":
            return ("signal", self.one("a", "b", "c"))
        if kind == "bit":
            return ("bit", wide, self.random.randrange(3))
        if kind == "same":
            return ("same", wide, ("number", self.random.randrange(8), 3))
        return (kind, *(self.plain(depth - 1) for _ in range(1 if kind == "not" else 2)))

    def expression(self, depth=2):
        """One of any width."""
        kind = self.one("signal", "signal", "not", "and", "or", "bit", "same", "sample", "past", "count", "wide")
        if depth == 0 or kind == "signal":
            return ("signal", self.one("a", "b", "c"))
        wide = ("signal", "w")
        if kind == "wide":
            return self.one(wide, ("sum", wide, ("number", self.random.randrange(8), 3)))
        if kind == "bit":
            return ("bit", wide, self.random.randrange(3))
        if kind == "same":
            return ("same", wide, self.one(("number", self.random.randrange(8), 3), ("past", wide, 1)))
        if kind == "count":
            return self.one(("onehot", wide), ("onehot0", wide), ("ones", wide, self.random.randrange(4)))
        if kind == "sample":
            return (self.one("rose", "fell", "stable", "changed"), self.one(wide, self.plain(depth - 1)))
        if kind == "past":
            return ("past", self.one(wide, self.plain(depth - 1)), self.one(1, 1, 2, 3))
        return (kind, *(self.expression(depth - 1) for _ in range(1 if kind == "not" else 2)))

    def part(self, depth, last=False):
        """A sequence that stands behind a delay, of one length, but at its end."""
        kind = self.one("is", "is", "is", "times", "then") if depth else "is"
        if kind == "times":
            return ("times", self.part(depth - 1), self.one(1, 2, 3))
        return self.sequence(depth - 1, last) if kind == "then" else ("is", self.expression())

    def sequence(self, depth=2, free=False):
        """A sequence; a free one has delays of several lengths, or is one of two."""
        if free and depth and not self.random.randrange(6):
            return ("either", self.sequence(depth - 1, free), self.sequence(depth - 1, free))
        if not self.random.randrange(4):
            return ("lead", None, *self.delay(free), self.part(depth - (depth > 0), free))
        found = ("is", self.expression())
        for _ in range(self.one(0, 0, 1, 1, 2)):
            found = ("then", found, *self.delay(free), self.part(depth - (depth > 0)))
        return found

    def delay(self, free=False):
        low = self.one(0, 1, 1, 1, 2, 3)
        return (low, low + self.one(0, 1, 2) if free else low)

    def consequent(self):
        """A sequence on the right, whose last delay may have several lengths."""
        if self.random.randrange(3):
            return self.sequence()
        low = self.one(0, 1, 2)
        last = (low, low + self.one(1, 2, 3), ("is", self.expression()))
        return ("then", self.sequence(1), *last) if self.random.randrange(2) else ("lead", None, *last)

    def now(self, depth=1):
        """A property of one step."""
        kind = self.one("is", "is", "implies", "and", "or", "not", "iff", "if", "arrow") if depth else "is"
        if kind == "is":
            return ("sequence", ("is", self.expression()))
        if kind == "implies":
            return ("implies", ("is", self.expression()), self.now(depth - 1))
        if kind == "if":
            other = self.one(None, self.now(depth - 1))
            return ("if", self.expression(), self.now(depth - 1), other)
        return (kind, *(self.now(depth - 1) for _ in range(1 if kind == "not" else 2)))

    def property(self, depth=2):
        kind = self.one("sequence", "implies", "implies", "next", "next", "and", "or", "not", "if", "now", "arrow")
        if depth == 0 or kind == "sequence":
            return ("sequence", self.consequent())
        if kind == "now":
            return self.now()
        if kind in ("implies", "next"):
            return (kind, self.sequence(free=True), self.property(depth - 1))
        if kind == "not":
            return ("not", ("sequence", self.sequence()))
        if kind == "if":
            return ("if", self.expression(), self.property(depth - 1), self.one(None, self.property(depth - 1)))
        if kind == "arrow":
            return ("arrow", self.now(), self.property(depth - 1))
        if kind == "or" and self.random.randrange(2):
            return ("or", self.property(depth - 1), self.now())
        return (kind, self.now() if kind == "or" else self.property(depth - 1), self.property(depth - 1))

    def delay_text(self, low, high):
        if low != high:
            return f"##[{low}:{high}]"
        return self.one(f"##{low}", f"##{low}", f"##N{low}", f"##(N{low} + 0)")

    def sequence_text(self, s):
        """A sequence in Verilog."""
        kind = s[0]
        if kind == "is":
            return self.one("{}", "({})").format(spelled(s[1]))
        if kind == "times":
            return f"({self.sequence_text(s[1])})[*{s[2]}]"
        if kind == "either":
            return f"(({self.sequence_text(s[1])}) or ({self.sequence_text(s[2])}))"
        rest = self.delay_text(s[2], s[3])
        inner = self.sequence_text(s[4])
        # a delay binds to the left
        inner = f"({inner})" if s[4][0] in ("lead", "then") else inner
        return f"{rest} {inner}" if kind == "lead" else f"{self.sequence_text(s[1])} {rest} {inner}"

    def text(self, p):
        """A property in Verilog."""
        kind = p[0]
        if kind == "sequence":
            return self.sequence_text(p[1])
        if kind == "eventually":
            return f"s_eventually {spelled(p[1])}"
        if kind in ("implies", "next"):
            right = self.text(p[2])
            left = self.sequence_text(p[1])
            return f"{left} {'|->' if kind == 'implies' else '|=>'} {self.one('{}', '({})').format(right)}"
        if kind == "if":
            other = f" else ({self.text(p[3])})" if p[3] else ""
            return f"if ({spelled(p[1])}) ({self.text(p[2])}){other}"
        if kind == "not":
            return f"not ({self.text(p[1])})"
        word = {"arrow": "implies"}.get(kind, kind)
        return f"({self.text(p[1])}) {word} ({self.text(p[2])})"
