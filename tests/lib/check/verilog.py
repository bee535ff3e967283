"""Designs made by chance, as Verilog and as functions of Python, and the first step in which each assertion fails, by
trying all states and inputs. With two clocks a step is one of the global clock, and a register takes what was asked for
one step before."""
import dataclasses
import functools
import itertools

MASK = {1: 1, 2: 3}
# the inputs besides clocks
INPUTS = {"one": 1, "two": 2}


@dataclasses.dataclass
class Register:
    """A register: its next value in Verilog and in Python, what it starts at, or None, and its clock's edge."""

    name: str
    width: int
    start: int | None
    clock: str = "clk"
    rises: bool = True
    text: str = ""
    code: str = ""


@dataclasses.dataclass
class Made:
    """A design: its text, and the code of what it does."""

    top: str
    clocks: list
    registers: list
    inputs: dict
    # of each assertion its name and the code by which it fails
    assertions: list
    assumed: str
    text: str


class Maker:
    """Makes expressions by chance over signals of some widths: each is a text of Verilog and a code of Python."""

    def __init__(self, chance, widths):
        self.chance, self.widths = chance, widths

    def leaf(self, width):
        names = [name for name, it in self.widths.items() if it == width]
        if names and self.chance.randrange(5):
            name = self.chance.choice(names)
            return name, name
        value = self.chance.randrange(MASK[width] + 1)
        return f"{width}'d{value}", str(value)

    def made(self, width, depth):
        if depth == 0:
            return self.leaf(width)
        kind = self.chance.choice(["leaf", "not", "sum", "sum", "bits", "bits", "choice", "bit", "compare", "all"])
        if kind == "leaf" or width == 2 and kind in ("compare", "all") or width == 1 and kind == "bit":
            return self.leaf(width)
        return getattr(self, f"made_{kind}")(width, depth - 1)

    def two(self, width, depth):
        return [*self.made(width, depth), *self.made(width, depth)]

    def signal(self):
        """A condition that is no constant, since Yosys leaves out what stands behind one that is never met."""
        name = self.chance.choice(list(self.widths))
        return f"{{|{name}}}", f"({name} != 0)"

    def made_not(self, width, depth):
        text, code = self.made(width, depth)
        return f"{{~{text}}}", f"(~{code} & {MASK[width]})"

    def made_sum(self, width, depth):
        left, left_code, right, right_code = self.two(width, depth)
        sign = self.chance.choice("+-")
        return f"{{{left} {sign} {right}}}", f"(({left_code} {sign} {right_code}) & {MASK[width]})"

    def made_bits(self, width, depth):
        left, left_code, right, right_code = self.two(width, depth)
        sign = self.chance.choice("&|^")
        return f"{{{left} {sign} {right}}}", f"({left_code} {sign} {right_code})"

    def made_choice(self, width, depth):
        asked, asked_code = self.made(1, depth)
        left, left_code, right, right_code = self.two(width, depth)
        return f"{{{asked} ? {left} : {right}}}", f"({left_code} if {asked_code} else {right_code})"

    def made_bit(self, _, depth):
        left, left_code, right, right_code = self.two(1, depth)
        return f"{{{left}, {right}}}", f"({left_code} << 1 | {right_code})"

    def made_compare(self, _, depth):
        left, left_code, right, right_code = self.two(2, depth)
        sign = self.chance.choice(["==", "!=", "<", "<=", ">"])
        return f"{{{left} {sign} {right}}}", f"int({left_code} {sign} {right_code})"

    def made_all(self, _, depth):
        text, code = self.made(2, depth)
        ways = [("&", f"int({code} == 3)"), ("|", f"int({code} != 0)"), ("^", f"int({code} in (1, 2))")]
        sign, of = self.chance.choice(ways)
        return f"{{{sign}{text}}}", of


def edge(it):
    return f"{'pos' if it.rises else 'neg'}edge {it.clock}"


def registers(chance, clocks, most_bits):
    """Registers of so many bits at most, at least one of each clock."""
    made, bits = [], 0
    for at in range(chance.randrange(len(clocks), 4)):
        width = chance.choice([1, 2]) if bits + 3 <= most_bits else 1
        if bits + width <= most_bits:
            bits += width
            start = chance.choice([None, *range(MASK[width] + 1)])
            # all of one clock rise
            rises = clocks == ["clk"] or bool(chance.randrange(3))
            clock = clocks[at] if at < len(clocks) else chance.choice(clocks)
            made.append(Register(f"r{at}", width, start, clock, rises))
    return made


def design(chance, has_clocks):
    """A design with three assertions, of which one is looked at by a clock and one is of all registers, and perhaps an
    assumption."""
    clocks = ["left", "right"] if has_clocks else ["clk"]
    inputs = {"one": 1} if has_clocks else INPUTS
    held = registers(chance, clocks, 3 if has_clocks else 5)
    maker = Maker(chance, {**inputs, **{it.name: it.width for it in held}})
    ports = [f"input {it}" for it in clocks] + [f"input [{width - 1}:0] {it}" for it, width in inputs.items()]
    lines = [f"module made({', '.join(ports)});"]
    for it in held:
        lines.append(f"  reg [{it.width - 1}:0] {it.name}{'' if it.start is None else f' = {it.start}'};")
    for it in held:
        it.text, it.code = maker.made(it.width, chance.randrange(1, 4))
        if chance.randrange(2):
            asked, asked_code = maker.signal()
            lines.append(f"  always @({edge(it)}) if ({asked}) {it.name} <= {it.text};")
            it.code = f"({it.code} if {asked_code} else {it.name})"
        else:
            lines.append(f"  always @({edge(it)}) {it.name} <= {it.text};")
    # Yosys keeps what a clocked assertion is to look at in registers of the same clock
    by = Register("", 1, 0, held[0].clock, held[0].rises)
    holds, asked, always = maker.made(1, 3), maker.signal(), maker.made(1, 3)
    every = [it.name for it in held]
    lines.append(f"  always @({edge(by)}) if ({asked[0]}) by_clock: assert ({holds[0]});")
    lines.append(f"  always_: assert property ({always[0]});")
    lines.append(f"  every: assert property ({{{', '.join(every)}}} != 1);")
    seen = [dataclasses.replace(by, name=name, code=code) for name, code in (("enabled", asked[1]), ("seen", holds[1]))]
    ones = f"{every[-1]} == 1" + "".join(f" and {it} == 0" for it in every[:-1])
    failing = [("by_clock", "enabled and not seen"), ("always_", f"not {always[1]}"), ("every", ones)]
    assumed = maker.made(1, 1) if not chance.randrange(3) else ("", "1")
    if assumed[0]:
        lines.append(f"  assume property ({assumed[0]});")
    text = "\n".join([*lines, "endmodule", ""])
    return Made("made", clocks, [*held, *seen], inputs, failing, assumed[1], text)


def compiled(made):
    """A function of registers and inputs: whether the assumption holds, which assertions fail, and the next values."""
    names = ", ".join([it.name for it in made.registers] + list(made.inputs))
    fails = ", ".join(f"bool({code})" for _, code in made.assertions)
    nexts = ", ".join(it.code for it in made.registers)
    return eval(f"lambda {names}: (bool({made.assumed}), ({fails},), ({nexts},))")  # pylint: disable=eval-used


def moves_of(made):
    """The first states, and what gives of a state the states that may follow, and which assertions may fail there."""
    look, has_clocks = compiled(made), made.clocks != ["clk"]
    every = list(itertools.product(*(range(MASK[width] + 1) for width in made.inputs.values())))
    levels = list(itertools.product((0, 1), repeat=len(made.clocks))) if has_clocks else [()]
    starts = [range(MASK[it.width] + 1) if it.start is None else [it.start] for it in made.registers]

    @functools.lru_cache(None)
    def moved(state):
        behind, failing = set(), [False] * len(made.assertions)
        values, asked, before = state
        for level, given in itertools.product(levels, every):
            now = changed(made, values, asked, before, dict(zip(made.clocks, level))) if has_clocks else values
            holds, fails, nexts = look(*now, *given)
            if holds:
                failing = [one or bool(other) for one, other in zip(failing, fails)]
                behind.add((now, nexts, level) if has_clocks else (nexts, None, None))
        return behind, failing

    # the values, those asked for and the clocks of the step before; at first no clock has an edge
    return {(values, None, None) for values in itertools.product(*starts)}, moved


def steps(made):
    """Of each assertion the first step in which it fails, or None."""
    here, moved = moves_of(made)
    found, seen = [None] * len(made.assertions), set()
    for step in itertools.count():
        for _, failing in map(moved, here):
            found = [step if it and known is None else known for it, known in zip(failing, found)]
        seen |= here
        here = {it for state in here for it in moved(state)[0]} - seen
        if not here:
            return found


def kept(made):
    """For how many steps a run keeps the assumption, or None where one does for ever."""
    here, moved = moves_of(made)
    were = set()
    for step in itertools.count():
        if not here or here in were:
            return None if here else step - 1
        were.add(frozenset(here))
        here = frozenset(it for state in here for it in moved(state)[0])


def changed(made, values, asked, before, level):
    """The values once the clocks have this level: a register whose clock has its edge takes what was asked for."""
    if asked is None:
        return values
    last = dict(zip(made.clocks, before))
    return tuple(
        then if (last[it.clock], level[it.clock]) == ((0, 1) if it.rises else (1, 0)) else value
        for it, value, then in zip(made.registers, values, asked)
    )
