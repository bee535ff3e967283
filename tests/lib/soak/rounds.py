"""The rounds of a soak. Each takes a Round, and fails by Failed."""
import dataclasses
import itertools

from lib import images, miters, refusals, waves, witnesses
from lib.soak.calls import TOO_WIDE, WIDE, Call, inputs_without_lines
from lib.soak.editors import MAP_EDITS, edited
from lib.soak.generators import bare, circuit, parsed, source, stimulus
from lib.soak.oracles import relations, same_answer, same_miter, same_trace, undone

LARGEST = 2**31 - 1
WORDS = """aigtoaig aigtoaig aigsim aigsim aigunroll aigunroll aigmiter aigmiter --ascii --strip --keep-map --undo-map
    --outputs-as-bad --justice-as-bad --justice-as-bad=0 --simplify --simplify
    --max-var --max-var=9 --max-var=2147483648 --frames --frames=2 --frames=0 --batch --properties
    --vcd --witness --cnf --cnf --bad=0 --bad=1 --justice=0 --answer=source --answer
    --refutation=source --refutation --lrat --invariant=source --invariant --by-name --sync --force
    --help -h -- - source source source out.aag out.aig out.gz source.xz 3 --unknown""".split() + [""]
# what the arguments that refusals.py lists are refused for, in this order; and names of files that cannot be there
REFUSED_WORDS = """aigtoaig --keep-map --ascii
aigtoaig --strip --keep-map
aigtoaig --undo-map --keep-map
aigtoaig --keep-map --simplify
aigtoaig --keep-map --outputs-as-bad
aigtoaig --undo-map --outputs-as-bad
aigtoaig --justice-as-bad 0 --outputs-as-bad
aigsim - -
aigunroll --frames 2 - out.aig.gz
aigtoaig - out.xz
aigmiter a b out.aag.zst
aigtoaig --force - .bz2
aigtoaig source.gz
aigsim model stimulus.xz
aigunroll --frames 2 --refutation proof.zst model
aigmiter - second.aig.bz2
aigsim --witness --batch model
aigsim --vcd --properties model
aigunroll --frames 2 --cnf --ascii
aigunroll --frames 2 --answer model --cnf
aigunroll --frames 2 --refutation model --answer -
aigunroll --frames 2 --cnf --bad 0 --justice 0
aigunroll --frames 2 --bad 0
aigunroll --frames 2 --justice 0
aigunroll --frames 2 --lrat --answer model
aigselect -
aigtodot --cone x0 -
aigtodot --all-steps -
aigunroll --frames 2 --answer - -
aigunroll --frames 2 --refutation - -
aigunroll --cnf
aigunroll --invariant - --frames 2
aigunroll --invariant - --bad 0
aigunroll --invariant - --cnf
aigunroll --invariant - --refutation - model
aigmiter - -
aigtoaig --sync model
aigtoaig \udcff""".split("\n")
NO_FILES = {
    "aigtoaig none/source": "none/source: cannot read: No such file or directory",
    "aigsim none/model": "none/model: cannot read: No such file or directory",
    "aigmiter none/first -": "none/first: cannot read: No such file or directory",
    "aigtoaig - none/out.aag": "none/out.aag: cannot write: No such file or directory",
}


def good_round(here):
    made, text, canonical = source(here.chance)
    here.source = text
    here.converts("ASCII output is the circuit's text", canonical, text, "--ascii")
    here.converts("binary output is the circuit's image", images.image(made) + parsed(canonical)[1], text)
    relations(here, text)


def some_file(chance):
    """A good file: ASCII or binary, or an image with its map, or its ASCII text."""
    made, text, _ = source(chance)
    if chance.randrange(3):
        return text
    return images.mapped_image(dataclasses.replace(made, symbols=images.symbols(chance, made)))


def hostile_circuit(here):
    """An edited circuit is refused by all tools in the same words, or it is a circuit as others are."""
    chance = here.chance
    text = here.source = edited(chance, some_file(chance), some_file(chance))
    limit = ["--max-var", str(WIDE)] if WIDE < inputs_without_lines(text) < TOO_WIDE else []
    _, errors, status = here.ask(Call(["aigtoaig", "--ascii", *limit], text))
    if status == 0:
        relations(here, text)
    elif errors != b"aiger: out of memory\n":
        refused_alike(here, text, errors, limit)


def refused_alike(here, text, errors, limit):
    """Every tool refuses the text with these words, and with the file's name where it has one."""
    steps, old = {"steps": b"0\n"}, {"out.aag": b"as it was\n"}
    as_bad = ["--outputs-as-bad"], ["--justice-as-bad", "0"]
    for words in ([], ["--strip"], ["--keep-map"], ["--undo-map"], ["--undo-map", "--ascii"], *as_bad):
        here.expect("a refusal is one of all tools", Call(["aigtoaig", *words, *limit], text), b"", errors, 1)
    for words in ([], ["--batch"], ["--properties"], ["--vcd"], ["--witness"], ["--witness", "--vcd"]):
        call = Call(["aigsim", *words, *limit, "-", "steps"], text, steps)
        here.expect("a refusal is one of all tools", call, b"", errors, 1)
    unroll = ["aigunroll", "--frames", "2", *limit]
    for words in ([], ["--cnf"], ["-", "--answer", "steps"], ["-", "--refutation", "steps"]):
        here.expect("a refusal is one of all tools", Call([*unroll, *words], text, steps), b"", errors, 1)
    for words in (["--cnf"], ["--refutation", "steps"]):
        call = Call(["aigunroll", "--invariant", "steps", *limit, *words], text, steps)
        here.expect("a refusal is one of all tools", call, b"", errors, 1)
    for words in (["-", "steps"], ["steps", "-"]):
        call = Call(["aigmiter", *limit, *words], text, {"steps": b"aag 0 0 0 0 0\n"})
        here.expect("a refusal is one of all tools", call, b"", errors, 1)
    told = errors.replace(b"aiger: -: ", b"aiger: source: ", 1)
    named = [["aigtoaig", *limit, "source", "out.aag"], [*unroll, "source", "out.aag"], ["aigsim", *limit, "source"]]
    for words in named:
        files = {"source": text, **(old if here.chance.randrange(2) else {})}
        here.expect("a refusal has the file's name", Call(words, b"0\n", files), b"", told, 1)


def cyclic_circuit(here):
    """Of a circuit whose gates may go in a circle, all tools name the first gate that the plain search leaves out."""
    made = images.circuit(here.chance, may_be_cyclic=True)
    text, told = images.ascii_text(made), images.told_of_cycle(made.gates)
    here.source = text
    if told:
        refused_alike(here, text, told, [])
    else:
        relations(here, text)


def definitions(made):
    return [*made.inputs, *made.latches, *(gate[0] // 2 for gate in made.gates)]


def with_definitions(made, defined):
    """The circuit, its definitions being of these variables."""
    first, last = len(made.inputs), len(made.inputs) + len(made.latches)
    gates = [(2 * variable, *operands) for variable, (_, *operands) in zip(defined[last:], made.gates)]
    return dataclasses.replace(made, inputs=defined[:first], latches=defined[first:last], gates=gates)


def told_of_definitions(made):
    """What is told of the first variable that is defined twice, or of the first literal that is not defined."""
    seen = {0}
    for variable in definitions(made):
        if variable in seen:
            return f"aiger: -: variable {variable} defined twice\n".encode()
        seen.add(variable)
    used = itertools.chain(made.nexts, *made.lists(), *(gate[1:] for gate in made.gates))
    wrong = next((literal for literal in used if literal // 2 not in seen), None)
    return f"aiger: -: literal {wrong} not defined\n".encode() if wrong else None


def misdefined_circuit(here):
    """Of a circuit in which a definition has another variable, all tools tell of the one that is defined twice, or of a
    literal that has none."""
    chance, made = here.chance, circuit(here.chance)
    defined = definitions(made)
    if defined:
        place = chance.randrange(len(defined))
        others = [chance.choice(defined), chance.randrange(1, made.largest + 1)]
        defined[place] = chance.choice(others)
    made = with_definitions(made, defined)
    here.source = images.ascii_text(made)
    told = told_of_definitions(made)
    if told:
        refused_alike(here, here.source, told, [])
    else:
        relations(here, here.source)


def hostile_map(here):
    """An image whose map is edited is refused for its map, or it is the mapped image of what comes of it."""
    chance, made = here.chance, bare(circuit(here.chance))
    text = images.mapped_image(made)
    before = images.image(made) + b"c\n"
    map_and_rest = text[len(before) :]
    for _ in range(4):
        edits = chance.choices(MAP_EDITS, k=chance.choice([1, 1, 2]))
        block = map_and_rest
        for edit in edits:
            block = edit(chance, block, map_and_rest)
        here.source = before + block
        undone(here, here.source, here.source)


def wide_circuit(here):
    """There is no memory for so many inputs without a line, and none is needed where a gate is missing behind them."""
    count = here.chance.randrange(TOO_WIDE, LARGEST)
    for words in (["aigtoaig"], ["aigtoaig", "--ascii"], ["aigunroll", "--frames", "1"]):
        here.source = b"aig %d %d 0 0 0\n" % (count, count)
        here.expect("inputs need memory", Call(words, here.source), b"", b"aiger: out of memory\n", 1)
        here.source = b"aig %d %d 0 0 1\n" % (count + 1, count) + here.chance.choice([b"", b"\x02", b"\x80"])
        told = b"aiger: -: gate 1: file ends too early\n"
        here.expect("a header needs no memory", Call(words, here.source), b"", told, 1)


def large_unrolling(here):
    """A circuit that has too many inputs, outputs or bad states over so many frames is refused."""
    chance, frames = here.chance, here.chance.choice([30000, 99999, 999999, 1000000])
    count = LARGEST // frames + chance.choice([1, 2, 1000])
    lines = b"%d\n" % chance.randrange(2) * count
    texts = [b"aig %d %d 0 0 0\n" % (count, count), b"aag 0 0 0 %d 0\n" % count + lines]
    for here.source in [*texts, b"aag 0 0 0 0 0 %d\n" % count + lines]:
        call = Call(["aigunroll", "--frames", str(frames), *chance.choice([[], ["--ascii"], ["--cnf"]])], here.source)
        here.expect("what would be too large is refused", call, b"", b"aiger: -: too large to unroll\n", 1)


def two_circuits(here):
    """Two circuits of miters.py, as ASCII or as their images."""
    *both, words = miters.pair(here.chance)
    if here.chance.randrange(2):
        texts = [(images.image(it), images.renumbered(it)) for it in both]
    else:
        texts = [(images.ascii_text(it), it) for it in both]
    same_miter(here, *texts, [*words, *here.chance.choice([[], ["--ascii"]])])


def hostile_steps(here):
    """An edited stimulus has the trace up to its first bad line, and an edited witness its answer."""
    chance = here.chance
    made, text, canonical = source(chance)
    here.source = text
    names = waves.names_of(parsed(canonical)[1])
    models = [text, here.converted(text, "--keep-map")]
    for _ in range(3):
        given, other = stimulus(chance, made), stimulus(chance, made)
        same_trace(here, models[:1], made, names, edited(chance, given, other))
        run, another = (witnesses.given(chance, made).encode() for _ in range(2))
        same_answer(here, models, made, edited(chance, run, another))


def hostile_words(here):
    """Any words have an answer of the right form."""
    chance = here.chance
    text = here.source = source(chance)[1]
    for _ in range(12):
        words = chance.choices(WORDS, k=chance.randrange(1, 7))
        if chance.randrange(3):
            words = [chance.choice(WORDS[:8]), *words]
        given = chance.choice([text, b"0\n", b""])
        here.ask(Call(words, given, {"source": text, "out.aig": b"as it was\n"}))
    for words, told in zip(REFUSED_WORDS, refusals.OF_ARGUMENTS, strict=True):
        here.expect("words are refused", Call(words.split(), text), b"", f"aiger: {told}\n".encode(), 2)
    for words, told in NO_FILES.items():
        here.expect("a file that is not there", Call(words.split(), text), b"", f"aiger: {told}\n".encode(), 1)


KINDS = [good_round] * 4 + [hostile_circuit] * 7 + [hostile_steps] * 2 + [hostile_words]
KINDS += [cyclic_circuit] + [misdefined_circuit] * 2 + [hostile_map] * 2 + [wide_circuit, large_unrolling, two_circuits]
