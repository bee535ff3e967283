"""Rows of the pieces that need no tool: parts of a model and what ABC gets of them, beside a search through all states;
patterns; what other programs write; names, lists, reports, sums and statuses."""
import functools
import importlib
import itertools
import random
import sys
from pathlib import Path
from types import SimpleNamespace
from xml.etree import ElementTree

from lib import images, traces
from lib.check import checked, reached

MODELS = reached.all_models(150)


def need(holds, why, said=""):
    checked.need(holds, why, said)


def piece(name):
    """A module of the package."""
    folder = str(Path(checked.CHECK).resolve().parent)
    if folder not in sys.path:
        sys.path.append(folder)
    return importlib.import_module(f"aiger_check.{name}")


def refused(act, kind, words):
    """That this is refused, in these words."""
    try:
        act()
    except kind as why:
        need(words in str(why), f"{words!r} is not said", str(why))
    else:
        raise checked.Wrong(f"{words!r} is not said: it is taken")


# ---------------------------------------------------------------- models


def model_of(made, room, name="model.aig"):
    """A model in a file, as the package has it."""
    path = room.here / name
    path.write_bytes(images.image(made))
    try:
        return piece("model.circuit").Model(path)
    except piece("faults").Trouble as why:
        raise checked.Skipped("libaigtools is not there") from why


def plain_of(circuit, bad=None):
    """A circuit of the package as the plain search has it."""
    latches = list(circuit.latches)
    resets = ["x" if it.reset > 1 else str(it.reset) for it in latches]
    gates = [(it.literal, it.left, it.right) for it in circuit.gates]
    return images.Circuit(
        circuit.max_var, [it >> 1 for it in circuit.inputs], [it.literal >> 1 for it in latches],
        [it.next for it in latches], resets, [], list(circuit.bad) if bad is None else bad, list(circuit.constraints),
        [], [], gates, "", None,
    )


def run_of(made, bad):
    """A shortest run into a bad state: its first state, and the inputs of each step."""
    order, seen = images.placed(made.gates), set()
    waiting = [(it, it, ()) for it in sorted(reached.first_states(made))]
    every = ["".join(it) for it in itertools.product("01", repeat=len(made.inputs))]
    while waiting:
        first, state, given = waiting.pop(0)
        if state in seen:
            continue
        seen.add(state)
        for inputs in every:
            _, line, following = traces.step(made, order, state, inputs)
            *_, bads, constraints = line.split(" ")
            if "0" in constraints:
                continue
            if bads[bad] == "1":
                return first, [*given, inputs]
            waiting.append((first, following, (*given, inputs)))
    return None


def witness_of(bad, run):
    return "\n".join(["1", f"b{bad}", run[0], *run[1], ".", ""])


def is_witness(made, bad, text):
    """Whether the run of a witness keeps all constraints, and is in the bad state in its last step."""
    one, name, state, *inputs = text.split("\n")
    inputs, order = inputs[: inputs.index(".")], images.placed(made.gates)
    starts = all(reset in ("x", value) for reset, value in zip(made.resets, state))
    bads = ""
    for given in inputs:
        _, line, state = traces.step(made, order, state, given)
        *_, bads, constraints = line.split(" ")
        starts = starts and "0" not in constraints
    return (one, name) == ("1", f"b{bad}") and starts and bads[bad] == "1"


def part(at, room):
    """A part has the same answer as the model, and a witness of it is one of the model."""
    made = images.renumbered(MODELS[at])
    model = model_of(made, room)
    for bad, step in enumerate(reached.steps(made)):
        of = piece("model.part").Part(model, bad)
        small = plain_of(of.circuit())
        need(reached.steps(small) == [step], f"bad state {bad} is at {step} and in the part", reached.steps(small))
        need(len(small.latches) <= len(made.latches) and len(small.gates) <= len(made.gates), "a larger part")
        if step is not None:
            wide = of.widened(witness_of(0, run_of(small, 0)))
            need(is_witness(made, bad, wide), f"no witness of bad state {bad} at {step}", wide)


def for_abc(at, room):
    """What ABC gets has no constraint and starts at 0; its output is 1 exactly where the bad state is reached, and what it
    says is a witness of the model."""
    made = images.renumbered(MODELS[at])
    model = model_of(made, room)
    for bad, step in enumerate(reached.steps(made)):
        given = piece("model.for_abc").ForAbc(piece("model.part").Part(model, bad))
        small = plain_of(given.circuit, list(given.circuit.outputs))
        need(set(small.resets) == {"0"} and not small.constraints, "a latch that does not start at 0", small)
        due = None if step is None else step + given.begins
        need(reached.steps(small) == [due], f"bad state {bad} is at {step}, for ABC", reached.steps(small))
        if step is not None:
            wide = given.witness([run_of(small, 0)[0], *run_of(small, 0)[1]])
            need(wide and is_witness(made, bad, wide), f"no witness of bad state {bad} at {step}", wide)


def patterns(at, room):
    """Each bit of the numbers is a run as the plain simulator has it."""
    made = images.renumbered(MODELS[at])
    found, order = piece("equality.alike").Patterns(model_of(made, room)), images.placed(made.gates)
    inputs, state = ([found.any() for _ in of] for of in (made.inputs, made.latches))
    values = found.values(inputs, state)
    for bit in range(0, found.WIDTH, 37):
        given, before = ("".join(str(it >> bit & 1) for it in of) for of in (inputs, state))
        _, line, following = traces.step(made, order, before, given)
        wanted = "".join(line.split(" ")[-2:]) + following
        came = "".join(str(values[it] >> bit & 1) for it in [*made.bad, *made.constraints, *made.nexts])
        need(came == wanted, f"{came} is not {wanted}", line)
    for following, kept in [found.step(state) for _ in range(3)]:
        need(len(following) == len(made.latches) and 0 <= kept <= found.ones, "another step")




def alike(room):
    """Latches that are equal or opposite in each step are found, and the invariant says so."""
    text = "aag 5 1 4 0 0 1\n2\n4 2\n6 4\n8 3 1\n10 8 1\n4\n"
    model = model_of(images.renumbered(reached.read(text.encode())), room)
    side = SimpleNamespace(unset=lambda: [], circuit=SimpleNamespace(latches=[0, 0]))
    tools = SimpleNamespace(
        aiger=SimpleNamespace(children=SimpleNamespace(stopped=False)), limits=SimpleNamespace(time=30.0)
    )
    found = piece("equality.alike").Alike(model, SimpleNamespace(first=side, second=side), tools)
    found.find()
    rows_ = sorted(found.rows())
    need(rows_ == sorted(["0-0-", "1-1-", "-0-0", "-1-1"]), "other rows", rows_)


# ---------------------------------------------------------------- what other programs write


def solver_files(room):
    solvers, text = piece("tools.solvers"), room.here / "answer"
    for lines, wanted in (
        (b"SAT\n1 -2 3 0\n", b"s SATISFIABLE\nv 1 -2 3 0\n"), (b"UNSAT\n", b"s UNSATISFIABLE\n"),
        (b"INDET\n", b"s UNKNOWN\n"), (b"", b"s UNKNOWN\n"), (b"SAT\n", b"s SATISFIABLE\n"),
    ):
        text.write_bytes(lines)
        need(solvers.minisat_answer(text) == wanted, f"{lines} is", solvers.minisat_answer(text))
    need(solvers.minisat_answer(room.here / "none") == b"", "an answer of no file")
    frat = b"c a comment\no 1 1 2 0\na 5 1 -2 0 l 3 4 0\nd 5 1 -2 0\na 6 0 l 5 0\nf 6 0\n\na 7\na 8 3 0"
    (room.here / "frat").write_bytes(frat)
    solvers.drat_of_frat(room.here / "frat", room.here / "drat")
    came = (room.here / "drat").read_bytes()
    need(came == b"1 -2 0\nd 1 -2 0\n0\n3 0\n", "another refutation", came)
    solvers.drat_of_frat(room.here / "none", room.here / "other")
    need(not (room.here / "other").exists(), "a refutation of nothing")


def packed(kind, literals):
    """A lemma of a binary refutation."""
    made = bytearray(kind)
    for literal in literals:
        value = 2 * abs(literal) + (literal < 0)
        while value > 127:
            made.append(value & 127 | 128)
            value >>= 7
        made.append(value)
    return bytes(made) + b"\0"


def binary_lemmas(room):
    """Lemmas that are added come back, whatever their literals are; a file that is cut gives those that are whole."""
    del room
    chance, read = random.Random(1), piece("equality.sweep").binary_lemmas
    lemmas = [[chance.choice([1, -1]) * chance.choice([1, 63, 64, 127, 128, 8191, 8192, 1 << 27]) for _ in range(3)]]
    lemmas += [[], [1], [-1], [64, -64], [1 << 20, -(1 << 20)]]
    data = b"".join(packed(b"a", it) + packed(b"d", it) for it in lemmas)
    need(list(read(data)) == lemmas, f"{lemmas} are", list(read(data)))
    for end in range(len(data)):
        came = list(read(data[:end]))
        need(came == lemmas[: len(came)], f"cut at {end} it is", came)


def read_rows(room):
    read, path = piece("tools.abc").read_rows, room.here / "rows"
    for text, wanted in (
        (".i 2\n.o 1\n01 1\n-1 1\n.e\n", ["01", "-1"]), ("011 1\n", None), ("01 0\n", None), ("01\n", None), ("", []),
    ):
        path.write_text(text, encoding="ascii")
        need(read(path, 2) == wanted, f"{text!r} is", read(path, 2))
    need(read(room.here / "none", 2) is None, "rows of no file")


DUMP = """$date today $end
$timescale 1 ns $end
$scope module aiger {name} $end
$var wire 1 i0 a $end
$var wire 2 v1 b [1:0] $end
$upscope $end
$enddefinitions $end
#0
0i0
b01 v1
#{step}
{changes}
"""


def waves(room):
    """Two dumps side by side: each change of both is there, at its time and in its scope."""
    del room
    beside = piece("keep.waves").waves_beside
    first = DUMP.format(name="one", step=2, changes="1i0\nb11 v1").encode()
    second = DUMP.format(name="two", step=1, changes="zi0").encode()
    lines = beside(first, second).decode().splitlines()
    body = lines[lines.index("$enddefinitions $end") + 1 :]
    wanted = ["#0", "0ai0", "b01 av1", "0bi0", "b01 bv1", "#1", "zbi0", "#2", "1ai0", "b11 av1"]
    need(body == wanted, "other changes", body)
    scopes = [it for it in lines if "$scope" in it or "$var" in it]
    due = ["$scope module first one $end", "$var wire 1 ai0 a $end", "$var wire 2 av1 b [1:0] $end"]
    due += ["$scope module second two $end", "$var wire 1 bi0 a $end", "$var wire 2 bv1 b [1:0] $end"]
    need(scopes == due, "other scopes", scopes)
    need(lines[:2] == ["$date today $end", "$timescale 1 ns $end"], "another head", lines)


# ---------------------------------------------------------------- places, names, notes, sums


def place_of(room):
    """Where an assertion without a label stands: at its word, not at one of a comment or a string before it."""
    del room
    words, properties = piece("front.words"), piece("front.properties")
    text = f"""{words.BEGIN}`file_push "m.sv"
module m; /* assert
 assert */ wire a = "assert"; // assert
   always @* begin a = 0; assert(a); assert (b); end
`file_push "n.vh"
 assert(c);
`file_pop
 assert(d); endmodule
{words.END}"""
    found = [it for it in words.words(text) if it.text == "assert"]
    places = [(it.file, it.line, it.column) for it in found]
    need([it[:2] for it in places] == [("m.sv", 3), ("m.sv", 3), ("n.vh", 1), ("m.sv", 4)], "other places", places)
    source = SimpleNamespace(properties={"m.sv": [it for it in found if it.file == "m.sv"]})
    for text, labelled, wanted in (
        ("m.sv:3.26-3.40", False, ("m.sv", 3, places[0][2])), ("m.sv:3.1-3.40", True, ("m.sv", 3, 1)),
        ("m.sv:3.36-3.48", False, ("m.sv", 3, places[1][2])), ("k.sv:3.1-3.40", False, ("k.sv", 3, 1)), ("", False, ("", 0, 0)),
    ):
        came = properties.place_of({"attributes": {"src": text}}, labelled, source)
        need(came == wanted, f"{text} is {wanted}", came)


def file_names(room):
    """Names of files are safe, and no two assertions have one, on no disk."""
    del room
    keeper, assertion = piece("keep.keeper").Keeper, piece("answers").Assertion
    its, names = SimpleNamespace(names=set()), []
    odd = ["a", "A", "a", "a-2", "", ".", "-x", "../../etc/passwd", "a/b", "a b", "\n", "x" * 300, "x" * 200, "\N{SNOWMAN}"]
    odd += ["$(touch hacked)", "a\0b", "assertion", "CON", "together"]
    for name in odd:
        names.append(keeper.name(its, assertion(name, "m.sv:1", 0)))
    need(len({it.lower() for it in names}) == len(odd), "a name twice", names)
    for it in names:
        is_safe = all(c.isascii() and (c.isalnum() or c in "_.+-") for c in it) and it[0] not in ".-" and len(it) < 120
        need(is_safe, "no safe name", it)


def visible(room):
    del room
    shown = piece("faults").visible
    for text, wanted in (("a b", "a b"), ("a\nb", "a\\nb"), ("\x1b[m", "\\x1b[m"), ("\udcff", "\\udcff"), ("\u202e", "\\u202e")):
        need(shown(text) == wanted, f"{text!r} is", shown(text))


def verdicts():
    answers = piece("answers")
    kinds = answers.Answer
    return answers, {
        "never": answers.Verdict(kinds.NEVER), "within": answers.Verdict(kinds.NONE_WITHIN, steps=5),
        "reached": answers.Verdict(kinds.REACHED, steps=3), "vacuous": answers.Verdict(kinds.VACUOUS, reason="why"),
        "unknown": answers.Verdict(kinds.UNKNOWN, reason="why"),
        "late": answers.Verdict(kinds.UNKNOWN, reason=answers.NO_TIME),
    }


# the least that there is makes the status
RANKS = ["reached", "late", "unknown", "vacuous", "never"]


def statuses(room):
    """The status of each set of answers, and of what is expected."""
    del room
    answers, found = verdicts()
    status = piece("statuses")
    of = {"reached": 1, "late": 8, "unknown": 4, "vacuous": 3, "never": 0}
    asked = answers.Assertion("a", "m.sv:1", 0)
    for count in range(1, 4):
        for names in itertools.product(RANKS, repeat=count):
            came = status.status_of([(asked, found[it]) for it in names])
            need(came == of[min(names, key=RANKS.index)], f"{names} come to", came)
    need(status.status_of([]) == 16, "nothing comes to", status.status_of([]))
    for word, its in status.OUTCOMES.items():
        need(status.expected(its, []) == its and status.expected(its, [word]) == 0, f"{word} is expected")
        others = [it for it in status.OUTCOMES if it != word]
        need(status.expected(its, others) == (its or 1), f"{word} is not expected", status.expected(its, others))


def sums(room):
    """What the last line adds up, and what an object has."""
    del room
    answers, found = verdicts()
    tally = piece("tallies").Tally(5, False)
    need(tally.summary() == "0 assertions" and tally.records() == {"assertions": []}, "another sum", tally.summary())
    for at, name in enumerate(["never", "reached", "never", "within", "vacuous", "unknown"]):
        tally.add(answers.Assertion(f"a{at}", f"m.sv:{at}", at), found[name])
    tally.add(answers.Liveness("l", "m.sv:9", 0, justice=0), found["reached"])
    due = "6 assertions: 2 never, 1 none within 5, 1 reached, 1 vacuous, 1 unknown; 1 liveness assertion: 1 lasso"
    need(tally.summary() == due, "another sum", tally.summary())
    records = tally.records()["assertions"]
    need(records[1] == {"name": "a1", "source": "m.sv:1", "answer": "reached", "steps": 3}, "another record", records[1])
    need(records[6]["kind"] == "liveness" and records[6]["answer"] == "lasso", "another record", records[6])
    of_two = piece("tallies").Tally(5, True)
    need(of_two.summary() == "0 pairs" and of_two.status() == 16, "another sum", of_two.summary())
    of_two.add(answers.Assumption("c", "new", 0), found["never"])
    need(of_two.summary() == "0 pairs; 1 assumption: 1 holds" and of_two.status() == 16, "another sum", of_two.summary())
    of_two.add(answers.Pair("o", "old", 0), found["within"])
    need(of_two.summary() == "1 pair: 1 equal for 5 steps; 1 assumption: 1 holds", "another sum", of_two.summary())
    need(of_two.status() == 0, "another status", of_two.status())


def reports(room):
    """Whatever names and reasons are, a report is XML that says them."""
    del room
    answers, found = verdicts()
    tally, junit, chance = piece("tallies").Tally(5, False), piece("junit"), random.Random(2)
    pieces = ["<", "&", '"', "'", "]]>", "\0", "\x01", "\x7f", "\x85", "\ud800", "\ufffe", "\n", "\t", "a", "\N{SNOWMAN}", "\U0001f600"]
    texts = ["".join(chance.choices(pieces, k=12)) for _ in range(60)]
    for at, text in enumerate(texts):
        tally.add(answers.Assertion(text, f"{text}:{at}", at), found[RANKS[at % 5]])
    status = piece("statuses").Status.BROKEN
    data = junit.report(junit.Suite(texts[0], 1.5, texts, texts[1]), tally.answered, status)
    suite = ElementTree.fromstring(data)[0]
    tests, shown = suite.findall("testcase"), piece("faults").visible
    need([it.get("name") for it in tests[:-1]] == [shown(it) for it in texts], "other names", data)
    need([it.get("line") for it in tests[:-1]] == [str(at) for at in range(60)], "other lines", data)
    counts = [suite.get(it) for it in ("tests", "failures", "errors", "skipped")]
    need(counts == ["61", "12", "37", "0"], "other counts", counts)
    need(suite.find("system-err").text == "".join(f"{shown(it)}\n" for it in texts), "other notes", data)


# ---------------------------------------------------------------- the command line


def lists(room):
    """What a list has, in the order in which it has it."""
    read, put = piece("lists").read_list, room.here / "l.f"
    for text, files, include, defines in (
        ("a.sv b.sv\n", ["a.sv", "b.sv"], [], []), ("", [], [], []), ("// a.sv\n# b.sv\n/* c.sv\n*/d.sv", ["d.sv"], [], []),
        ("+incdir+a+b +define+A+B=1+C=x\n", [], ["a", "b"], ["A", "B=1", "C=x"]), ("src//a.sv", ["src//a.sv"], [], []),
        ("-I a -Ib -D A=1 -DB", [], ["a", "b"], ["A=1", "B"]), ("a#b.sv //c", ["a#b.sv"], [], []),
        ("+incdir++ +define+", [], [], []), ("a.sv\r\n\tb.sv", ["a.sv", "b.sv"], [], []), ("/abs/a.sv", ["/abs/a.sv"], [], []),
    ):
        put.write_text(text, encoding="ascii")
        found = read(str(put), False)
        need((found.files, found.include, found.defines) == (files, include, defines), f"{text!r} is", found)
    put.write_text("a.sv /abs/b.sv +incdir+c -I d -D E", encoding="ascii")
    found, here = read(str(put), True), str(room.here)
    need(found.files == [f"{here}/a.sv", "/abs/b.sv"] and found.include == [f"{here}/c", f"{here}/d"], "other places", found)
    put.write_bytes(b"\xff.sv")
    need(read(str(put), False).files == ["\udcff.sv"], "another name", read(str(put), False))
    trouble = piece("faults").Trouble
    for text, words in (("$A/b", "$A"), ("a\n${A}/b", "l.f:2"), ("-y a", "-y"), ("'a b'", "quotes"), ("-f l.f", "l.f")):
        put.write_text(text, encoding="ascii")
        refused(lambda: read(str(put), False), trouble, words)


def words(room):
    """Command lines, and what is made of them."""
    parse, usage = piece("arguments").parse_arguments, piece("faults").Usage
    (room.here / "l.f").write_text("b.sv +incdir+i +define+D=4\n", encoding="ascii")
    check = piece("arguments").check_arguments
    name = str(room.here / "l.f")
    given = check(parse(["--top", "m", "a.sv", "-f", name, "c.v", "-I", "j", "-D", "E", "-P", "N=1", "--clock", "k"]))
    need(given.files == ["a.sv", "b.sv", "c.v"], "other files", given)
    need((given.include, given.defines) == (["j", "i"], ["E", "D=4"]), "other words", given)
    need((given.parameters, given.clocks) == (["N=1"], ["k"]), "other words", given)
    given = check(parse(["--equal", "--top", "m", "--top", "n", "a.sv,b.sv", "c.sv"]))
    need([it.files for it in given.designs] == [["a.sv", "b.sv"], ["c.sv"]], "other designs", given)
    need([it.top for it in given.designs] == ["m", "n"], "other tops", given)
    given = check(parse(["--", "-f"]))
    need(given.files == ["-f"], "other files", given)
    for line in (["-f"], ["m.aig", "-f", name], ["--top", "-f", name], ["a.v"], [], ["--expect", "", "a"], ["--timeout", "0"]):
        refused(lambda: check(parse(line)), usage, "")


def rows():
    each = functools.partial
    for at in range(len(MODELS)):
        yield f"piece: the parts of model {at}", each(part, at)
        yield f"piece: model {at} for ABC", each(for_abc, at)
    for at in range(0, len(MODELS), 5):
        yield f"piece: patterns of model {at}", each(patterns, at)
    for act in (alike, solver_files, binary_lemmas, read_rows, waves, place_of, file_names, visible, statuses, sums, reports):
        yield f"piece: {act.__name__}", act
    yield "piece: lists of files", lists
    yield "piece: words", words
