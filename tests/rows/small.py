"""The rows of the hostile programs: small circuits, and what each tool makes of them.

Each answer was worked out by hand from docs/FORMAT.md. Between them the circuits have each section of a file,
resets of each kind, symbols of each kind, and comments.
"""
import dataclasses

HALF = b"aag 7 2 0 2 3\n2\n4\n6\n12\n6 13 15\n12 2 4\n14 3 5\ni0 x\ni1 y\no0 s\no1 c\nc\nhalf adder\n"
HALF_GATES = b"aig 5 2 0 2 3\n10\n6\n\x02\x02\x03\x02\x01\x02"
HALF_NAMES = b"i0 x\ni1 y\no0 s\no1 c\nc\n"
HALF_IMAGE = HALF_GATES + HALF_NAMES + b"half adder\n"
HALF_BLOCK = b"aigmap 1 7 2 0 3 1\n1\n2\n3 2 1\n6 0 1\n7 1 1\naigmap end\n"
HALF_MAPPED = HALF_GATES + HALF_NAMES + HALF_BLOCK + b"half adder\n"
HALF_COUNTS = (
    b"max_var 7\ninputs 2\nlatches 0\noutputs 2\ngates 3\nbad 0\nconstraints 0\njustice 0\nfairness 0\nlatches_at_one 0\n"
    b"uninitialised_latches 0\nsymbols 4\ncomment_bytes 11\nlevels 2\nused_inputs 2\nused_latches 0\nused_gates 3\n"
    b"unused_inputs 0\nunused_latches 0\nunused_gates 0\n"
)
SUMS = b" 01 10 \n 11 01 \n.\n 10 10 \n x0 x0 \n" * 6 + b".\n"
EQUAL = b"aag 2 1 0 1 1\n2\n4\n4 2 2\n"
EQUAL_IMAGE = b"aig 2 1 0 1 1\n4\n\x02\x00"
EQUAL_MAPPED = EQUAL_IMAGE + b"c\naigmap 1 2 1 0 1 0\n1\n2 0 0\naigmap end\n"
TOGGLE = b"aag 1 0 1 2 0\n2 3\n2\n3\n"
HELD = b"aag 3 1 1 1 1\n2\n4 6\n6\n6 2 5\n"
HELD_IMAGE = b"aig 3 1 1 1 1\n6\n6\n\x01\x03"
# the same with a CR in each line, and deltas that could be shorter
HELD_PADDED = b"aig 3 1 1 1 1 \r\n6\r\n6 \r\n\x81\x80\x00\x83\x80\x80\x80\x00"
HELD_TWICE = b"aag 4 2 0 2 2\n2\n4\n6\n8\n6 2 1\n8 7 4\n"
HELD_TWICE_IMAGE = b"aig 4 2 0 2 2\n6\n8\n\x04\x01\x01\x03"
# its first delta has two bytes
FAR_IMAGE = b"aig 66 65 0 1 1\n132\n\x82\x01\x00i64 far\nc\n"
FAR = b"aag 66 65 0 1 1\n%s132\n132 2 2\ni64 far\nc\n" % b"".join(b"%d\n" % it for it in range(2, 132, 2))
BAD = b"aag 1 0 1 0 0 1\n2 3\n2\n"
# a latch that takes the input, and is to be 1 again and again, while a constraint and fairness hold; and a lasso with a stem
LIVE = b"aag 2 1 1 0 0 0 1 1 1\n2\n4 2\n1\n1\n4\n2\n"
LASSO = b"1\nj0\n0\nx\n1\n1\n.\n"
EVERY = b"aag 9 1 2 1 1 2 1 2 1\n18\n4 19 1\n14 4 14\n6\n14\n15\n7\n2\n1\n19\n4\n6\n5\n6 19 14\n"
EVERY_NAMES = b"b1 a\nc0 b\nj0 c\nf0 d\no0 e\nl1 f\ni0 g\nc\n"
EVERY_IMAGE = b"aig 4 1 2 1 1 2 1 2 1\n3 1\n4 6\n8\n6\n7\n9\n2\n1\n3\n4\n8\n5\n\x02\x03"
EVERY_LIVE = (
    b"aag 43 2 8 1 28 1 1\n18\n20\n4 19 1\n14 4 14\n22 65\n24 41\n26 47\n28 69\n30 73\n32 77\n6\n86\n7\n6 19 14\n34 23 20\n"
    b"36 34 4\n38 35 24\n40 39 37\n42 34 14\n44 35 26\n46 45 43\n48 24 4\n50 25 5\n52 51 49\n54 26 14\n56 27 15\n58 57 55\n"
    b"60 53 1\n62 60 59\n64 23 21\n66 65 19\n68 67 29\n70 65 4\n72 71 31\n74 65 5\n76 75 33\n78 22 1\n80 78 62\n82 80 28\n"
    b"84 82 30\n86 84 32\n"
)
EVERY_PART = b"aag 9 1 2 0 1 0 1 1 1\n18\n4 19 1\n14 4 14\n7\n2\n19\n4\n5\n6 19 14\nc0 b\nj0 c\nf0 d\nl1 f\ni0 g\n"
EVERY_MAPPED = EVERY_IMAGE + EVERY_NAMES + b"aigmap 1 9 1 2 1 1\n9\n2\n7\n3 0 1\naigmap end\nx"

COMB = b"aag 3 2 0 0 1 2\n2\n4\n6\n7\n6 4 2\n"
COMB_CLAUSES = b"p cnf 5 8\n-1 0\n-4 3 0\n-4 2 0\n4 -3 -2 0\n-5 -4 0\n-5 -1 0\n5 4 1 0\n5 0\n"
KEPT = b"aag 3 2 1 0 0 1 1\n2\n4\n6 2 1\n6\n4\n"
KEPT_CLAUSES = (
    b"p cnf 9 14\n-1 0\n-6 3 0\n-6 -1 0\n6 -3 1 0\n-7 6 0\n-7 -1 0\n7 -6 1 0\n"
    b"-8 6 0\n-8 5 0\n8 -6 -5 0\n-9 8 0\n-9 2 0\n9 -8 -2 0\n7 9 0\n"
)
# of two inputs one of the four pairs of values would have to be there, and none is: that needs a lemma, as 3
FOUR = b"aag 9 2 0 0 7 1\n2\n4\n18\n6 5 3\n8 5 2\n10 4 3\n12 4 2\n14 9 7\n16 13 11\n18 16 14\n"
FOUR_REFUTED = b"c\n2 3 0\nd 3 2 0\r\n3 0\n0\n"
FOUR_REFUTED_BINARY = b"a\4\6\0d\6\4\0a\x86\0\0a\0"
FOUR_REFUTED_LRAT = b"c\n27 2 3 0 4 0\n27 d 4 27 0\r\n28 3 0 27 -7 7 0\n29 0 28 10 13 0\n"
# two latches that exchange their values, of which the first is 1 at first: never are both 1
TOKENS = b"aag 3 0 2 0 1 1\n2 4 1\n4 2\n6\n6 4 2\n"
TOKENS_INVARIANT = b"# by hand\n.i 2\n11 1\n\n.e\n"
TOKENS_CLAUSES = (
    b"p cnf 11 26\n-1 0\n-4 3 0\n-4 2 0\n4 -3 -2 0\n-5 2 0\n-5 -1 0\n5 -2 1 0\n-6 5 0\n-6 3 0\n6 -5 -3 0\n"
    b"-7 3 0\n-7 -1 0\n7 -3 1 0\n-8 7 0\n-8 2 0\n8 -7 -2 0\n-9 -6 0\n-9 -1 0\n9 6 1 0\n"
    b"-10 9 0\n-10 4 0\n10 -9 -4 0\n-11 9 0\n-11 8 0\n11 -9 -8 0\n10 11 0\n"
)
TOKENS_REFUTED = b"-10 0\n0\n"
# each section, with gates that go: 14 is 12 again, nothing needs 16, and 20 is a latch; 22 is x where the input is
FOLDED = (
    b"aag 11 1 2 1 5 2 1 2 1\n18\n4 19 1\n10 14 10\n13\n15\n20\n19\n2\n1\n22\n5\n14\n21\n"
    b"12 19 10\n14 10 19\n16 14 4\n20 10 1\n22 18 19\n"
)
FOLDED_NAMES = b"b1 a\nf0 d\ni0 g\nc\n"
SIMPLE = b"aag 5 1 2 1 2 2 1 2 1\n2\n4 3 1\n6 8 6\n9\n9\n6\n3\n2\n1\n10\n5\n8\n7\n8 6 3\n10 3 2\n"
SIMPLE_IMAGE = b"aig 5 1 2 1 2 2 1 2 1\n3 1\n8 6\n9\n9\n6\n3\n2\n1\n10\n5\n8\n7\n\x02\x03\x07\x01"
HELD_TWICE_SIMPLY = b"aag 3 2 0 2 1\n2\n4\n2\n6\n6 4 3\n"
KEPT_CLAUSES_LEFT = b"p cnf 7 8\n-1 0\n-6 5 0\n-6 3 0\n6 -5 -3 0\n-7 6 0\n-7 2 0\n7 -6 -2 0\n3 7 0\n"
TOKENS_CLAUSES_LEFT = b"p cnf 5 8\n-1 0\n-4 3 0\n-4 2 0\n4 -3 -2 0\n-5 -4 0\n-5 4 0\n5 4 -4 0\n5 5 0\n"
NAMED_ALIKE_SIMPLY = b"aag 4 2 0 0 2 3 1\n2\n4\n6\n8\n2\n3\n6 3 2\n8 5 4\n"
# an uninitialised latch that keeps itself, and one that is negated
STARTED = b"aag 1 0 1 1 0\n2 2 2\n2\n"
STARTED_OTHERWISE = b"aig 1 0 1 0 0 1\n3 2\n3\n"
STARTED_ALIKE = (
    b"aag 10 0 3 0 7 1 1\n2 2 2\n4 5 4\n12 1\n10\n21\n6 5 2\n8 4 3\n10 9 7\n14 4 2\n16 5 3\n18 17 15\n20 18 13\n"
)
STARTED_ALIKE_IMAGE = (
    b"aig 10 0 3 0 7 1 1\n2 2\n5 4\n1\n12\n21\n\x03\x03\x06\x01\x01\x02\x0a\x02\x0b\x02\x01\x02\x02\x0b"
)
# two circuits that are the same by the names of inputs, of outputs and of bad states
NAMED = b"aag 2 2 0 1 0 1 1\n2\n4\n2\n5\n3\ni0 a\ni1 b\no0 f\nb0 g\nc0 f\n"
NAMED_OTHERWISE = b"aag 3 2 0 1 1 1 1\n2\n4\n7\n4\n5\n6 2 2\nb0 f\no0 g\ni1 a\ni0 b\nc\n"
NAMED_ALIKE = (
    b"aag 11 2 0 0 9 3 1\n2\n4\n16\n22\n8\n3\n8 2 1\n6 4 1\n10 6 6\n"
    b"12 8 2\n14 9 3\n16 15 13\n18 11 5\n20 10 4\n22 21 19\n"
)

DUMP = b"$version aiger $end\n$timescale 1 ns $end\n$scope module aiger $end\n$var integer 64 r run $end\n"
TOGGLE_DUMP = (
    DUMP + b"$scope module latches $end\n$var reg 1 l0 l0 $end\n$upscope $end\n"
    b"$scope module outputs $end\n$var wire 1 o0 o0 $end\n$var wire 1 o1 o1 $end\n$upscope $end\n"
    b"$upscope $end\n$enddefinitions $end\n"
    b"#0\nb0 r\n0l0\n0o0\n1o1\n#1\n1l0\n1o0\n0o1\n#2\n0l0\n0o0\n1o1\n#3\n1l0\nzo0\nzo1\n#4\n"
)
EVERY_DUMP = (
    DUMP + b"$scope module inputs $end\n$var wire 1 i0 g $end\n$upscope $end\n"
    b"$scope module latches $end\n$var reg 1 l0 l0 $end\n$var reg 1 l1 f $end\n$upscope $end\n"
    b"$scope module outputs $end\n$var wire 1 o0 e $end\n$upscope $end\n"
    b"$scope module bad $end\n$var wire 1 b0 b0 $end\n$var wire 1 b1 a $end\n$upscope $end\n"
    b"$scope module constraints $end\n$var wire 1 c0 b $end\n$upscope $end\n"
    b"$upscope $end\n$enddefinitions $end\n"
    b"#0\nb0 r\nzi0\n1l0\nxl1\nzo0\nzb0\nzb1\nzc0\n#1\nb1 r\n0i0\nxo0\nxb0\nxb1\nxc0\n"
    b"#2\nzi0\n1l1\nzo0\nzb0\nzb1\nzc0\n#3\n"
)
BAD_RUN = (
    b"$comment confirmed 1 $end\n" + DUMP + b"$scope module latches $end\n$var reg 1 l0 l0 $end\n$upscope $end\n"
    b"$scope module bad $end\n$var wire 1 b0 b0 $end\n$upscope $end\n$upscope $end\n$enddefinitions $end\n"
    b"#0\nb0 r\n0l0\n0b0\n#1\n1l0\n1b0\n#2\n0l0\nzb0\n#3\n"
)
LASSO_RUN = (
    b"$comment confirmed 2 $end\n" + DUMP
    + b"$scope module inputs $end\n$var wire 1 i0 i0 $end\n$var wire 1 i1 loop $end\n$upscope $end\n"
    b"$scope module latches $end\n$var reg 1 l0 l0 $end\n$upscope $end\n"
    b"$scope module constraints $end\n$var wire 1 c0 c0 $end\n$upscope $end\n$upscope $end\n$enddefinitions $end\n"
    b"#0\nb0 r\nxi0\n0i1\n0l0\n1c0\n#1\n1i0\nxl0\n#2\n1i1\n1l0\n#3\nzi0\nzi1\nzc0\n#4\n"
)


@dataclasses.dataclass
class Row:
    """The words of a command line, its standard input, its output, and the file `model` or `steps` if it has one."""

    name: str
    words: str
    given: bytes
    output: bytes
    files: dict = dataclasses.field(default_factory=dict)


def simulated(name, words, model, steps, output):
    """A simulation, once with the model and once with the stimulus or the witness by standard input."""
    yield Row(name, f"aigsim {words} model", steps, output, {"model": model})
    yield Row(f"{name}, the model by standard input", f"aigsim {words} - steps", model, output, {"steps": steps})


def answered(name, words, model, answer, output):
    """A solver's answer, once it and once the model by standard input. The model is read first."""
    yield Row(name, f"aigunroll {words} model --answer -", answer, output, {"model": model})
    words = f"aigunroll {words} - --answer answer"
    yield Row(f"{name}, the model by standard input", words, model, output, {"answer": answer})


def refuted(name, words, model, refutation, output):
    """A refutation, likewise."""
    yield Row(name, f"aigunroll {words} model --refutation -", refutation, output, {"model": model})
    words = f"aigunroll {words} - --refutation proof"
    yield Row(f"{name}, the model by standard input", words, model, output, {"proof": refutation})


def compared(name, words, first, second, miter):
    """A miter, once the second and once the first circuit by standard input."""
    yield Row(name, f"aigmiter {words} first -", second, miter, {"first": first})
    yield Row(f"{name}, the first by standard input", f"aigmiter {words} - second", first, miter, {"second": second})


def strengthened(name, words, model, invariant, clauses):
    """The clauses of an invariant, once it and once the model by standard input."""
    yield Row(name, f"aigunroll {words} model --invariant - --cnf", invariant, clauses, {"model": model})
    words = f"aigunroll {words} - --invariant rows --cnf"
    yield Row(f"{name}, the model by standard input", words, model, clauses, {"rows": invariant})


def proved(name, options, model, invariant, refutation):
    """An invariant and its refutation, with each of the three by standard input."""
    files, said = {"model": model, "rows": invariant, "proof": refutation}, b"never\n"
    for streamed in files:
        words = f"aigunroll {options} model --invariant rows --refutation proof".replace(f" {streamed}", " -")
        others = {it: text for it, text in files.items() if it != streamed}
        yield Row(f"{name}, the {streamed} by standard input", words, files[streamed], said, others)


ROWS = [
    Row("a half adder to binary", "aigtoaig", HALF, HALF_IMAGE),
    Row("a half adder to binary, stripped", "aigtoaig --strip", HALF, HALF_GATES),
    Row("a half adder with its map", "aigtoaig --keep-map", HALF, HALF_MAPPED),
    Row("a half adder by its map", "aigtoaig --undo-map --ascii", HALF_MAPPED, HALF),
    Row("equal operands with their map", "aigtoaig --keep-map", EQUAL, EQUAL_MAPPED),
    Row("equal operands by their map", "aigtoaig --undo-map --ascii", EQUAL_MAPPED, EQUAL),
    Row("the counts of a half adder", "aiginfo", HALF, HALF_COUNTS),
    Row("a part of a half adder", "aigselect --output 1", HALF, b"aig 3 2 0 1 1\n6\n\x02\x02i0 x\ni1 y\no0 c\n"),
    Row("a part of a circuit of each section", "aigselect --ascii --justice 0", EVERY + EVERY_NAMES, EVERY_PART),
    *simulated("a toggle", "", TOGGLE, b"\n\n\n.\n", b"0  01 1\n1  10 0\n0  01 1\n.\n"),
    *simulated("a latch and a gate", "", HELD, b"1\n1\n", b"0 1 1 1\n1 1 0 0\n.\n"),
    *simulated("the dump of a toggle", "--vcd", TOGGLE, b"\n\n\n.\n", TOGGLE_DUMP),
    Row("a latch and a gate, unrolled", "aigunroll --frames 2 --ascii", HELD, HELD_TWICE),
    Row("a latch and a gate, unrolled to binary", "aigunroll --frames 2", HELD, HELD_TWICE_IMAGE),
    Row("a latch and a gate to binary", "aigtoaig", HELD, HELD_IMAGE),
    Row("a latch and a gate in padded deltas", "aigtoaig", HELD_PADDED, HELD_IMAGE),
    Row("a gate far from its operand", "aigtoaig --ascii", FAR_IMAGE, FAR),
    *simulated("two runs", "", HELD_IMAGE, b"1\n.\n1\n.\n", b"0 1 1 1\n.\n0 1 1 1\n.\n"),
    *simulated("steps without latches", "", HALF, b"01\n11\n.\n10\nx0\n" * 6, SUMS),
    *simulated("steps without latches in a batch", "--batch", HALF, b"01\n11\n.\n10\nx0\n" * 6, SUMS),
    *simulated("two runs in a batch", "--batch", HELD_IMAGE, b"1\n.\n1\n.\n", b"0 1 1 1\n.\n0 1 1 1\n.\n"),
    *simulated("a witness", "--witness", BAD, b"1\nb0\n0\n\n\n.\n", b"confirmed 1\n"),
    *simulated("the dump of a witness", "--witness --vcd", BAD, b"1\nb0\n0\n\n\n.\n", BAD_RUN),
    *simulated("a lasso", "--witness", LIVE, LASSO, b"confirmed 2\n"),
    *simulated("a lasso of five steps behind a stem", "--witness", LIVE, b"1\nj0\n0\n1\n0\n1\n0\n0\n1\n.", b"confirmed 1\n"),
    *simulated("the dump of a lasso", "--witness --vcd", LIVE, LASSO, LASSO_RUN),
    Row("every section", "aigtoaig --ascii", EVERY + EVERY_NAMES, EVERY + EVERY_NAMES),
    Row("every section with its map", "aigtoaig --keep-map", EVERY + EVERY_NAMES + b"x", EVERY_MAPPED),
    Row("every section by its map", "aigtoaig --undo-map --ascii", EVERY_MAPPED, EVERY + EVERY_NAMES + b"x"),
    Row("every section with a justice property as a bad state", "aigtoaig --ascii --justice-as-bad 0", EVERY, EVERY_LIVE),
    *simulated("every section simulated", "--properties", EVERY, b"0\n1\n", b"1x 0 x 11 xx x\n11 1 0 01 10 1\n.\n"),
    *simulated("every section in a batch", "--batch --properties", EVERY_MAPPED, b".\n0\n", b".\n1x 0 x 11 xx x\n.\n"),
    *simulated("the dump of every section, in a batch", "--batch --vcd", EVERY_MAPPED, b".\n0\n", EVERY_DUMP),
    Row("clauses", "aigunroll --frames 2 --cnf", KEPT, KEPT_CLAUSES),
    Row("clauses of one bad state", "aigunroll --frames 1 --cnf --bad 1", COMB, COMB_CLAUSES),
    *answered("an answer", "--frames 2", KEPT, b"c\ns SATISFIABLE\r\nv 2 -3\nv 3 0\n", b"1\nb0\n1\n11\n.\n"),
    *answered("an answer for a bad state", "--frames 3 --bad 1", COMB, b"s SATISFIABLE\nv 2 0", b"1\nb1\n\n10\n.\n"),
    *refuted("a refutation", "--frames 1", FOUR, FOUR_REFUTED, b"none within 1\n"),
    *refuted("a binary refutation", "--frames 1", FOUR, FOUR_REFUTED_BINARY, b"none within 1\n"),
    *refuted("a refutation in LRAT", "--frames 1 --lrat", FOUR, FOUR_REFUTED_LRAT, b"none within 1\n"),
    *strengthened("the clauses of an invariant", "", TOKENS, TOKENS_INVARIANT, TOKENS_CLAUSES),
    *proved("an invariant", "", TOKENS, TOKENS_INVARIANT, TOKENS_REFUTED),
    Row("gates that go", "aigtoaig --simplify --ascii", FOLDED + FOLDED_NAMES, SIMPLE + FOLDED_NAMES),
    Row("gates that go, to binary", "aigtoaig --simplify", FOLDED + FOLDED_NAMES + b"x", SIMPLE_IMAGE + FOLDED_NAMES + b"x"),
    Row("a latch and a gate, unrolled and simplified", "aigunroll --simplify --frames 2 --ascii", HELD, HELD_TWICE_SIMPLY),
    Row("simplified clauses", "aigunroll --simplify --frames 2 --cnf", KEPT, KEPT_CLAUSES_LEFT),
    *refuted("a refutation of simplified clauses", "--simplify --frames 1", FOUR, FOUR_REFUTED, b"none within 1\n"),
    *strengthened("the simplified clauses of an invariant", "--simplify", TOKENS, TOKENS_INVARIANT, TOKENS_CLAUSES_LEFT),
    *proved("an invariant by simplified clauses", "--simplify", TOKENS, TOKENS_INVARIANT, b"-5 0\n"),
    *compared("a miter by names, simplified", "--ascii --by-name --simplify", NAMED, NAMED_OTHERWISE, NAMED_ALIKE_SIMPLY),
    *compared("a miter", "--ascii", STARTED, STARTED_OTHERWISE, STARTED_ALIKE),
    *compared("a miter in binary", "", STARTED, STARTED_OTHERWISE, STARTED_ALIKE_IMAGE),
    *compared("a miter by names", "--ascii --by-name", NAMED, NAMED_OTHERWISE, NAMED_ALIKE),
    *simulated("every section and a witness", "--witness", EVERY, b"1\nb1\n1x\n1\n0\n.\n", b"not confirmed\n"),
    *simulated("every section and no lasso", "--witness", EVERY, b"1\nj0\n1x\n1\n0\n.\n", b"not confirmed\n"),
]


def status_of(row):
    """The status with which a row ends well."""
    return 1 if b"not confirmed" in row.output else 0
