"""What the program says where it refuses: which kinds of lines there are on standard error, and of which kind a
line is."""
import re

# of a file, of its map, of what it is used for, and of devices: behind the file's name. Each number is N.
OF_FILES = """line N: not an AIGER file
line N: bad header
line N: number above the limit
line N: bad line
line N: not a variable
line N: literal out of range
line N: bad reset
line N: file ends too early
gate N: file ends too early
gate N: bad delta
line N: bad symbol line
line N: symbol position out of range
line N: symbol given twice
variable N defined twice
literal N not defined
gate N depends on a cycle""".split("\n")
OF_MAPS = """not in binary order
no map
map line N: bad line
map counts differ
map does not belong to this circuit""".split("\n")
OF_USE = """bad states are there already
justice or fairness cannot be unrolled
too large to unroll
no bad states
no bad state N
no justice property N
no output N
no constraint N
no fairness constraint N
N gates, more than --gates; draw less with --cone, or raise --gates
line N: bad stimulus line
line N: bad witness line
line N: bad answer line
unsatisfiable
unknown
no bad state is reached
line N: does not follow
no refutation
line N: not a character for each latch
line N: met by a first state
too large
justice or fairness cannot be compared
not as many inputs
not as many outputs and bad states
too large to compare
input N: no name
output N: no name
bad state N: no name
input N: name given twice
output N: name given twice
bad state N: name given twice
input N: no such name in the other file
output N: no such name in the other file
bad state N: no such name in the other file""".split("\n")
OF_DEVICES = ["cannot read", "cannot write"]
NAMED = [*OF_FILES, *OF_MAPS, *OF_USE, *OF_DEVICES]
# of memory and of arguments, without a name; and what clap refuses, in words of its own
OF_MEMORY = "out of memory"
OF_ARGUMENTS = """--keep-map needs binary output
--keep-map excludes --strip
--keep-map excludes --undo-map
--keep-map excludes --simplify
--outputs-as-bad excludes --keep-map
--outputs-as-bad excludes --undo-map
--justice-as-bad excludes --outputs-as-bad, --keep-map and --undo-map
model and stimulus are both standard input
compressed output is not supported: use aiger COMMAND .. - | gzip > FILE.gz
compressed output is not supported: use aiger COMMAND .. - | xz > FILE.xz
compressed output is not supported: use aiger COMMAND .. - | zstd > FILE.zst
compressed output is not supported: use aiger COMMAND .. - | bzip2 > FILE.bz2
compressed input is not supported: use gzip -dc FILE.gz | aiger COMMAND .. - ..
compressed input is not supported: use xz -dc FILE.xz | aiger COMMAND .. - ..
compressed input is not supported: use zstd -dc FILE.zst | aiger COMMAND .. - ..
compressed input is not supported: use bzip2 -dc FILE.bz2 | aiger COMMAND .. - ..
--witness stands alone
--vcd excludes --properties
--cnf excludes --ascii
--answer excludes --cnf and --ascii
--refutation excludes --cnf, --ascii and --answer
--bad excludes --justice
--bad needs --cnf, --answer or --refutation
--justice needs --cnf, --answer or --refutation
--lrat needs --refutation
--output, --bad or --justice is needed
--cone needs o, b, c, j or f and a position: o0 is the first output, b0 the first bad state
--all-steps needs --cone
model and answer are both standard input
model and refutation are both standard input
--frames or --invariant is needed
--invariant excludes --frames, --ascii and --answer
--invariant needs --cnf or --refutation
model and invariant are both standard input
invariant and refutation are both standard input
both circuits are standard input
--sync needs the name of a destination
an argument is not UTF-8 text""".split("\n")
BY_CLAP = "error: .."
# and of arguments, where the standard output is a terminal
TO_TERMINAL = "binary output to a terminal is refused: name a file, or use --ascii or --force"
ALL = [*NAMED, OF_MEMORY, *OF_ARGUMENTS, BY_CLAP, TO_TERMINAL]


def form_of(kind):
    """What standard error is where a refusal is of this kind. Of a file that a device is, it may say why."""
    if kind == BY_CLAP:
        return re.compile("error: .*", re.DOTALL)
    name = "[^\n]*: " if kind in NAMED else ""
    words = re.sub(r"\bN\b", r"\\d+", re.escape(kind))
    why = "(?:: [^\n]+)?" if kind in OF_DEVICES else ""
    return re.compile(f"aiger: {name}{words}{why}\n")


FORMS = {kind: form_of(kind) for kind in ALL}


def kind_of(errors):
    """The kind of a refusal by all that is on standard error, if it is one."""
    said = errors.decode("latin-1")
    return next((kind for kind, form in FORMS.items() if form.fullmatch(said)), None)
