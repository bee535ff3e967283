"""Compares the dumps that the program writes with what is worked out here, on circuits with hostile names and on
stimuli and witnesses made by chance.

The circuits are those of images.py, with more inputs, latches, outputs and properties. Their names are buses, whose
indices follow or nearly, words of the dump itself, equal ones, and any bytes. The stimuli are those of traces.py. The
dump of each circuit, of its binary image, of its mapped image and of what is undone, step by step or as a batch, must
be the text that is made here from the trace. A reader, which knows of a circuit only how many of each kind it has, must
get the trace back from the dump; and so from what vcd2fst and fst2vcd make of some dumps, where these are installed
(package gtkwave), with the same words for each signal. The witnesses are those of witnesses.py, and so are the answers
before the dumps of their runs; that of a lasso has one input more. GTKWave, where it and xvfb-run are installed, must
show each signal of a circuit that has all of these names.
"""
import collections
import dataclasses
import random
import re
import shutil
import subprocess
from pathlib import Path

from lib import images, traces, witnesses

CIRCUITS = 400
LARGEST = 2147483647
# of so many of them some go through other programs
EACH = 8
CONVERTERS = ["vcd2fst", "fst2vcd"]
VIEWER = ["xvfb-run", "gtkwave"]
# tells the signals of the dump that GTKWave has loaded
SCRIPT = """for {set at 0} {$at < [gtkwave::getNumFacs]} {incr at} { puts "signal [gtkwave::getFacName $at]" }
exit
"""


# --- the definition ---

# letter, scope and sort of each kind, in the order of a dump; and where its characters are in a line of the trace
Kind = collections.namedtuple("Kind", "letter scope sort column")
KINDS = [
    Kind("i", "inputs", "wire", 1),
    Kind("l", "latches", "reg", 0),
    Kind("o", "outputs", "wire", 2),
    Kind("b", "bad", "wire", 4),
    Kind("c", "constraints", "wire", 5),
]
NEXT = 3
# what is shown of each byte
SHOWN = bytearray(byte if 33 <= byte <= 126 else ord("_") for byte in range(256))
for old, new in zip(b"[]$:", b"()__"):
    SHOWN[old] = new
INDEXED = re.compile(rb"(.+)\[(0|[1-9][0-9]{0,8})\]", re.DOTALL)

# the position of the lowest bit, how many bits there are, and the words
Signal = collections.namedtuple("Signal", "kind first size words")


def counts_of(made):
    """How many there are of each kind, in the order of a dump."""
    return [len(of) for of in (made.inputs, made.latches, made.outputs, made.bad, made.constraints)]


def indexed(name):
    """The front and the index of a name that has one."""
    found = INDEXED.fullmatch(name)
    return (found[1], int(found[2])) if found else None


def signals(made, names):
    """The signals of a circuit. A name is found by its letter and position."""
    for kind, count in zip(KINDS, counts_of(made)):
        called = [names.get((kind.letter, at), b"") for at in range(count)]
        first = 0
        while first < count:
            label, size = indexed(called[first]), 1
            if label:
                front, index = label
                while first + size < count and indexed(called[first + size]) == (front, index + size):
                    size += 1
                bits = f"[{index + size - 1}:{index}]" if size > 1 else f"[{index}]"
                words = front.translate(SHOWN) + b" " + bits.encode()
            else:
                words = called[first].translate(SHOWN) or f"{kind.letter}{first}".encode()
            yield Signal(kind, first, size, words)
            first += size


def head(found):
    """The head of a dump of these signals."""
    lines = [b"$version aiger $end\n$timescale 1 ns $end\n$scope module aiger $end\n$var integer 64 r run $end\n"]
    for kind in KINDS:
        of_kind = [it for it in found if it.kind == kind]
        if of_kind:
            lines.append(b"$scope module %s $end\n" % kind.scope.encode())
            for it in of_kind:
                code = f"{kind.letter}{it.first}".encode()
                lines.append(b"$var %s %d %s %s $end\n" % (kind.sort.encode(), it.size, code, it.words))
            lines.append(b"$upscope $end\n")
    return b"".join([*lines, b"$upscope $end\n$enddefinitions $end\n"])


def frames(made, lines):
    """The frames of the lines of a trace with properties: of each its run, and its characters by letter."""
    reset = "".join(made.resets)
    run, state = 0, reset
    for line in lines:
        if line == ".":
            yield run, {kind.letter: "z" * count for kind, count in zip(KINDS, counts_of(made))} | {"l": state}
            run, state = run + 1, reset
        else:
            columns = line.split(" ")
            yield run, {kind.letter: columns[kind.column] for kind in KINDS}
            state = columns[NEXT]


def dump(made, names, lines, is_done):
    """The dump of these lines of a trace with properties."""
    if not lines and not is_done:
        return b""
    found, text = list(signals(made, names)), []
    old_run, old = None, collections.defaultdict(str)
    for time, (run, values) in enumerate(frames(made, lines)):
        text.append(f"#{time}\n")
        if run != old_run:
            text.append(f"b{run:b} r\n")
        for it in found:
            place = slice(it.first, it.first + it.size)
            bits = values[it.kind.letter][place]
            if bits != old[it.kind.letter][place]:
                value = bits if it.size == 1 else f"b{bits[::-1]} "
                text.append(f"{value}{it.kind.letter}{it.first}\n")
        old_run, old = run, values
    if is_done:
        text.append(f"#{len(lines)}\n")
    return head(found) + "".join(text).encode()


def wanted(made, names, name, lines, is_batch=False):
    """Standard output, standard error and the status for the lines of a stimulus of this name."""
    traced, bad_at = traces.lines_of_trace(made, lines)
    if not bad_at:
        return dump(made, names, [full for _, full in traced], True), b"", 0
    output = b"" if is_batch else dump(made, names, [full for _, full in traced], False)
    return output, f"aiger: {name}: line {bad_at}: bad stimulus line\n".encode(), 1


def marked(made, names, lines):
    """What is shown of a witness of these lines, which is right: of a lasso the circuit with an input more, which is 1
    from the step on at which the loop begins; nothing where no variable is left for that."""
    start = witnesses.start(made, lines) if lines[1].startswith("j") else None
    if start is None:
        return made, names, lines
    if made.largest == LARGEST:
        return None
    more = dataclasses.replace(made, largest=made.largest + 1, inputs=[*made.inputs, made.largest + 1])
    steps = [line + "01"[start <= at] for at, line in enumerate(lines[3:-1])]
    return more, names | {("i", len(made.inputs)): b"loop"}, [*lines[:3], *steps, "."]


def lines_of_run(made, lines):
    """The trace with properties of the run of a witness of these lines, which is right."""
    order, state, traced = images.placed(made.gates), lines[2], []
    for given in lines[3:-1]:
        _, full, state = traces.step(made, order, state, given)
        traced.append(full)
    return [*traced, "."]


def wanted_of_run(made, names, name, text):
    """Standard output, standard error and the status for a witness of this name."""
    answer, errors, status = witnesses.wanted(made, name, text)
    if errors:
        return answer, errors, status
    shown = marked(made, names, witnesses.said(witnesses.lines_of(text)))
    if not shown:
        return b"", f"aiger: {name}: too large\n".encode(), 1
    made, names, lines = shown
    started = dataclasses.replace(made, resets=list(lines[2]))
    run = dump(started, names, lines_of_run(made, lines), True)
    return b"$comment " + answer.rstrip() + b" $end\n" + run, errors, status


# --- the reader ---


class Unreadable(Exception):
    """A dump that is none of this circuit."""


def declared(text):
    """The variables in the head of a dump: of each scope code, size and words, in their order."""
    scopes, path, codes = collections.defaultdict(list), [], set()
    for keyword, inside in re.findall(rb"\$(\w+)\s+(.*?)\s*\$end", text, re.DOTALL):
        words = inside.split()
        if keyword == b"scope":
            path.append(words[1])
        elif keyword == b"upscope":
            path.pop()
        elif keyword == b"var":
            _, size, code, *called = words
            if code in codes:
                raise Unreadable(f"two variables have the code {code!r}")
            codes.add(code)
            scopes[b".".join(path)].append((code, int(size), called))
    return scopes


def played(text):
    """The values by code in each unit of time, up to the last time that is told."""
    units, now = [], {}
    for line in text.split(b"\n"):
        mark, rest = line[:1], line[1:]
        if mark == b"#":
            units += [dict(now) for _ in range(int(rest) - len(units))]
        elif mark == b"b":
            value, code = rest.split(b" ")
            now[code] = value.decode()
        elif mark in (b"0", b"1", b"x", b"z"):
            now[rest] = mark.decode()
        elif line not in (b"", b"$dumpvars", b"$end"):
            raise Unreadable(f"the line {line!r}")
    return units


def trace_of(made, text):
    """The lines of the trace with properties, of which this is the dump."""
    definitions, _, changes = text.partition(b"$enddefinitions $end\n")
    scopes, units = declared(definitions), played(changes)
    [(run, _, _)] = scopes.pop(b"aiger")
    counts = dict(zip(["inputs", "latches", "outputs", "bad", "constraints"], counts_of(made)))
    if {scope: sum(size for _, size, _ in of) for scope, of in scopes.items()} != {
        f"aiger.{scope}".encode(): count for scope, count in counts.items() if count
    }:
        raise Unreadable("a scope has other bits than the circuit")

    def column(scope, unit):
        """What a scope shows in a unit of time, from position 0 on."""
        values = [(unit[code], size) for code, size, _ in scopes.get(f"aiger.{scope}".encode(), [])]
        if any(len(value) != size for value, size in values):
            raise Unreadable(f"a value of another size in {unit}")
        return "".join(value[::-1] for value, _ in values)

    lines = []
    for unit, behind in zip(units, [*units[1:], None]):
        shown = [column(scope, unit) for scope in ("latches", "inputs", "outputs", "bad", "constraints")]
        if behind and int(unit[run], 2) == int(behind[run], 2):
            lines.append(" ".join([*shown[:3], column("latches", behind), *shown[3:]]))
        elif set("".join(shown[1:])) <= {"z"}:
            lines.append(".")
        else:
            raise Unreadable(f"a run that ends with a step, in {unit}")
    return lines


# --- circuits, and hostile names ---

PIECES = [b"a", b"bus", b"$end", b"$var", b"$", b":", b"::", b"[", b"]", b"[]", b"(", b")", b" ", b"\t", b"\r", b"\0"]
PIECES += [b"\x7f", b"\\esc", b"run", b"r", b"i0", b"l12", b"o1", b"x", b"b0 i0", b"#5", b"'", b'"', b"~!", b"\xc3\xa9"]
PIECES += [b"[0]", b"[1]", b"[01]", b"[7:0]", b"[-1]", b"[+1]", b"[ 1]", b"[999999999]", b"[1000000000]"]
PIECES += [b"[4294967296]", b"\xff", b"\x80[1]", b"$auto$rtlil.cc:2560:x"]
INDICES = [0, 0, 0, 1, 4, 7, 9, 98, 999_999_995, 999_999_999, 4_294_967_294]
# fronts of buses, some of which are shown alike
FRONTS = [b"q", b"d", b"m[1]", b"m(1)", b"a b", b"a_b", b"a\xff", b"", b"[", b"$end", b"q[0", b"i0", b"x" * 300]


def odd_name(chance):
    """Any name: no LF stands in one."""
    if chance.randrange(4) == 0:
        return bytes(byte for byte in chance.randbytes(chance.randrange(9)) if byte != 10)
    return b"".join(chance.choices(PIECES, k=chance.choice([0, 1, 1, 1, 2, 3])))


def bus(chance, count):
    """Names of so many positions: those of a bus, nearly, or with a gap."""
    front, index = chance.choice(FRONTS), chance.choice(INDICES)
    step, spelled = chance.choice([1, 1, 1, 1, 1, -1, 0, 2]), chance.choice(["%d", "%d", "%d", "%d", "%02d", "%d:0"])
    called = [front + b"[" + (spelled % abs(index + step * at)).encode() + b"]" for at in range(count)]
    if not chance.randrange(4):
        called[chance.randrange(count)] = odd_name(chance)
    return called


def hostile_names(chance, made):
    """A name for some of what there is, by letter and position."""
    names = {}
    for kind, count in zip(KINDS, counts_of(made)):
        called = []
        while len(called) < count:
            called += bus(chance, chance.choice([1, 2, 3, 5, 11, 40])) if chance.randrange(2) else [odd_name(chance)]
            if not chance.randrange(6):
                called.append(None)
        names |= {(kind.letter, at): it for at, it in enumerate(called[:count]) if it is not None}
    return names


def circuit(chance):
    """A circuit of images.py with more of each kind, and without symbols and comment."""
    made = images.circuit(chance, most_latches=chance.choice([3, 20, 70]), most_inputs=chance.choice([3, 20, 70]))
    some = [0, 1, *(2 * it for it in [*made.inputs, *made.latches]), *(gate[0] for gate in made.gates)]
    lists = [[chance.choice(some) ^ chance.randrange(2) for _ in range(chance.choice([0, 1, 5, 30]))] for _ in range(3)]
    outputs, bad, constraints = lists
    return dataclasses.replace(made, outputs=outputs, bad=bad, constraints=constraints, symbols="", comment=None)


def symbol_lines(chance, names):
    """The symbol lines of these names, in any order."""
    lines = [f"{letter}{at} ".encode() + name + b"\n" for (letter, at), name in names.items()]
    chance.shuffle(lines)
    return b"".join(lines)


def names_of(end):
    """The names in the symbol lines at the beginning of this text, up to its comment, by letter and position."""
    names = {}
    for line in end.split(b"\n"):
        place, space, name = line.partition(b" ")
        if not space:
            break
        names[chr(place[0]), int(place[1:])] = name
    return names


# --- comparison ---


def through_others(made, text, lines, file):
    """What is wrong with the dump once it was made an FST and a dump again, if anything is."""
    dumped, fast = f"{file}.vcd", f"{file}.fst"
    Path(dumped).write_bytes(text)
    subprocess.run([CONVERTERS[0], dumped, fast], capture_output=True, check=True)
    came = subprocess.run([CONVERTERS[1], fast], capture_output=True, check=True).stdout
    words = [{scope: [it[1:] for it in of] for scope, of in declared(it).items()} for it in (text, came)]
    if words[0] != words[1]:
        return f"other words, {words[1]} for {words[0]}"
    return None if trace_of(made, came) == lines else f"another trace, from {came!r}"


def of_dump(made, traced, text, file):
    """What is wrong with this dump of the lines of a trace with properties, if anything is. With a file it goes through
    other programs too."""
    try:
        came = trace_of(made, text)
        if came != traced:
            return f"it is read as {came}"
        # nothing is in the file of a dump without a frame
        return through_others(made, text, traced, file) if file and traced else None
    except (Unreadable, subprocess.CalledProcessError, ValueError, KeyError) as said:
        return f"it is not read: {said!r}"


def judge(program, folder, number, has_others):
    """What is wrong with the dumps of this circuit, if anything is."""
    chance = random.Random(number)
    made = circuit(chance)
    names = hostile_names(chance, made)
    source, steps = images.ascii_text(made) + symbol_lines(chance, names), Path(folder) / f"steps.{number}"
    lines, given = traces.stimulus(chance, len(made.inputs))
    steps.write_bytes(given.encode())
    mapped = traces.converted(program, source, "--keep-map")
    others = [traces.converted(program, source), mapped, traces.converted(program, mapped, "--undo-map", "--ascii")]
    for model, words in ((source, []), (others[number % 3], []), (source, ["--batch"])):
        should = wanted(made, names, steps, lines, bool(words))
        came = traces.ran(program, model, "aigsim", "--vcd", *words, "-", str(steps))
        if came != should:
            return f"{model!r} over {given!r}, {words}: wanted {should!r}, came {came!r}"
    text, _, status = wanted(made, names, steps, lines)
    file = Path(folder) / f"dump.{number}" if has_others and number % EACH == 0 else None
    traced = [full for _, full in traces.lines_of_trace(made, lines)[0]]
    said = of_dump(made, traced, text, file) if status == 0 else None
    if said:
        return f"{source!r} over {given!r}, the dump {text!r}: {said}"
    # an image has no unused variables
    used = len(made.inputs) + len(made.latches) + len(made.gates)
    largest = made.largest if number % 3 == 2 else used
    models = [(others[number % 3], dataclasses.replace(made, largest=largest)), (source, made)]
    return judge_run(program, folder, number, names, models, file)


def judge_run(program, folder, number, names, models, file):
    """What is wrong with the dumps of a witness's run, of a circuit in some texts, if anything is."""
    given, witness = witnesses.given(random.Random(number), models[0][1]), Path(folder) / f"witness.{number}"
    witness.write_bytes(given.encode())
    for model, made in models:
        should = wanted_of_run(made, names, witness, given)
        came = traces.ran(program, model, "aigsim", "--witness", "--vcd", "-", str(witness))
        if came != should:
            return f"{model!r} and the witness {given!r}: wanted {should!r}, came {came!r}"
    text, errors, _ = should
    if errors:
        return None
    made, _, lines = marked(made, names, witnesses.said(witnesses.lines_of(given)))
    said = of_dump(made, lines_of_run(made, lines), text, file)
    return f"{model!r} and the witness {given!r}, the dump {text!r}: {said}" if said else None


def seen_by_viewer(text, folder):
    """The signals that GTKWave shows of a dump, sorted. It has no space before an index, marks equal names, and puts a
    backslash before a name in which it sees something."""
    dumped, script = Path(folder) / "names.vcd", Path(folder) / "names.tcl"
    dumped.write_bytes(text)
    script.write_text(SCRIPT, encoding="ascii")
    server, viewer = VIEWER
    words = [server, "--auto-servernum", viewer, "--script", str(script), str(dumped)]
    said = subprocess.run(words, capture_output=True, cwd=folder, timeout=60, check=False).stdout
    return sorted(it.replace(b"\\", b"") for it in re.findall(rb"^signal (?:\$DUP\d+\.)?(.*)$", said, re.MULTILINE))


def judge_viewer(folder):
    """What is wrong with what GTKWave shows of a circuit whose inputs have all of these names, if anything is."""
    called = [*PIECES, *FRONTS, *(front + b"[%d]" % at for front in FRONTS for at in (3, 4, 5, 9))]
    names = {("i", at): name for at, name in enumerate(called)}
    made = dataclasses.replace(circuit(random.Random(1)), inputs=list(range(1, len(called) + 1)))
    words = [b".".join([it.kind.scope.encode(), re.sub(rb"[ \\]", b"", it.words)]) for it in signals(made, names)]
    text = dump(made, names, ["."], True)
    came = seen_by_viewer(text, folder)
    if came == sorted(b"aiger." + it for it in [*words, b"run"]):
        return None
    return f"GTKWave shows {came} of the dump {text!r}"


def is_there(tools):
    return all(map(shutil.which, tools))


def cases(program, folder):
    for number in range(CIRCUITS):
        yield judge, program, folder, number, is_there(CONVERTERS)
    if is_there(VIEWER):
        yield judge_viewer, folder


def left_out():
    """How many comparisons are left out, and why."""
    for count, tools in ((len(range(0, CIRCUITS, EACH)), CONVERTERS), (1, VIEWER)):
        if not is_there(tools):
            yield count, f"{' or '.join(tools)} is not installed, to read dumps"
