"""What a soak asks about: circuits in many spellings, stimuli, and calls of a simulation."""
import dataclasses
import io

from lib import batches, images, traces, unrolled, witnesses
from lib.soak.calls import Call
from lib.soak.editors import LIKELY


def circuit(chance):
    """A circuit without symbols and comment: mostly a small one."""
    kind = chance.randrange(24)
    if kind == 0:
        most = {"most_latches": 40, "most_inputs": 30, "most_gates": chance.choice([60, 300])}
        made = images.circuit(chance, **most)
    elif kind < 8:
        made = unrolled.circuit(chance)
    elif kind < 16:
        made = witnesses.circuit(chance)
    else:
        made = images.circuit(chance)
    return made


def odd_bytes(chance, but=b""):
    """A few bytes, which may be any, or look like lines of a file."""
    some = chance.choice([range(256), LIKELY, b"abc _[0]"])
    return bytes(it for it in chance.choices(some, k=chance.randrange(12)) if it not in but)


def tail(chance, made):
    """Symbols and comment: those of the circuit, or with names and comments of odd bytes."""
    named = [line.encode() for line in images.symbols(chance, made).splitlines()]
    lines = [line.split()[0] + b" " + odd_bytes(chance, b"\n") if chance.randrange(2) else line for line in named]
    comment = images.tail(dataclasses.replace(made, symbols="")).encode()
    if chance.randrange(3) == 0:
        comment = b"c\n" + odd_bytes(chance)
    return b"".join(line + b"\n" for line in lines) + comment


def bare(made):
    return dataclasses.replace(made, symbols="", comment=None)


def line_count(made, is_binary):
    """How many lines there are before the gates of a binary file, or with them in an ASCII file."""
    count = 1 + len(made.latches) + len(images.literal_lines(made))
    return count if is_binary else count + len(made.inputs) + len(made.gates)


def loose_line(chance, line):
    """A line of numbers, spelled in another way. The word of a header has no zeros before it."""
    parts = [chance.choice([b"", b"", b"0", b"000"]) + it if it.isdigit() else it for it in line.split()]
    text = parts[0] + b"".join(chance.choice([b" ", b" ", b"   "]) + it for it in parts[1:])
    return text + chance.choice([b"", b"", b" ", b"  "]) + chance.choice([b"\n", b"\n", b"\r\n"])


def loose_deltas(chance, deltas):
    """Deltas in longer spellings, of up to five bytes."""
    spelled, length = bytearray(), 0
    for byte in deltas:
        length += 1
        if byte < 128:
            more = chance.choice([0, 0, 5 - length, chance.randrange(6 - length)])
            spelled += bytes([byte + 128] + [128] * (more - 1) + [0]) if more else bytes([byte])
            length = 0
        else:
            spelled.append(byte)
    return bytes(spelled)


def loose_tail(chance, text):
    """Symbols and comment with zeros before the positions and spaces behind the line `c`."""
    lines, rest = [], text
    while rest and not rest.startswith(b"c\n"):
        line, _, rest = rest.partition(b"\n")
        lines.append(line[:1] + chance.choice([b"", b"0", b"00"]) + line[1:] + b"\n")
    if rest:
        rest = b"c" + chance.choice([b"", b" "]) + chance.choice([b"\n", b"\r\n"]) + rest[2:]
    return b"".join(lines) + rest


def loosely(chance, made, text, end, is_binary):
    """The text of a circuit in another spelling, with symbols and comment behind it."""
    *lines, gates = text.split(b"\n", line_count(made, is_binary))
    lines[0] += b" 0" * chance.randrange(11 - len(lines[0].split()))
    first_latch = 1 if is_binary else 1 + len(made.inputs)
    for place, reset in enumerate(made.resets, first_latch):
        lines[place] += b" 0" * (reset == "0" and chance.randrange(2))
    spelled = b"".join(loose_line(chance, line) for line in lines) + loose_deltas(chance, gates)
    spelled += loose_tail(chance, end)
    has_plain_end = not gates and (not end or end == b"c\n")
    if has_plain_end and not spelled.endswith(b"\r\n") and chance.randrange(2):
        spelled = spelled[:-1]
    return spelled


def source(chance):
    """A circuit in the numbers of its file, its text, canonical or not, and its canonical ASCII text."""
    made, is_binary = circuit(chance), chance.randrange(2)
    end, made = tail(chance, made), bare(made)
    if is_binary:
        made = images.renumbered(made)
    text, canonical = images.binary_text(made) if is_binary else images.ascii_text(made), images.ascii_text(made) + end
    if chance.randrange(2):
        return made, text + end, canonical
    return made, loosely(chance, made, text, end, is_binary), canonical


def parsed(text):
    """The circuit of a canonical ASCII text, without symbols and comment, and the bytes of these."""
    file = io.BytesIO(text)

    def rows(count):
        return [[int(it) for it in file.readline().split()] for _ in range(count)]

    def numbers(count):
        return [it for [it] in rows(count)]

    counts = [int(it) for it in file.readline().split()[1:]]
    largest, inputs, latches, outputs, gates, bad, constraints, justice, fairness = counts + [0] * (9 - len(counts))
    inputs, latches = numbers(inputs), rows(latches)
    made = images.Circuit(
        largest=largest,
        inputs=[it // 2 for it in inputs],
        latches=[row[0] // 2 for row in latches],
        nexts=[row[1] for row in latches],
        resets=["0" if len(row) == 2 else "1" if row[2] == 1 else "x" for row in latches],
        outputs=numbers(outputs),
        bad=numbers(bad),
        constraints=numbers(constraints),
        justice=[numbers(size) for size in numbers(justice)],
        fairness=numbers(fairness),
        gates=[tuple(row) for row in rows(gates)],
        symbols="",
        comment=None,
    )
    return made, file.read()


def simulation(chance, model, steps, *words):
    """A call of aigsim, with one of the two by its name; and the name of the other one."""
    if chance.randrange(2):
        return Call(["aigsim", *words, "-", "steps"], model, {"steps": steps}), "steps"
    return Call(["aigsim", *words, "model", *chance.choice([[], ["-"]])], steps, {"model": model}), "-"


def stimulus(chance, made):
    """The text of a stimulus: of few runs, or, of a small circuit, now and then of more than go side by side."""
    if len(made.gates) < 20 and not chance.randrange(40):
        lines = batches.stimulus(chance, len(made.inputs), chance.choice([255, 256, 257]))
        return traces.text_of(chance, lines).encode()
    return traces.stimulus(chance, len(made.inputs))[1].encode()


def some_rows(chance, made, most):
    characters = chance.choice(["01", "01x", "0001xx", "x"])
    return ["".join(chance.choices(characters, k=len(made.inputs))) for _ in range(chance.randrange(1, most + 1))]
