"""Compares the traces that the program writes with --batch with those that it writes without, on circuits and stimuli made
by chance.

The circuits are those of images.py, some with more inputs or latches, and some with so many gates, each over variables near
before it, that their variables need few places of a table. A stimulus has some runs, as many as go side by side or
not, of 0 to 40 steps each in any mixture. The text must be the same byte for byte, without and with properties; of short
stimuli it must be the one of the plain evaluation of traces.py too. Then one of the lines is made bad, the first, the last or
any other: with --batch nothing may be written, and the line must be told.
"""
import random
from pathlib import Path

from lib import images, traces

CIRCUITS = 140
RUNS = [0, 1, 2, 255, 256, 257, 600]
LENGTHS = [range(41), [0, 40], [0, 0, 0, 1, 2], [39, 40], [0], [1], [7]]
# of a stimulus of so many lines at most the trace is evaluated here too
EVALUATED = 3000


def stimulus(chance, inputs, runs):
    """The lines of so many runs, the last of which may not be ended."""
    characters, lengths, lines = chance.choice(["01", "01x", "0001xx", "x"]), chance.choice(LENGTHS), []
    for length in chance.choices(lengths, k=runs):
        lines += ["".join(chance.choices(characters, k=inputs)) for _ in range(length)] + ["."]
    if chance.randrange(2) and lines:
        lines.pop()
    return lines


def with_bad_line(chance, inputs, lines):
    """The lines with a bad one among them, and its number. Others behind it may be bad too."""
    place = chance.choice([0, len(lines) // 2, len(lines), chance.randrange(len(lines) + 1)])
    bad = traces.bad_line(chance, inputs)
    behind = [bad if chance.randrange(50) == 0 else line for line in lines[place:]]
    return [*lines[:place], bad, *behind], place + 1


def judge(program, folder, number, chance):
    """What is wrong with the traces of this circuit, if anything is."""
    most, reach = chance.choice([(11, None), (11, None), (400, 6), (400, 30)])
    most_latches, most_inputs = chance.choice([3, 3, 70]), chance.choice([4, 4, 70])
    made = images.circuit(chance, most_latches=most_latches, most_inputs=most_inputs, most_gates=most, reach=reach)
    lines = stimulus(chance, len(made.inputs), RUNS[number % len(RUNS)])
    steps = Path(folder) / f"steps.{number}"
    given = traces.text_of(chance, lines)
    steps.write_bytes(given.encode())
    model = images.ascii_text(made)
    if chance.randrange(2):
        model = traces.converted(program, model)
    # the two texts, without and with properties, where they are evaluated
    wanted = traces.texts(made, lines)[0] if len(lines) <= EVALUATED else (None, None)
    for words, text in (([], wanted[0]), (["--properties"], wanted[1])):
        alone = traces.ran(program, model, "aigsim", *words, "-", str(steps))
        came = traces.ran(program, model, "aigsim", "--batch", *words, "-", str(steps))
        if text is not None and alone != (text, b"", 0):
            return f"{model!r} over {given!r}: wanted {text!r}, came {alone!r}"
        if came != alone:
            return f"{model!r} over {given!r}, {words}: came {alone!r}, and with --batch {came!r}"
    lines, bad_line = with_bad_line(chance, len(made.inputs), lines)
    given = traces.text_of(chance, lines)
    steps.write_bytes(given.encode())
    came = traces.ran(program, model, "aigsim", "--batch", "-", str(steps))
    if came != (b"", f"aiger: {steps}: line {bad_line}: bad stimulus line\n".encode(), 1):
        return f"{model!r} over {given!r}: wanted line {bad_line}, came {came!r}"
    steps.unlink()
    return None


def cases(program, folder):
    for number in range(CIRCUITS):
        yield judge, program, folder, number, random.Random(number)
