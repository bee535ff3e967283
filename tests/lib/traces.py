"""Compares the traces that the program writes with those of a plain evaluation, on circuits and stimuli made by chance.

The circuits are those of images.py: with shuffled gates, and half of them with resets, bad states, constraints, justice
properties and fairness constraints. A stimulus has some runs of some steps over 0, 1 and x; some of them have a bad line. The
trace of each circuit, of its binary image, of its mapped image and of what is undone from that must be the text that is worked
out here, value by value, from the circuit's own equations.
"""
import random
import subprocess
from pathlib import Path

from lib import images

CIRCUITS = 2000
NOT = {"0": "1", "1": "0", "x": "x"}


def conjunction(left, right):
    if "0" in (left, right):
        return "0"
    return "1" if (left, right) == ("1", "1") else "x"


def values(at, literals):
    """The values of literals, where variables have these."""
    return "".join(NOT[at[it // 2]] if it % 2 else at[it // 2] for it in literals)


def step(made, order, state, given):
    """The lines of a step, without and with properties, and its next state. The gates are evaluated in this order."""
    at = {0: "0", **dict(zip(made.inputs, given)), **dict(zip(made.latches, state))}
    for own, *operands in order:
        at[own // 2] = conjunction(*values(at, operands))
    following = values(at, made.nexts)
    plain = f"{state} {given} {values(at, made.outputs)} {following}"
    return plain, f"{plain} {values(at, made.bad)} {values(at, made.constraints)}", following


def lines_of_trace(made, lines):
    """What is traced of the lines of a stimulus, up to the first bad one, as pairs without and with properties; and the number
    of that line."""
    order, reset = images.placed(made.gates), "".join(made.resets)
    state, traced, has_step = reset, [], False
    for number, line in enumerate(lines, 1):
        if line == ".":
            traced.append((".", "."))
            state, has_step = reset, False
        elif len(line) == len(made.inputs) and set(line) <= set("01x"):
            plain, full, state = step(made, order, state, line)
            traced.append((plain, full))
            has_step = True
        else:
            return traced, number
    return traced + [(".", ".")] * has_step, None


def texts(made, lines):
    """The texts of a trace without and with properties, up to the first bad line; and the number of that line."""
    traced, bad_at = lines_of_trace(made, lines)
    return tuple("".join(f"{line[which]}\n" for line in traced).encode() for which in (0, 1)), bad_at


def stimulus(chance, inputs):
    """The lines of a stimulus, and its text."""
    characters, lines = chance.choice(["01", "01x", "0001xx", "x"]), []
    for _ in range(chance.randrange(4)):
        lines += ["".join(chance.choices(characters, k=inputs)) for _ in range(chance.randrange(7))] + ["."]
    if chance.randrange(2) and lines:
        lines.pop()
    if not chance.randrange(8):
        lines.insert(chance.randrange(len(lines) + 1), bad_line(chance, inputs))
    return lines, text_of(chance, lines)


def bad_line(chance, inputs):
    return chance.choice(["0" * (inputs + 1), "y", " ", "..", ". ", "1" * (inputs + 9)])


def text_of(chance, lines):
    """The text of a stimulus of these lines, with some line ends or others."""
    ends = ["\r\n" if chance.randrange(4) == 0 else "\n" for _ in lines]
    # a last step without inputs is nothing without its line feed
    if lines and lines[-1] and chance.randrange(2):
        ends[-1] = ""
    return "".join(map("".join, zip(lines, ends)))


def ran(program, text, *words):
    """Standard output, standard error and the status."""
    done = subprocess.run([program, *words], input=text, capture_output=True, check=False)
    return done.stdout, done.stderr, done.returncode


def converted(program, text, *words):
    output, errors, status = ran(program, text, "aigtoaig", *words)
    if (errors, status) != (b"", 0):
        raise ValueError(f"{words} does not take {text!r}: {errors!r}")
    return output


def judge(program, folder, number, made, lines, given):
    """What is wrong with the traces of this circuit, if anything is."""
    source, steps = images.ascii_text(made), Path(folder) / f"steps.{number}"
    mapped = converted(program, source, "--keep-map")
    models = [source, converted(program, source), mapped, converted(program, mapped, "--undo-map", "--ascii")]
    steps.write_bytes(given.encode())
    (plain, full), bad_at = texts(made, lines)
    errors = f"aiger: {steps}: line {bad_at}: bad stimulus line\n".encode() if bad_at else b""
    # with properties, which shows all the columns, of all four; and without of one of them in turn
    asked = [(model, ["--properties"], full) for model in models] + [(models[number % len(models)], [], plain)]
    for model, words, wanted in asked:
        came = ran(program, model, "aigsim", *words, "-", str(steps))
        if came != (wanted, errors, 1 if bad_at else 0):
            return f"{model!r} over {given!r}: wanted {wanted!r} and {errors!r}, came {came!r}"
    steps.unlink()
    return None


def cases(program, folder):
    chance = random.Random(18)
    for number in range(CIRCUITS):
        made = images.circuit(chance)
        yield judge, program, folder, number, made, *stimulus(chance, len(made.inputs))
