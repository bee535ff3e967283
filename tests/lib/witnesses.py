"""Compares what the program answers to witnesses with a plain evaluation, on circuits and witnesses made by chance.

The circuits are those of images.py, nearly all of them with bad states, and many with justice properties. For each a
witness is judged: a run of some steps over 0, 1 and x, from first values that agree with the resets, for a bad state or
a justice property. Half of the witnesses are then spoiled: cut after some byte, or with a line left out, put in,
exchanged or changed. The answer, or the number of the first line that is wrong, must be what is worked out here, for
the circuit as ASCII with the witness by its name, and for the binary image or the mapped image with the witness by
standard input.
"""
import dataclasses
import random
from pathlib import Path

from lib import images, traces

CIRCUITS = 2000
LINES = ["", ".", "0", "1", "x", "b0", "b1", "b00", "b", "b2147483648", "01", "..", " ", "1 ", "10x", "c"]
COMMENTS = ["c", "c 1", "cb0", "c.", "c\t\0", "c" + 65535 * "1"]
LINES += ["j0", "j1", "j00", "j", "j2147483648", "c", "cb0", "c.", "c" + 65536 * "1"]


def lines_of(text):
    """The lines of a text. A last one without line feed counts if it is not empty, and keeps its CR."""
    *ended, rest = text.split("\n")
    return [line.removesuffix("\r") for line in ended] + [rest] * bool(rest)


def agrees(made, line):
    """Whether a line has one value for each latch, at which it may start."""
    starts = ["01x" if reset == "x" else reset for reset in made.resets]
    return len(line) == len(starts) and all(value in some for value, some in zip(line, starts))


def properties(made):
    """What a second line may be."""
    return [f"{letter}{at}" for letter, of in (("b", made.bad), ("j", made.justice)) for at in range(len(of))]


def is_comment(line):
    """Whether a line says nothing."""
    return line.startswith("c") and len(line) <= 65536


def said(lines):
    """The lines that are no comments."""
    return [line for line in lines if not is_comment(line)]


def wrong_line(made, lines):
    """The number of the first line that is not as a witness of the circuit has it, comments counted, if there is one."""
    places = [number for number, line in enumerate(lines, 1) if not is_comment(line)] + [len(lines) + 1]
    number = wrong_said(made, said(lines))
    return number and places[number - 1]


def wrong_said(made, lines):
    """The same where none is a comment."""
    if lines[:1] != ["1"]:
        return 1
    if not set(lines[1:2]) & set(properties(made)):
        return 2
    if len(lines) < 3 or not agrees(made, lines[2]):
        return 3
    for number, line in enumerate(lines[3:], 4):
        if line == ".":
            return number + 1 if number < len(lines) else None
        if len(line) != len(made.inputs) or not set(line) <= set("01x"):
            return number
    return len(lines) + 1


def start(made, lines):
    """The step at which the loop of a lasso begins, if these lines are one: the first at which one does."""
    goals = made.justice[int(lines[1][1:])] + made.fairness
    order, states, seen = images.placed(made.gates), [lines[2]], []
    for given in lines[3:-1]:
        _, shown, state = traces.step(dataclasses.replace(made, bad=goals), order, states[-1], given)
        *_, met, constraints = shown.split(" ")
        if set(constraints) - {"1"}:
            return None
        states.append(state)
        seen.append(met)
    for at in range(len(seen)):
        if states[at] == states[-1] and all("1" in of for of in zip(*seen[at:])):
            return at
    return None


def answer(made, lines):
    """What is answered to a witness of the right form."""
    if lines[1].startswith("j"):
        at = start(made, lines)
        return "not confirmed" if at is None else f"confirmed {at}"
    order, position, state = images.placed(made.gates), int(lines[1][1:]), lines[2]
    for number, given in enumerate(lines[3:-1]):
        _, shown, state = traces.step(made, order, state, given)
        *_, bad, constraints = shown.split(" ")
        if set(constraints) - {"1"}:
            break
        if bad[position] == "1":
            return f"confirmed {number}"
    return "not confirmed"


def wanted(made, name, text):
    """Standard output, standard error and the status for this witness."""
    lines = lines_of(text)
    number = wrong_line(made, lines)
    if number:
        return b"", f"aiger: {name}: line {number}: bad witness line\n".encode(), 1
    told = answer(made, said(lines))
    return f"{told}\n".encode(), b"", 0 if told.startswith("confirmed") else 1


def circuit(chance):
    """A circuit; one without bad states mostly gets some, which are inputs, latches and gates or their negations."""
    made = images.circuit(chance)
    variables = [*made.inputs, *made.latches, *(own // 2 for own, _, _ in made.gates)]
    if made.bad or not variables or not chance.randrange(10):
        return made
    bad = [2 * it + chance.randrange(2) for it in chance.choices(variables, k=chance.randrange(1, 13))]
    return dataclasses.replace(made, bad=bad)


def witness(chance, made):
    """The lines of a witness."""
    characters = chance.choice(["01", "01x", "0001xx", "111110x", "0"])
    state = "".join(chance.choice(characters) if reset == "x" else reset for reset in made.resets)
    steps = ["".join(chance.choices(characters, k=len(made.inputs))) for _ in range(chance.randrange(9))]
    return ["1", chance.choice(properties(made) or ["b0", "j0"]), state, *steps, "."]


def spoiled(chance, lines):
    """The lines, with one of them not as it was."""
    place, how = chance.randrange(len(lines)), chance.randrange(5)
    before, line, behind = lines[:place], lines[place], lines[place + 1 :]
    if how == 0:
        return before + behind
    if how == 1:
        return [*before, line, chance.choice(LINES), *behind]
    if how == 2:
        return [*before, chance.choice(LINES), *behind]
    if how == 3:
        return [*before, line + chance.choice("01x.b \r"), *behind]
    return [*behind, line, *before]


def text_of(chance, lines):
    """A text of these lines, with some line ends or others; the last one may have none."""
    ends = ["\r\n" if chance.randrange(4) == 0 else "\n" for _ in lines]
    if lines and not chance.randrange(4):
        ends[-1] = chance.choice(["", "", "\r"])
    return "".join(map("".join, zip(lines, ends)))


def commented(chance, lines):
    """The lines, with comments between some of them."""
    return [line for it in lines for line in [*chance.choices(COMMENTS, k=chance.choice([0, 0, 1, 3])), it]]


def given(chance, made):
    """The text of a witness, or of what is nearly one."""
    lines = witness(chance, made)
    lines = commented(chance, lines) if not chance.randrange(3) else lines
    how = chance.randrange(6)
    text = text_of(chance, spoiled(chance, lines) if how < 2 else lines)
    return text[: chance.randrange(len(text) + 1)] if how == 2 else text


def judge(program, folder, number):
    """What is wrong with the answers for this circuit, if anything is."""
    chance = random.Random(number)
    made = circuit(chance)
    text, source = given(chance, made), images.ascii_text(made)
    model, file = Path(folder) / f"model.{number}", Path(folder) / f"witness.{number}"
    model.write_bytes(traces.converted(program, source, *chance.choice([[], ["--keep-map"]])))
    file.write_bytes(text.encode())
    by_name = traces.ran(program, source, "aigsim", "--witness", "-", str(file))
    by_stream = traces.ran(program, text.encode(), "aigsim", "--witness", str(model))
    for came, name in ((by_name, file), (by_stream, "-")):
        if came != wanted(made, name, text):
            return f"{source!r} over {text!r}: wanted {wanted(made, name, text)!r}, came {came!r}"
    model.unlink()
    file.unlink()
    return None


def cases(program, folder):
    for number in range(CIRCUITS):
        yield judge, program, folder, number
