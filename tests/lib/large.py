"""Large circuits, and what must be answered to them, all made by rule."""
import itertools
import types

from lib import waves

# lines that are made at once
PIECE = 10_000
# the letters of what a dump shows
SHOWN = "ilobc"


def write(name, *parts):
    """A file of these parts: bytes, or texts that are made one by one."""
    with open(name, "wb") as file:
        for part in parts:
            if isinstance(part, bytes):
                file.write(part)
                continue
            texts = iter(part)
            while piece := "".join(itertools.islice(texts, PIECE)):
                file.write(piece.encode())
    return name


def wide(count, numbers, letters, called="{}"):
    """So many entries of each section, with justice and fairness if there are letters for them, and the gates of these
    numbers. The next state of a latch is an input, and each latch is an output. Each gate is a bad state: the
    conjunction of all inputs up to its own."""
    latch, gate, live = 2 * count + 2, 4 * count + 2, count * ("j" in letters)
    yield f"aag {3 * count}{f' {count}' * 6}{f' {live} {live}' if live else ''}\n"
    yield from (f"{2 * n + 2}\n" for n in range(count))
    yield from (f"{latch + 2 * n} {2 * n + 2}{['', ' 1', f' {latch + 2 * n}'][n % 3]}\n" for n in range(count))
    yield from (f"{latch + 2 * n}\n" for n in range(count))
    yield from (f"{gate + 2 * n}\n" for n in range(count))
    yield from itertools.repeat("1\n", count + live)
    yield from (f"{latch + 2 * n}\n" for n in range(live))
    yield from (f"{2 * n + 3}\n" for n in range(live))
    yield from (f"{gate + 2 * n} {gate + 2 * n - 2 if n else 2} {2 * n + 2}\n" for n in numbers)
    yield from (f"{letter}{n} {called.format(n)}\n" for letter in letters for n in range(count))
    yield "c\nwide\n"


def left_of_wide(count, letters):
    """The wide circuit simplified: its first gate is the first input, and the others move up."""
    latch, gate, live = 2 * count + 2, 4 * count, count * ("j" in letters)
    yield f"aag {3 * count - 1}{f' {count}' * 3} {count - 1}{f' {count}' * 2}{f' {live} {live}' if live else ''}\n"
    yield from (f"{2 * n + 2}\n" for n in range(count))
    yield from (f"{latch + 2 * n} {2 * n + 2}{['', ' 1', f' {latch + 2 * n}'][n % 3]}\n" for n in range(count))
    yield from (f"{latch + 2 * n}\n" for n in range(count))
    yield from (f"{gate + 2 * n if n else 2}\n" for n in range(count))
    yield from itertools.repeat("1\n", count + live)
    yield from (f"{latch + 2 * n}\n" for n in range(live))
    yield from (f"{2 * n + 3}\n" for n in range(live))
    yield from (f"{gate + 2 * n} {gate + 2 * n - 2 if n > 1 else 4} {2 * n + 2 if n > 1 else 2}\n" for n in range(1, count))
    yield from (f"{letter}{n} {n}\n" for letter in letters for n in range(count))
    yield "c\nwide\n"


def reset(count):
    """The first state of the wide circuit."""
    return ("01x" * count)[:count]


def conjunctions(values):
    """The values of its gates, over these inputs."""
    zero, unknown = (values.find(it) % (len(values) + 1) for it in "0x")
    return "1" * min(zero, unknown) + "x" * max(zero - unknown, 0) + "0" * (len(values) - zero)


def trace(count, run):
    """The lines of a run, with properties."""
    state = reset(count)
    for values in run:
        yield f"{state} {values} {state} {values} {conjunctions(values)} {'1' * count}\n"
        state = values
    yield ".\n"


def dump(count, runs, called="{}"):
    """The dump of these runs."""
    positions = range(count)
    kinds = dict.fromkeys(("inputs", "latches", "outputs", "bad", "constraints"), positions)
    made = types.SimpleNamespace(resets=[*reset(count)], **kinds)
    names = {(letter, n): called.format(n).encode() for letter in SHOWN for n in positions}
    return waves.dump(made, names, [line[:-1] for run in runs for line in trace(count, run)], True)


def inputs(count):
    """Some values of so many inputs, with which no bad state is 1 behind the first half, and then all 1."""
    half = count // 2
    return [("1" * half + "0x1x1"[at:] * count)[:count] for at in range(4)] + ["1" * count]


def claim(count):
    """The first lines of a witness that claims the last bad state, from the first state."""
    return f"1\nb{count - 1}\n{reset(count)}\n".encode()


def contradiction(count):
    """So many inputs, of which two would have to have one of their four values, and have none. In clauses these are 2 and 3,
    the gates are count + 2 and more, and the largest variable is count + 9."""
    first, second, gate = 2, 4, 2 * count + 2
    yield f"aag {count + 7} {count} 0 0 7 1\n"
    yield from (f"{2 * at}\n" for at in range(1, count + 1))
    yield f"{gate + 12}\n"
    for at, (left, right) in enumerate(itertools.product((first, first + 1), (second, second + 1))):
        yield f"{gate + 2 * at} {left} {right}\n"
    yield f"{gate + 8} {gate + 1} {gate + 3}\n{gate + 10} {gate + 5} {gate + 7}\n{gate + 12} {gate + 8} {gate + 10}\n"
