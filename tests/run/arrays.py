#!/usr/bin/env python3
"""Circuits as arrays, in the library libaigtools: what it reads, writes and steps, beside the program and the plain model of
tests/lib/arrays.py. Its inputs are the rows of tests/rows/all.sh, the same changed by chance, circuits made by chance, and
arrays that are wrong. All arrays stand where a page begins or ends beside one that no one may touch.

    tests/run/arrays.py FOLDER PROGRAM     FOLDER holds libaigtools.so.1, as release/library makes it
"""
import ctypes
import mmap
import os
import random
import subprocess
import sys
import tempfile
from array import array
from concurrent.futures import ThreadPoolExecutor
from pathlib import Path

sys.dont_write_bytecode = True
sys.path[0] = str(Path(__file__).resolve().parent.parent)
from lib import arrays, counts, images, large
from lib.arrays import NUMBERS
from lib.texts import mutated, rows

TOP = arrays.TOP
SEED, MUTANTS, CIRCUITS, EDITS, STEP_EDITS = 11, 2000, 1000, 100_000, 20_000
# circuits of some hundred gates, of which a third may have cycles
LARGER = 100
# edits whose text the program converts too
PROGRAM_EDITS = 400
# what a large circuit has of each kind
LINES = 20_000
UNTOUCHED = b"\xaa"
ROOM = 1 << 16
LARGEST = arrays.LARGEST

passed, wrong = 0, []


def judge(name, holds, *details):
    """Counts a check, and says what went wrong."""
    global passed
    if holds:
        passed += 1
    elif len(wrong) < 40:
        wrong.append(f"{name}: {' '.join(repr(it)[:400] for it in details)}")


class Outcome(ctypes.Structure):
    _fields_ = [(name, ctypes.c_uint32) for name in ("status", "kind", "place", "subject")]
    _fields_ += [(name, ctypes.c_uint64) for name in ("number", "length")]

    def fault(self):
        return self.kind, self.place, self.number, self.subject


class Counts(ctypes.Structure):
    _fields_ = [(name, ctypes.c_uint32) for name in arrays.Counts._fields[:12]]
    _fields_ += [(name, ctypes.c_uint64) for name in arrays.Counts._fields[12:]]


class Memory:
    """Bytes between two pages that no one may touch. An array stands at the front of it, or at its end."""

    def __init__(self, size):
        page = mmap.PAGESIZE
        self.size = -(-size // page) * page
        self.held = mmap.mmap(-1, self.size + 2 * page)
        base = ctypes.addressof(ctypes.c_char.from_buffer(self.held))
        self.begin, self.end = base + page, base + page + self.size
        for address in (base, self.end):
            if ctypes.CDLL(None, use_errno=True).mprotect(ctypes.c_void_p(address), ctypes.c_size_t(page), 0):
                raise OSError(ctypes.get_errno(), "mprotect")

    def put(self, data, at_front=False):
        """Where an array of these bytes stands now."""
        address = self.begin if at_front else self.end - len(data)
        ctypes.memmove(address, data, len(data))
        return address

    def room(self, length, at_front=False):
        """Where so many untouched bytes stand now."""
        return self.put(UNTOUCHED * length, at_front)


class Library:
    """The calls, over memory whose ends are watched. Each gives the status, the fault, the length, and what was written."""

    def __init__(self, path):
        self.library = ctypes.CDLL(path)
        number, size, address = ctypes.c_uint32, ctypes.c_size_t, ctypes.c_void_p
        array_of, text = (address, size), (ctypes.c_char_p, size)
        counts_at, outcome_at = ctypes.POINTER(Counts), ctypes.POINTER(Outcome)
        for name, *arguments in (
            ("convert", number, number, *text, *array_of, outcome_at),
            ("simulate", number, number, *text, *text, *array_of, outcome_at),
            ("read", number, number, *array_of, *array_of, *array_of, counts_at, outcome_at),
            ("write", number, counts_at, *array_of, *array_of, *array_of, outcome_at),
            ("step", counts_at, *array_of, *array_of, outcome_at),
            ("message", outcome_at, *array_of),
        ):
            getattr(self.library, f"aigtools_{name}").argtypes = arguments
            getattr(self.library, f"aigtools_{name}").restype = size if name == "message" else number
        self.grow(ROOM)

    def grow(self, size):
        """Memory for arrays of so many bytes."""
        self.words, self.bytes, self.output, self.text = (Memory(size) for _ in range(4))

    def fit(self, *sizes):
        if max(sizes) > self.words.size:
            self.grow(max(sizes))

    def converted(self, text, options=0, limit=LARGEST):
        """The text of a conversion, or the status and the fault of the text."""
        outcome, room = Outcome(), 4 * len(text) + 64
        while True:
            output = bytearray(room)
            at = ctypes.addressof(ctypes.c_char.from_buffer(output))
            status = self.library.aigtools_convert(options, limit, text, len(text), at, room, outcome)
            if status == NUMBERS["DONE"]:
                return bytes(output[: outcome.length])
            if status != NUMBERS["TOO_SHORT"]:
                return (status, *outcome.fault())
            room = outcome.length

    def traced(self, text, stimulus):
        """The trace of a stimulus, with properties."""
        outcome, output = Outcome(), bytearray(ROOM)
        at, options = ctypes.addressof(ctypes.c_char.from_buffer(output)), NUMBERS["PROPERTIES"]
        self.library.aigtools_simulate(options, LARGEST, text, len(text), stimulus, len(stimulus), at, ROOM, outcome)
        return bytes(output[: outcome.length])

    def read(self, text, words_length, bytes_length, options=0, limit=LARGEST, at_front=False):
        """Reads a text into arrays of these lengths."""
        self.fit(len(text), 4 * words_length, bytes_length)
        words, data = self.words.room(4 * words_length, at_front), self.bytes.room(bytes_length, at_front)
        outcome, told = Outcome(), Counts.from_buffer_copy(UNTOUCHED * ctypes.sizeof(Counts))
        status = self.library.aigtools_read(
            options, limit, self.text.put(text), len(text), words, words_length, data, bytes_length, told, outcome
        )
        judge("the status is that of the outcome", status == outcome.status, text)
        came = ctypes.string_at(words, 4 * words_length), ctypes.string_at(data, bytes_length)
        return status, outcome.fault(), outcome.length, bytes(told), *came

    def write(self, options, n, words, data, room, at_front=False):
        """Writes a circuit to an output of this length."""
        packed, outcome = array("I", words).tobytes(), Outcome()
        self.fit(len(packed), len(data), room)
        words_at, bytes_at = self.words.put(packed, at_front), self.bytes.put(data, at_front)
        output = self.output.room(room, at_front)
        status = self.library.aigtools_write(
            options, Counts(*n), words_at, len(words), bytes_at, len(data), output, room, outcome
        )
        judge("the status is that of the outcome", status == outcome.status, n)
        return status, outcome.fault(), outcome.length, ctypes.string_at(output, room)

    def message(self, *fault):
        """The words for a fault."""
        output = self.output.room(80)
        length = self.library.aigtools_message(Outcome(REFUSED, *fault, 0), output, 80)
        return ctypes.string_at(output, length).decode()

    def step(self, n, words, values, at_front=False):
        """Steps these values."""
        packed, outcome = array("I", words).tobytes(), Outcome()
        self.fit(len(packed), len(values))
        words_at, values_at = self.words.put(packed, at_front), self.output.put(values, at_front)
        status = self.library.aigtools_step(Counts(*n), words_at, len(words), values_at, len(values), outcome)
        judge("the status is that of the outcome", status == outcome.status, n)
        return status, outcome.fault(), outcome.length, ctypes.string_at(values_at, len(values))


NO_FAULT = (0, 0, 0, 0)
DONE, TOO_SHORT, REFUSED = NUMBERS["DONE"], NUMBERS["TOO_SHORT"], NUMBERS["REFUSED"]
BAD_OPTIONS = NUMBERS["BAD_OPTIONS"]
NO_COUNTS = UNTOUCHED * ctypes.sizeof(Counts)


def untouched(words_length, bytes_length):
    return UNTOUCHED * 4 * words_length, UNTOUCHED * bytes_length


def check_refused(library, text, why, at_front):
    """A text that is refused is refused as in a conversion, and arrays and counts are as they were."""
    for options in (0, NUMBERS["ORDERED"]):
        came = library.read(text, 64, 64, options, at_front=at_front)
        judge("what is refused", came == (why[0], why[1:], 0, NO_COUNTS, *untouched(64, 64)), text, came, why)


def check_rooms(library, text, options, n, words, data, at_front):
    """A text that is right, with room for all, for one more, and for one less of words or of bytes."""
    told, packed = bytes(Counts(*n)), array("I", words).tobytes()
    for more in (0, 1):
        came = library.read(text, len(words) + more, len(data) + more, options, at_front=at_front)
        wanted = DONE, NO_FAULT, len(words), told, packed + UNTOUCHED * 4 * more, data + UNTOUCHED * more
        judge("the arrays", came == wanted, text, came, wanted)
    for less in {(min(len(words), 1), 0), (0, min(len(data), 1)), (len(words), 0), (len(words), len(data))} - {(0, 0)}:
        rooms = len(words) - less[0], len(data) - less[1]
        came = library.read(text, *rooms, options, at_front=at_front)
        wanted = TOO_SHORT, NO_FAULT, len(words), told, *untouched(*rooms)
        judge("arrays that are too short", came == wanted, text, rooms, came, wanted)


def check_text(library, text, at_front):
    """A text as arrays, and these as a text again; and those of its image, with the numbers of the map."""
    image = library.converted(text)
    if isinstance(image, tuple):
        check_refused(library, text, image, at_front)
        return None
    made = n, words, data = arrays.arrays_of(text)
    check_rooms(library, text, 0, *made, at_front)
    numbers = arrays.numbers_of(library.converted(text, NUMBERS["KEEP_MAP"]), n)
    of_image = arrays.arrays_of(image)
    check_rooms(library, text, NUMBERS["ORDERED"], of_image[0], of_image[1] + numbers, of_image[2], at_front)
    for options in (0, NUMBERS["ASCII"]):
        wanted = library.converted(text, options)
        came = library.write(options, *made, len(wanted) + 3, at_front)
        judge("what is written", came == (DONE, NO_FAULT, len(wanted), wanted + UNTOUCHED * 3), text, came, wanted)
        for room in (len(wanted), len(wanted) - 1, 0):
            came = library.write(options, *made, room, at_front)
            is_written = room == len(wanted)
            wanted_here = wanted if is_written else UNTOUCHED * room
            holds = came == (DONE if is_written else TOO_SHORT, NO_FAULT, len(wanted), wanted_here)
            judge("what is written to less room", holds, text, room, came)
    judge("the model's own text", arrays.text_of(*made) == library.converted(text, NUMBERS["ASCII"]), text)
    judge("the model finds no fault", arrays.first_fault(*made) is None, text)
    return made


def check_texts(library, program):
    """The rows of all tools, of which each right one is written by the program too, and the same changed by chance."""
    chance = random.Random(SEED)
    with tempfile.TemporaryDirectory() as folder:
        texts = [*dict.fromkeys(row[3][0] for row in rows(folder))]
    texts += [path.read_bytes() for path in sorted((TOP / "examples").glob("*.a[ai]g"))]
    texts += [images.ascii_text(images.circuit(chance, number % 3 == 0, 20, 20, 300)) for number in range(LARGER)]
    right = []
    for text in texts:
        made = check_text(library, text, bool(chance.randrange(2)))
        if made and len(text) < 100_000:
            right.append((text, made))
    judge("some rows are right, and some are not", len(texts) // 4 < len(right) < len(texts), len(right), len(texts))

    def converted(case):
        text, made = case
        for options, words in ((0, []), (NUMBERS["ASCII"], ["--ascii"])):
            words = [program, "aigtoaig", *words]
            yield made, options, subprocess.run(words, input=text, capture_output=True, check=False).stdout

    with ThreadPoolExecutor(os.cpu_count()) as pool:
        for cases in pool.map(lambda case: [*converted(case)], right):
            for made, options, output in cases:
                came = library.write(options, *made, len(output))
                judge("what the program writes", came == (DONE, NO_FAULT, len(output), output), made, came, output)
    seeds = [text for text, _ in right if len(text) < 2000]
    seeds += [library.converted(text) for text in seeds]
    changed = [mutated(chance, chance.choice(seeds)) for _ in range(MUTANTS)]
    refused = sum(check_text(library, text, number % 2 == 0) is None for number, text in enumerate(changed))
    judge("some are refused, and some are not", MUTANTS // 4 < refused < MUTANTS * 7 // 8, refused)
    return [made for text, made in right if len(text) < 2000]


def check_options(library):
    """Options that there are not, and limits, beside a conversion with the same."""
    text, made = b"aag 9 1 0 1 0\n18\n2\n", arrays.arrays_of(b"aag 9 1 0 1 0\n18\n18\n")
    for bit in range(32):
        if 1 << bit != NUMBERS["ORDERED"]:
            came = library.read(text, 9, 9, 1 << bit)
            judge("an option of another call", came == (BAD_OPTIONS, NO_FAULT, 0, NO_COUNTS, *untouched(9, 9)), bit, came)
        if 1 << bit != NUMBERS["ASCII"]:
            came = library.write(1 << bit, *made, 99)
            judge("an option of another call", came == (BAD_OPTIONS, NO_FAULT, 0, UNTOUCHED * 99), bit, came)
    came = library.read(text, 9, 9, 0, LARGEST + 1)
    judge("a limit above the largest", came == (BAD_OPTIONS, NO_FAULT, 0, NO_COUNTS, *untouched(9, 9)), came)
    gate, justice = b"aag 5 1 1 1 1\n2\n4 6\n6\n6 2 4\n", b"aag 4 0 0 0 0 0 0 2\n2\n3\n0\n1\n0\n1\n0\n"
    for text in (text, gate, justice, b"aig 2 1 0 1 1\n4\n\2\0"):
        for limit in range(12):
            why = library.converted(text, 0, limit)
            came = library.read(text, 64, 64, 0, limit)
            holds = came[0] == DONE if isinstance(why, bytes) else came == (why[0], why[1:], 0, NO_COUNTS, *untouched(64, 64))
            judge("a limit", holds, text, limit, came, why)


# the words for what is told of arrays alone, or at a word
MESSAGES = {
    ("BAD_COUNTS", "WHOLE", 0, 0): "counts do not fit",
    ("NOT_VARIABLE", "WORD", 0, 0): "word 0: not a variable",
    ("LITERAL_RANGE", "WORD", 9, 0): "word 9: literal out of range",
    ("BAD_RESET", "WORD", 2**64 - 1, 0): "word 18446744073709551615: bad reset",
    ("BAD_SYMBOL", "WORD", 10, 0): "word 10: bad symbol line",
    ("SYMBOL_RANGE", "WORD", 10, 0): "word 10: symbol position out of range",
    ("SYMBOL_TWICE", "WORD", 10, 0): "word 10: symbol given twice",
    ("REDEFINED", "WHOLE", 0, 7): "variable 7 defined twice",
    ("UNDEFINED", "WHOLE", 0, 7): "literal 7 not defined",
    ("CYCLIC", "WHOLE", 0, 8): "gate 8 depends on a cycle",
    ("BAD_VALUE", "VALUE", 1, 0): "value 1: neither 0, 1 nor 2",
    ("BAD_VALUE", "VALUE", 2**32 - 1, 0): "value 4294967295: neither 0, 1 nor 2",
}


def check_messages(library):
    """The words for what is wrong with arrays."""
    for (kind, place, number, subject), words in MESSAGES.items():
        kind, place, number, subject = arrays.fault(kind, place, number, subject)
        came = library.message(kind, place, subject, number)
        judge("the words", came == words, came, words)
    judge("words for what is not ordered", library.message(NUMBERS["NOT_ORDERED"], NUMBERS["WHOLE"], 0, 0))


def ordered(library, text):
    """The counts and the words of the circuit of a text in order, without its numbers."""
    n, words, _ = arrays.arrays_of(library.converted(text))
    return n, words


def check_steps(library):
    """Each step of circuits made by chance: it has the model's values, and all together the trace of a simulation."""
    chance = random.Random(SEED)
    found = []
    for number in range(CIRCUITS):
        made = images.circuit(chance)
        n, words = ordered(library, images.ascii_text(made))
        found.append((n, words))
        if chance.randrange(2):
            del words[arrays.section_length(n) :]
        state, lines, stimulus = bytes("01x".index(it) for it in made.resets), [], []
        for _ in range(4):
            given = bytes(chance.choice([0, 1, 1, 2]) for _ in made.inputs)
            rest = chance.randbytes(arrays.values_length(n) - 1 - len(given + state) + chance.choice([0, 0, 5]))
            values = chance.randbytes(1) + given + state + rest
            came = library.step(n, words, values, number % 2 == 0)
            wanted = arrays.stepped(n, words, values)
            judge("a step", came == (DONE, NO_FAULT, arrays.values_length(n), wanted), n, words, values, came, wanted)
            at, parts = 1 + n.max_var, []
            for count in (n.outputs, n.bad, n.constraints, n.latches):
                parts.append(came[3][at : at + count])
                at += count
            outputs, bad, constraints, following = parts
            columns = state, given, outputs, following, bad, constraints
            lines.append(" ".join("".join("01x"[it] for it in column) for column in columns))
            stimulus.append("".join("01x"[it] for it in given))
            state = following
        trace = library.traced(images.ascii_text(made), "".join(f"{it}\n" for it in stimulus).encode())
        came = "".join(f"{line}\n" for line in [*lines, "."]).encode()
        if trace.count(b"  \n") != came.count(b"  \n"):
            came = came.replace(b"  \n", b"\n")
        judge("the trace of steps", came == trace, n, words, came, trace)
    return found


def check_edits(library, program, seeds):
    """Arrays with numbers and bytes changed by chance: they have the model's fault, or the text of the circuit."""
    chance = random.Random(SEED)
    seeds = [made for made in seeds if len(made[1]) < 120]
    for _ in range(200):
        text = images.ascii_text(images.circuit(chance))
        seeds += [arrays.arrays_of(text), arrays.arrays_of(library.converted(text))]
    came_to, written = {}, []
    for number in range(EDITS):
        n, words, data = arrays.edited(chance, *chance.choice(seeds))
        options = chance.choice([0, NUMBERS["ASCII"]])
        why = arrays.first_fault(n, words, data)
        came_to[why and why[0]] = came_to.get(why and why[0], 0) + 1
        if why:
            came = library.write(options, n, words, data, 256, number % 2 == 0)
            judge("an edit", came == (REFUSED, why, 0, UNTOUCHED * 256), n, words, data, came, why)
            continue
        text = arrays.text_of(n, words, data)
        wanted = library.converted(text, options)
        room = len(wanted) + chance.choice([0, 0, 7, -1])
        came = library.write(options, n, words, data, room, number % 2 == 0)
        has_room = room >= len(wanted)
        output = wanted + UNTOUCHED * (room - len(wanted)) if has_room else UNTOUCHED * room
        wanted_here = DONE if has_room else TOO_SHORT, NO_FAULT, len(wanted), output
        judge("a right edit", came == wanted_here, n, words, data, came, wanted_here)
        if len(written) < PROGRAM_EDITS and number % 7 == 0:
            written.append((options, text, wanted))
    kinds = "BAD_COUNTS NOT_VARIABLE LITERAL_RANGE BAD_RESET BAD_SYMBOL SYMBOL_RANGE SYMBOL_TWICE REDEFINED UNDEFINED CYCLIC"
    often = {it for it in came_to if came_to[it] > EDITS // 1000}
    judge("each fault comes often", often == {None, *(NUMBERS[it] for it in kinds.split())}, came_to)

    def is_written(case):
        options, text, wanted = case
        words = [program, "aigtoaig", *(["--ascii"] if options else [])]
        return subprocess.run(words, input=text, capture_output=True, check=False).stdout == wanted

    with ThreadPoolExecutor(os.cpu_count()) as pool:
        for case, holds in zip(written, pool.map(is_written, written)):
            judge("a right edit by the program", holds, case)


def check_step_edits(library, seeds):
    """Steps of circuits with numbers changed by chance, and of values: they have the model's fault or its values."""
    chance, came_to = random.Random(SEED), {}
    for number in range(STEP_EDITS):
        n, words = chance.choice(seeds)
        values = bytearray(chance.choices([0, 1, 2], k=arrays.values_length(n)))
        if chance.randrange(4):
            n, words, _ = arrays.edited(chance, n, words, b"")
        elif chance.randrange(2):
            values[chance.randrange(len(values))] = chance.choice([3, 255])
        if not chance.randrange(8):
            del values[len(values) - chance.choice([1, 1, chance.randrange(1 + len(values))]) :]
        why = arrays.step_fault(n, words, values)
        kind = why[0] if isinstance(why, tuple) else "DONE" if why is None else "TOO_SHORT"
        came_to[kind] = came_to.get(kind, 0) + 1
        if why is None:
            wanted = DONE, NO_FAULT, arrays.values_length(n), arrays.stepped(n, words, values)
        elif kind == "TOO_SHORT":
            wanted = TOO_SHORT, NO_FAULT, why, bytes(values)
        else:
            wanted = REFUSED, why, 0, bytes(values)
        came = library.step(n, words, bytes(values), number % 2 == 0)
        judge("an edited step", came == wanted, n, words, values, came, wanted)
    wanted = {"DONE", "TOO_SHORT", *(NUMBERS[it] for it in "BAD_COUNTS NOT_ORDERED BAD_VALUE".split())}
    judge("each comes often", wanted == {it for it in came_to if came_to[it] > STEP_EDITS // 100}, came_to)


def check_sizes(library):
    """A circuit of megabytes, in any order and in order."""
    text = "".join(large.wide(LINES, range(LINES - 1, -1, -1), "ilobcjf")).encode()
    check_text(library, text, False)
    source = "".join(large.wide(LINES, range(LINES), "ilobc")).encode()
    n, words, _ = arrays.arrays_of(source)
    state, letters = bytes("01x".index(it) for it in large.reset(LINES)), bytes.maketrans(b"01x", b"\0\1\2")
    given = large.inputs(LINES)
    for values, line in zip(given, large.trace(LINES, given)):
        values = values.encode().translate(letters)
        _, _, outputs, following, bad, constraints = line.encode().translate(letters).rstrip(b"\n").split(b" ")
        made = b"\0" + values + state
        came = library.step(n, words, made + bytes(arrays.values_length(n) - len(made)))
        shown = came[3][1 + n.max_var :]
        judge("a step of megabytes", (came[0], shown) == (DONE, outputs + bad + constraints + following))
        state = following


def main(folder, program):
    """All checks, and their sums."""
    library = Library(str(Path(folder, "libaigtools.so.1").resolve()))
    seeds = check_texts(library, program)
    check_options(library)
    check_messages(library)
    circuits = check_steps(library)
    check_edits(library, program, seeds)
    check_step_edits(library, circuits)
    check_sizes(library)
    counts.finish(wrong, passed)


if __name__ == "__main__":
    main(*sys.argv[1:])
