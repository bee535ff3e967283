"""AIGER files by libaigtools: converted, unrolled and simulated, witnesses judged; clauses for SAT solvers, and their
refutations and invariants checked; and circuits as arrays.

The functions take and give bytes, and are those of the program ``aiger``: docs/FORMAT.md says what each text is. The
library is the one that the variable LIBAIGTOOLS names; or that beside this file or in the folder ``lib`` that holds it;
or, in a clone of the repository, the released one; or that of the system. Calls may run in several threads at once.

>>> and_gate = b"aag 3 2 0 1 1\\n2\\n4\\n6\\n6 4 2\\n"
>>> image = convert(and_gate, keep_map=True)
>>> image[:14]
b'aig 3 2 0 1 1\\n'
>>> convert(image, ascii=True, undo_map=True) == and_gate
True
>>> simulate(and_gate, b"01\\n1x\\n")
b' 01 0 \\n 1x x \\n.\\n'
>>> try:
...     convert(b"aag 1 1 0 0 0\\n3\\n")
... except Refused as refused:
...     print(refused.kind.name, refused.line, refused)
NOT_VARIABLE 2 line 2: not a variable

``read`` gives the circuit of a file, by its bytes or by its name, as a ``Circuit``, which can be looked at, changed,
stepped and written:

>>> circuit = read(and_gate)
>>> circuit
<Circuit: max_var 3, 2 inputs, 1 outputs, 1 gates>
>>> for literal, left, right in circuit.gates.tuples():
...     print(literal, left, right)
6 4 2
>>> circuit.outputs[0] ^= 1
>>> circuit.write(ascii=True)
b'aag 3 2 0 1 1\\n2\\n4\\n7\\n6 4 2\\n'
>>> circuit.step([1, 1]).outputs
b'\\x00'

``named`` finds what a symbol names: a signal, all bits of a word, or a property, whose position the functions take:

>>> lock = read(b"aag 1 0 1 0 0 1\\n2 3\\n2\\nb0 open\\n")
>>> (open_,) = lock.named("open")
>>> clauses(lock.write(), 2, bad=open_.position).splitlines()[0]
b'p cnf 3 8'
"""

import ctypes
import enum
import functools
import gzip
import itertools
import operator
import os
import re
from array import array
from collections.abc import Sequence
from dataclasses import dataclass
from pathlib import Path
from typing import Any, Callable, Dict, Iterable, Iterator, List, Mapping, NamedTuple, Optional, Sized, Tuple, Union

__all__ = ["JUSTICE", "LARGEST", "Circuit", "Entries", "Gate", "Kind", "Latch", "Named", "Refused", "Step", "Symbol"]
__all__ += ["answer", "clauses", "confirm", "convert", "dump", "invariant_clauses", "miter", "never", "read"]
__all__ += ["refute", "simulate", "unroll", "version"]

Data = Union[bytes, bytearray, memoryview]

#: The largest ``max_var``, and the one that is taken where none is given.
LARGEST = 2147483647

#: Added to the position of a justice property, it is the number by which the library asks for that one.
JUSTICE = 2147483648

#: The most ``frames``.
MOST_FRAMES = 1000000


class Kind(enum.IntEnum):
    """What is wrong with an input, or with what a solver wrote. docs/FORMAT.md says when each comes."""

    NOT_AIGER = 1
    BAD_HEADER = 2
    TOO_LARGE = 3
    BAD_LINE = 4
    NOT_VARIABLE = 5
    LITERAL_RANGE = 6
    BAD_RESET = 7
    TRUNCATED = 8
    BAD_DELTA = 9
    BAD_SYMBOL = 10
    SYMBOL_RANGE = 11
    SYMBOL_TWICE = 12
    REDEFINED = 13
    UNDEFINED = 14
    CYCLIC = 15
    NOT_ORDERED = 16
    NO_MAP = 17
    BAD_MAP_LINE = 18
    MAP_MISMATCH = 19
    MAP_FORGED = 20
    NOT_UNROLLABLE = 21
    TOO_LARGE_UNROLLED = 22
    BAD_STIMULUS = 23
    BAD_WITNESS = 24
    HAS_BAD = 25
    NO_BAD_STATES = 26
    NO_SUCH_BAD_STATE = 27
    BAD_ANSWER = 28
    UNSATISFIABLE = 29
    UNKNOWN = 30
    NOT_REACHED = 31
    NO_REFUTATION = 32
    BAD_REFUTATION = 33
    DOES_NOT_FOLLOW = 34
    BAD_INVARIANT = 35
    NOT_EACH_LATCH = 36
    MET_AT_START = 37
    TOO_LARGE_INVARIANT = 38
    BAD_COUNTS = 39
    BAD_VALUE = 40
    NOT_COMPARABLE = 41
    OTHER_INPUTS = 42
    OTHER_OUTPUTS = 43
    TOO_LARGE_TO_COMPARE = 44
    NO_NAME = 45
    NAME_TWICE = 46
    NO_SUCH_NAME = 47
    NO_SUCH_JUSTICE = 48
    TOO_LARGE_JUSTICE = 49


class Refused(ValueError):
    """An input is refused. ``str`` of it is what the program says.

    kind      what is wrong
    line      the line, counted from 1, where it is wrong in one; for BAD_MAP_LINE a line of the map
    gate      the gate of a binary file, counted from 1, where it is wrong in one
    subject   the variable, the literal, the bad state or the justice property that the fault names, or 0
    entry     of a circuit, the name and the index of what is wrong, as ("gates", 0); of two that are paired by names,
              those of the input, output or bad state, as ("inputs", 0)
    second    whether it is the second of two circuits

    >>> try:
    ...     read(b"aag 3 1 0 0 1\\n2\\n6 4 2\\n")
    ... except Refused as refused:
    ...     print(refused.kind.name, refused.line, refused.subject, refused)
    UNDEFINED None 4 literal 4 not defined
    """

    def __init__(
        self,
        message: str,
        kind: Kind,
        line: Optional[int],
        gate: Optional[int],
        subject: int,
        entry: Optional[Tuple[str, int]] = None,
        second: bool = False,
    ) -> None:
        super().__init__(message)
        self.message = message
        self.kind = kind
        self.line = line
        self.gate = gate
        self.subject = subject
        self.entry = entry
        self.second = second


class _Outcome(ctypes.Structure):
    _fields_ = [(name, ctypes.c_uint32) for name in ("status", "kind", "place", "subject")] + [
        (name, ctypes.c_uint64) for name in ("number", "length")
    ]


# The sections of the words of a circuit, in their order, and how many words an entry has.
_WIDTHS = {"inputs": 1, "latches": 3, "outputs": 1, "bad": 1, "constraints": 1, "justice_sizes": 1}
_WIDTHS.update({"justice_literals": 1, "fairness": 1, "gates": 3, "symbols": 4, "numbers": 1})

# How many entries each has but the numbers, by the names of the header.
_COUNTED: Tuple[str, ...] = ("inputs", "latches", "outputs", "bad", "constraints", "justice", "justice_literals")
_COUNTED += ("fairness", "gates", "symbols")


class _Counts(ctypes.Structure):
    _fields_ = [(name, ctypes.c_uint32) for name in ("max_var", *_COUNTED, "has_comment")] + [
        (name, ctypes.c_uint64) for name in ("name_bytes", "comment_bytes")
    ]


_DONE, _TOO_SHORT, _REFUSED, _OUT_OF_MEMORY, _BAD_OPTIONS, _NOT_CONFIRMED, _SECOND_REFUSED = range(7)
_WHOLE, _LINE, _GATE, _MAP_LINE, _WORD, _VALUE, _INPUT, _OUTPUT, _BAD = range(9)
_ASCII, _STRIP, _KEEP_MAP, _UNDO_MAP, _PROPERTIES, _VCD, _OUTPUTS_AS_BAD, _ORDERED = 1, 2, 4, 8, 16, 32, 64, 128
_BY_NAME, _SIMPLIFY, _SIMPLIFIED = 256, 512, 2147483648

# what has a place of its own in a fault
_LISTS = {_INPUT: "inputs", _OUTPUT: "outputs", _BAD: "bad"}


# the number that stands for all bad states
_ALL_BAD = 0xFFFFFFFF

# The room for an unrolled text that is made at once: a source may have a large comment, and the text then be short.
_LARGEST_GUESS = 1 << 28

_NAME = "libaigtools.so.1"


def _unpacked(packed: Path) -> ctypes.CDLL:
    """The released library of a clone, in memory: no file is left behind."""
    held = os.memfd_create(_NAME)
    try:
        with open(held, "wb", closefd=False) as file:
            file.write(gzip.decompress(packed.read_bytes()))
        return ctypes.CDLL(f"/proc/self/fd/{held}")
    finally:
        os.close(held)


def _place() -> str:
    """Where the library lies as a file, or its name, for the system to find."""
    here = Path(__file__).resolve().parent
    for folder in (here, *here.parents):
        if folder in (here, folder.parent / "lib") and (folder / _NAME).exists():
            return str(folder / _NAME)
    return _NAME


def _opened() -> ctypes.CDLL:
    named = os.environ.get("LIBAIGTOOLS") or _place()
    packed = Path(__file__).resolve().parents[1] / "release" / f"{_NAME}.gz"
    try:
        return _unpacked(packed) if named == _NAME and packed.exists() else ctypes.CDLL(named)
    except (OSError, EOFError) as why:
        raise ImportError(f"{why}; release/install of the repository installs {_NAME}") from why


def _load() -> ctypes.CDLL:
    library = _opened()
    number, text, size = ctypes.c_uint32, (ctypes.c_char_p, ctypes.c_size_t), ctypes.c_size_t
    room, outcome, counts = (ctypes.c_void_p, ctypes.c_size_t), ctypes.POINTER(_Outcome), ctypes.POINTER(_Counts)
    for name, arguments, result in (
        ("aigtools_convert", (number, number, *text, *room, outcome), number),
        ("aigtools_justice_as_bad", (number, number, number, *text, *room, outcome), number),
        ("aigtools_unroll", (number, number, number, *text, *room, outcome), number),
        ("aigtools_clauses", (number, number, number, *text, *room, outcome), number),
        ("aigtools_answer", (number, number, number, *text, *text, *room, outcome), number),
        ("aigtools_refute", (number, number, number, *text, *text, outcome), number),
        ("aigtools_invariant_clauses", (number, number, *text, *text, *room, outcome), number),
        ("aigtools_never", (number, number, *text, *text, *text, outcome), number),
        ("aigtools_miter", (number, number, *text, *text, *room, outcome), number),
        ("aigtools_simulate", (number, number, *text, *text, *room, outcome), number),
        ("aigtools_witness", (number, *text, *text, outcome), number),
        ("aigtools_dump", (number, *text, *text, *room, outcome), number),
        ("aigtools_read", (number, number, *text, *room, *room, counts, outcome), number),
        ("aigtools_write", (number, counts, *text, *text, *room, outcome), number),
        ("aigtools_step", (counts, *text, *room, outcome), number),
        ("aigtools_message", (outcome, *room), size),
        ("aigtools_version", (), number),
    ):
        try:
            function = getattr(library, name)
        except AttributeError as why:
            raise ImportError(f"{_NAME} has no {name}: it is older than this module") from why
        function.argtypes, function.restype = arguments, result
    return library


_library = _load()


def _entry(parts: Mapping[str, Sized], number: int) -> Optional[Tuple[str, int]]:
    """The part with this word or value, and the index of its entry there."""
    for name, part in parts.items():
        if number < len(part):
            return name, number // _WIDTHS.get(name, 1)
        number -= len(part)
    return None


def _raise(outcome: _Outcome, parts: Optional[Mapping[str, Sized]] = None) -> None:
    if outcome.status == _OUT_OF_MEMORY:
        raise MemoryError
    if outcome.status == _BAD_OPTIONS:
        raise ValueError(f"an option that libaigtools {version()} does not know")
    room = ctypes.create_string_buffer(80)
    length = _library.aigtools_message(outcome, room, len(room))
    words = room.raw[:length].decode()
    line = outcome.number if outcome.place in (_LINE, _MAP_LINE) else None
    gate = outcome.number if outcome.place == _GATE else None
    entry = _entry(parts or {}, outcome.number) if outcome.place in (_WORD, _VALUE) else None
    if outcome.place in _LISTS:
        entry = _LISTS[outcome.place], outcome.number
    elif entry:
        words = f"{entry[0]}[{entry[1]}]: {words.partition(': ')[2]}"
    raise Refused(words, Kind(outcome.kind), line, gate, outcome.subject, entry, outcome.status == _SECOND_REFUSED)


def _address(output: bytearray) -> int:
    return ctypes.addressof(ctypes.c_char.from_buffer(output))


def _made(
    room: int, call: Callable[[int, int, _Outcome], Any], parts: Optional[Mapping[str, Sized]] = None
) -> Tuple[bytes, _Outcome]:
    """The text that a call makes, and its outcome. It is called again where a first guess of its length is short."""
    outcome = _Outcome()
    while True:
        output = bytearray(room)
        status = call(_address(output), room, outcome)
        if status in (_DONE, _NOT_CONFIRMED):
            return bytes(memoryview(output)[: outcome.length]), outcome
        if status != _TOO_SHORT:
            _raise(outcome, parts)
        room = outcome.length


def _verdict(outcome: _Outcome) -> Optional[int]:
    """The step at which a witness is confirmed."""
    return outcome.number if outcome.status == _DONE else None


def _bytes(data: Data) -> bytes:
    """The bytes of what has bytes; anything else is a TypeError."""
    return data if isinstance(data, bytes) else bytes(memoryview(data))


def _number(name: str, value: int, least: int = 0, most: int = LARGEST) -> int:
    if not least <= operator.index(value) <= most:
        raise ValueError(f"{name} is not from {least} to {most}: {value}")
    return value


def _property(bad: Optional[int], justice: Optional[int]) -> int:
    """The number that asks for this bad state, for this justice property, or for all bad states."""
    if justice is None:
        return _ALL_BAD if bad is None else _number("bad", bad)
    if bad is not None:
        raise ValueError("bad excludes justice")
    return JUSTICE + _number("justice", justice, most=LARGEST - 1)


def _limit(max_var: int, simplify: bool) -> int:
    """The limit of a call for clauses, which also says whether they are simplified."""
    return _number("max_var", max_var) + (_SIMPLIFIED if simplify else 0)


def _options(*given: Tuple[Any, int]) -> int:
    """The options that are given, a bit each."""
    return sum(bit for value, bit in given if value)


def _excludes(name: str, **others: Any) -> None:
    """Refuses an option beside the others that it excludes."""
    for other, value in others.items():
        if value:
            raise ValueError(f"{name} excludes {other}")


def convert(
    data: Data,
    *,
    ascii: bool = False,
    strip: bool = False,
    keep_map: bool = False,
    undo_map: bool = False,
    outputs_as_bad: bool = False,
    justice_as_bad: Optional[int] = None,
    simplify: bool = False,
    max_var: int = LARGEST,
) -> bytes:
    """The canonical text of the circuit of an AIGER file, as ``aiger aigtoaig`` writes it.

    ascii            write ASCII, and not binary
    strip            leave out symbols and comment
    keep_map         begin the comment with a map, by which the conversion can be undone; with no other option
    undo_map         undo a conversion by the map of its image
    outputs_as_bad   write outputs as bad states, of which there are none; with no map
    justice_as_bad   write a circuit whose one bad state is reached exactly where the justice property of this number,
                     counted from 0, has a fair run; with no map, and without outputs_as_bad
    simplify         write a circuit with fewer gates that has the same traces; without keep_map
    max_var          refuse a file with a larger index, or with more of a kind

    >>> convert(b"aag 1 1 0 1 0\\n2\\n3\\n", ascii=True, outputs_as_bad=True)
    b'aag 1 1 0 0 0 1\\n2\\n3\\n'
    >>> convert(b"aag 2 1 0 1 1\\n2\\n4\\n4 2 2\\n", ascii=True, simplify=True)
    b'aag 1 1 0 1 0\\n2\\n2\\n'
    """
    data = _bytes(data)
    if keep_map:
        _excludes("keep_map", ascii=ascii, strip=strip, undo_map=undo_map, simplify=simplify)
    if outputs_as_bad:
        _excludes("outputs_as_bad", keep_map=keep_map, undo_map=undo_map)
    if justice_as_bad is not None:
        _excludes("justice_as_bad", outputs_as_bad=outputs_as_bad, keep_map=keep_map, undo_map=undo_map)
    options = _options(
        (ascii, _ASCII),
        (strip, _STRIP),
        (keep_map, _KEEP_MAP),
        (undo_map, _UNDO_MAP),
        (outputs_as_bad, _OUTPUTS_AS_BAD),
        (simplify, _SIMPLIFY),
    )
    limit = _number("max_var", max_var)
    if justice_as_bad is None:
        call = functools.partial(_library.aigtools_convert, options)
    else:
        call = functools.partial(_library.aigtools_justice_as_bad, options, _number("justice_as_bad", justice_as_bad))
    return _made(
        (4 if ascii else 2) * len(data) + 64,
        lambda output, room, outcome: call(limit, data, len(data), output, room, outcome),
    )[0]


def unroll(data: Data, frames: int, *, ascii: bool = False, simplify: bool = False, max_var: int = LARGEST) -> bytes:
    """The circuit of an AIGER file unrolled over 1 to 1000000 frames, as ``aiger aigunroll`` writes it.

    ascii      write ASCII, and not binary
    simplify   write a circuit with fewer gates that has the same traces

    >>> unroll(b"aag 1 0 1 1 0\\n2 3\\n2\\n", 2, ascii=True)
    b'aag 0 0 0 2 0\\n0\\n1\\n'
    """
    data = _bytes(data)
    options, limit = _options((ascii, _ASCII), (simplify, _SIMPLIFY)), _number("max_var", max_var)
    count = _number("frames", frames, 1, MOST_FRAMES)
    return _made(
        min(min(count, 64) * (4 if ascii else 2) * len(data) + 64, _LARGEST_GUESS),
        lambda output, room, outcome: _library.aigtools_unroll(
            options, count, limit, data, len(data), output, room, outcome
        ),
    )[0]


def clauses(
    data: Data,
    frames: int,
    *,
    bad: Optional[int] = None,
    justice: Optional[int] = None,
    simplify: bool = False,
    max_var: int = LARGEST,
) -> bytes:
    """Clauses for a SAT solver (DIMACS), as ``aiger aigunroll --cnf`` writes them: they can be satisfied exactly if a
    run of at most so many steps, 1 to 1000000, reaches a bad state with all constraints kept.

    bad       the bad state of this position alone, counted from 0
    justice   the justice property of this position, in the place of a bad state: they can be satisfied exactly if a
              lasso has fewer steps, a run that comes back to one of its states, with all constraints kept, and meets
              each literal of the property and each fairness constraint on the way
    simplify  those of what is left of the unrolled circuit for its bad states; ``answer`` reads answers on either

    >>> clauses(b"aag 1 0 1 0 0 1\\n2 3\\n2\\n", 1)
    b'p cnf 2 5\\n-1 0\\n-2 -1 0\\n-2 1 0\\n2 1 -1 0\\n2 0\\n'
    >>> clauses(b"aag 1 0 1 0 0 0 0 1\\n2 3\\n1\\n2\\n", 3, justice=0).splitlines()[0]
    b'p cnf 49 137'
    """
    data = _bytes(data)
    which, limit = _property(bad, justice), _limit(max_var, simplify)
    count = _number("frames", frames, 1, MOST_FRAMES)
    return _made(
        min(min(count, 64) * 16 * len(data) + 64, _LARGEST_GUESS),
        lambda output, room, outcome: _library.aigtools_clauses(
            which, count, limit, data, len(data), output, room, outcome
        ),
    )[0]


def answer(
    model: Data,
    answer: Data,
    frames: int,
    *,
    bad: Optional[int] = None,
    justice: Optional[int] = None,
    simplify: bool = False,
    max_var: int = LARGEST,
) -> bytes:
    """The witness that a solver's answer to the clauses of the model gives, with the same frames and property, as
    ``aiger aigunroll --answer`` writes it. Whether they were simplified makes no difference. It is confirmed, whatever
    the solver said. An answer that gives none is refused: UNSATISFIABLE, UNKNOWN or NOT_REACHED.

    >>> answer(b"aag 1 0 1 0 0 1\\n2 3\\n2\\n", b"s SATISFIABLE\\nv -2 3 0\\n", 2)
    b'1\\nb0\\n0\\n\\n\\n.\\n'
    >>> answer(b"aag 1 0 1 0 0 0 0 1\\n2 3\\n1\\n2\\n", b"s SATISFIABLE\\nv 2 0\\n", 3, justice=0)
    b'1\\nj0\\n0\\n\\n\\n.\\n'
    """
    model, answer = _bytes(model), _bytes(answer)
    which, limit = _property(bad, justice), _limit(max_var, simplify)
    count = _number("frames", frames, 1, MOST_FRAMES)
    return _made(
        len(model) + len(answer) + 64,
        lambda output, room, outcome: _library.aigtools_answer(
            which, count, limit, model, len(model), answer, len(answer), output, room, outcome
        ),
    )[0]


def refute(
    model: Data,
    refutation: Data,
    frames: int,
    *,
    bad: Optional[int] = None,
    justice: Optional[int] = None,
    simplify: bool = False,
    max_var: int = LARGEST,
) -> None:
    """Checks a solver's refutation (DRAT, text or binary) of the clauses of the model, with the same frames, property
    and simplify, as ``aiger aigunroll --refutation``. If it is right, no run of at most so many steps reaches a bad
    state with all constraints kept, or no lasso of the justice property has fewer: that is proved, whatever the solver
    said. If it is not, it is refused: NO_REFUTATION, BAD_REFUTATION or DOES_NOT_FOLLOW.

    >>> refute(b"aag 1 0 1 0 0 1\\n2 3\\n2\\n", b"", 1)
    >>> try:
    ...     refute(b"aag 1 0 1 0 0 1\\n2 3\\n2\\n", b"-2 0\\n0\\n", 2)
    ... except Refused as refused:
    ...     print(refused.kind.name, refused)
    DOES_NOT_FOLLOW line 2: does not follow
    >>> refute(b"aag 1 0 1 0 0 0 0 1\\n2 3\\n1\\n2\\n", b"0\\n", 2, justice=0)
    """
    model, refutation = _bytes(model), _bytes(refutation)
    which, limit = _property(bad, justice), _limit(max_var, simplify)
    count, outcome = _number("frames", frames, 1, MOST_FRAMES), _Outcome()
    _library.aigtools_refute(which, count, limit, model, len(model), refutation, len(refutation), outcome)
    if outcome.status != _DONE:
        _raise(outcome)


def invariant_clauses(
    model: Data,
    invariant: Data,
    *,
    bad: Optional[int] = None,
    justice: Optional[int] = None,
    simplify: bool = False,
    max_var: int = LARGEST,
) -> bytes:
    """Clauses for a SAT solver (DIMACS) in which an invariant of the model is to be shown, as ``aiger aigunroll
    --invariant --cnf`` writes them: a PLA with a column for each latch, as pdr of ABC writes one. If they cannot be
    satisfied, no run, however long, reaches a bad state with all constraints kept.

    bad       the bad state of this position alone, counted from 0
    justice   the justice property of this position, in the place of a bad state: no run without end then keeps all
              constraints and meets each literal of the property and each fairness constraint again and again. The
              columns are the latches of what ``convert`` makes with ``justice_as_bad``.
    simplify  those of what is left of their circuit for its bad states

    >>> invariant_clauses(b"aag 1 0 1 0 0 1\\n2 2\\n2\\n", b"1 1\\n").splitlines()[0]
    b'p cnf 7 17'
    """
    model, invariant = _bytes(model), _bytes(invariant)
    which, limit = _property(bad, justice), _limit(max_var, simplify)
    return _made(
        min(64 * (len(model) + len(invariant)) + 64, _LARGEST_GUESS),
        lambda output, room, outcome: _library.aigtools_invariant_clauses(
            which, limit, model, len(model), invariant, len(invariant), output, room, outcome
        ),
    )[0]


def never(
    model: Data,
    invariant: Data,
    refutation: Data,
    *,
    bad: Optional[int] = None,
    justice: Optional[int] = None,
    simplify: bool = False,
    max_var: int = LARGEST,
) -> None:
    """Checks a solver's refutation (DRAT, text or binary) of the clauses in which the invariant of the model is to be
    shown, with the same property and simplify, as ``aiger aigunroll --invariant --refutation``. If it is right, no
    run, however long, reaches a bad state with all constraints kept, or none is fair to the justice property: that is
    proved, whatever the invariant and the solver said. If it is not, it is refused, as ``refute`` does; so is what is
    no invariant of the model: BAD_INVARIANT, NOT_EACH_LATCH, MET_AT_START or TOO_LARGE_INVARIANT.

    >>> never(b"aag 1 0 1 0 0 1\\n2 2\\n2\\n", b"1 1\\n", b"-7 0\\n")
    >>> try:
    ...     never(b"aag 1 0 1 0 0 1\\n2 2\\n2\\n", b"0 1\\n", b"")
    ... except Refused as refused:
    ...     print(refused.kind.name, refused)
    MET_AT_START line 1: met by a first state
    >>> never(b"aag 0 0 0 0 0 0 0 1\\n1\\n0\\n", b"-1 1\\n", b"-16 0\\n0\\n", justice=0)
    """
    model, invariant, refutation = _bytes(model), _bytes(invariant), _bytes(refutation)
    which, limit, outcome = _property(bad, justice), _limit(max_var, simplify), _Outcome()
    _library.aigtools_never(
        which, limit, model, len(model), invariant, len(invariant), refutation, len(refutation), outcome
    )
    if outcome.status != _DONE:
        _raise(outcome)


def miter(
    first: Data,
    second: Data,
    *,
    by_name: bool = False,
    ascii: bool = False,
    simplify: bool = False,
    max_var: int = LARGEST,
) -> bytes:
    """The miter of the circuits of two AIGER files, as ``aiger aigmiter`` writes it: one circuit with the inputs of the
    first, whose bad states say where the two differ. If ``refute`` shows that none is reached within K steps, the two
    are equal for K steps; if ``never`` does, at every step. Of a Refused, ``second`` says which circuit it speaks of.

    by_name   pair inputs, outputs and bad states by their symbols, and not place by place
    ascii     write ASCII, and not binary
    simplify  have what is built alike in both circuits once

    >>> twice = miter(b"aag 1 1 0 1 0\\n2\\n3\\n", b"aag 2 1 0 1 1\\n4\\n3\\n2 4 4\\n")
    >>> simulate(twice, b"0\\n1\\n", properties=True)
    b' 0   0 \\n 1   0 \\n.\\n'
    """
    first, second = _bytes(first), _bytes(second)
    options = _options((ascii, _ASCII), (by_name, _BY_NAME), (simplify, _SIMPLIFY))
    limit = _number("max_var", max_var)
    return _made(
        (4 if ascii else 2) * (len(first) + len(second)) + 64,
        lambda output, room, outcome: _library.aigtools_miter(
            options, limit, first, len(first), second, len(second), output, room, outcome
        ),
    )[0]


def simulate(
    model: Data, stimulus: Data, *, properties: bool = False, vcd: bool = False, max_var: int = LARGEST
) -> bytes:
    """The trace of a stimulus, as ``aiger aigsim --batch`` writes it.

    properties   show bad states and constraints too
    vcd          write the trace as a waveform (Value Change Dump), with them; without properties

    >>> simulate(b"aag 1 1 0 0 0 1\\n2\\n3\\n", b"0\\n1\\n", properties=True)
    b' 0   1 \\n 1   0 \\n.\\n'
    >>> simulate(b"aag 1 1 0 1 0\\n2\\n3\\n", b"0\\n1\\n", vcd=True).splitlines()[-9:]
    [b'0i0', b'1o0', b'#1', b'1i0', b'0o0', b'#2', b'zi0', b'zo0', b'#3']
    """
    model, stimulus = _bytes(model), _bytes(stimulus)
    if vcd:
        _excludes("vcd", properties=properties)
    options, limit = _options((properties, _PROPERTIES), (vcd, _VCD)), _number("max_var", max_var)
    return _made(
        _room_of_dump(model, stimulus) if vcd else 2 * len(stimulus) + 64,
        lambda output, room, outcome: _library.aigtools_simulate(
            options, limit, model, len(model), stimulus, len(stimulus), output, room, outcome
        ),
    )[0]


def _room_of_dump(model: bytes, steps: bytes) -> int:
    """A guess of how long a waveform is."""
    return 8 * len(steps) + len(model) + 512


def confirm(model: Data, witness: Data, *, max_var: int = LARGEST) -> Optional[int]:
    """The first step, counted from 0, at which a witness shows the bad state that it claims, or at which the loop
    begins that meets the justice property; or None.

    >>> toggle = b"aag 1 0 1 0 0 1\\n2 3\\n2\\n"
    >>> confirm(toggle, b"1\\nb0\\n0\\n\\n\\n.\\n")
    1
    >>> confirm(toggle, b"1\\nb0\\n0\\n\\n.\\n") is None
    True
    >>> confirm(b"aag 1 0 1 0 0 0 0 1\\n2 3\\n1\\n2\\n", b"1\\nj0\\n0\\n\\n\\n.\\n")
    0
    """
    model, witness = _bytes(model), _bytes(witness)
    outcome = _Outcome()
    limit = _number("max_var", max_var)
    status = _library.aigtools_witness(limit, model, len(model), witness, len(witness), outcome)
    if status not in (_DONE, _NOT_CONFIRMED):
        _raise(outcome)
    return _verdict(outcome)


def dump(model: Data, witness: Data, *, max_var: int = LARGEST) -> Tuple[Optional[int], bytes]:
    """What ``confirm`` answers, and the waveform of the run, as ``aiger aigsim --witness --vcd`` writes it. That of a
    lasso which is confirmed has an input more, ``loop``: it is 1 from the step on at which the loop begins.

    >>> step, text = dump(b"aag 1 0 1 0 0 1\\n2 3\\n2\\n", b"1\\nb0\\n0\\n\\n\\n.\\n")
    >>> step, text.splitlines()[0]
    (1, b'$comment confirmed 1 $end')
    """
    model, witness = _bytes(model), _bytes(witness)
    limit = _number("max_var", max_var)
    text, outcome = _made(
        _room_of_dump(model, witness),
        lambda output, room, outcome: _library.aigtools_dump(
            limit, model, len(model), witness, len(witness), output, room, outcome
        ),
    )
    return _verdict(outcome), text


class Latch(NamedTuple):
    """A latch: its literal, its next state, and its reset: 0, 1, or its literal if it is uninitialised."""

    literal: int
    next: int
    reset: int


class Gate(NamedTuple):
    """An AND gate: its literal, and its operands."""

    literal: int
    left: int
    right: int


class Symbol(NamedTuple):
    """A name: the letter of what has it, as in an AIGER file (i, l, o, b, c, j or f), its position, and the name."""

    kind: str
    position: int
    name: bytes


class Named(NamedTuple):
    """What has a name: the letter of its kind, as in a ``Symbol``, its position among those, its name, and its literals:
    as many as it has for a justice property, and one for all else."""

    kind: str
    position: int
    name: str
    literals: Tuple[int, ...]


class Step(NamedTuple):
    """The values of a step, a byte each: 0, 1, or 2 for x. ``values`` has that of each variable, and 0 of the constant;
    ``next`` is the state of the step that follows."""

    values: bytes
    outputs: bytes
    bad: bytes
    constraints: bytes
    next: bytes


# makes a named tuple of a plain one
_NEW: Any = tuple.__new__


def _words(given: Iterable[int]) -> "array[int]":
    """Numbers as an array of words; what is one stays it."""
    return given if isinstance(given, array) and given.typecode == "I" else array("I", given)


class Entries(Sequence[Any]):
    """Latches or gates: a sequence of named tuples over the array ``words``, which has three numbers for each.

    >>> gates = Circuit(inputs=[2, 4], gates=[(6, 4, 2), (8, 7, 3)]).gates
    >>> gates[-1].left, list(gates.words[::3])
    (7, [6, 8])
    >>> gates.words[4] ^= 1
    >>> gates
    [Gate(literal=6, left=4, right=2), Gate(literal=8, left=6, right=3)]

    Where they are many, ``tuples`` are unpacked in a sixth of the time that these take, and ``pairs`` are one call.
    """

    def __init__(self, entry: Callable[[int, int, int], Any], given: Iterable[Any]) -> None:
        self.entry = entry
        if isinstance(given, Entries):
            given = given.words
        elif not isinstance(given, array):
            given = itertools.chain.from_iterable(entry(*numbers) for numbers in given)
        self.words: "array[int]" = _words(given)
        if len(self.words) % 3:
            raise ValueError(f"{len(self.words)} words are not three for each {entry.__name__}")

    def __len__(self) -> int:
        return len(self.words) // 3

    def __iter__(self) -> Iterator[Any]:
        word = iter(self.words)
        # as map(self.entry, word, word, word), in half the time
        return map(_NEW, itertools.repeat(self.entry), zip(word, word, word))

    def tuples(self) -> Iterator[Tuple[int, int, int]]:
        """The same entries as plain tuples.

        >>> gates = Circuit(inputs=[2, 4], gates=[(6, 4, 2), (8, 7, 3)]).gates
        >>> [left for literal, left, right in gates.tuples()]
        [4, 7]
        """
        word = iter(self.words)
        return zip(word, word, word)

    def pairs(self) -> "array[int]":
        """What stands behind the literals, as one array with two numbers for each entry: the operands of a gate, or the
        next state and the reset of a latch.

        >>> Circuit(inputs=[2, 4], gates=[(6, 4, 2), (8, 7, 3)]).gates.pairs()
        array('I', [4, 2, 7, 3])
        """
        pairs = array("I", bytes(2 * self.words.itemsize * len(self)))
        pairs[::2], pairs[1::2] = self.words[1::3], self.words[2::3]
        return pairs

    def __getitem__(self, index: Any) -> Any:
        if isinstance(index, slice):
            return [self[at] for at in range(*index.indices(len(self)))]
        at = 3 * range(len(self))[index]
        return self.entry(*self.words[at : at + 3])

    def __eq__(self, other: Any) -> bool:
        return bool(self.words == other.words if isinstance(other, Entries) else list(self) == other)

    def __repr__(self) -> str:
        return repr(list(self))


_LETTERS = "ilobcjf"
_KINDS = {letter: number for number, letter in enumerate(_LETTERS)}

# What is made of what a field is given.
_FIELDS: Dict[str, Callable[[Any], Any]] = {name: _words for name, width in _WIDTHS.items() if width == 1}
_FIELDS["latches"] = lambda given: Entries(Latch, given)
_FIELDS["gates"] = lambda given: Entries(Gate, given)
_FIELDS["symbols"] = lambda given: [Symbol(*symbol) for symbol in given]


# what a field has that is left out
_NOTHING: Any = ()


@dataclass(repr=False)
class Circuit:
    """A circuit. Its numbers stand in arrays, ``array("I")``, which ``numpy.asarray`` takes without a copy. Whoever
    makes or changes one may give lists, and leave out what it does not have; arrays are kept, and not copied.

    max_var            the largest variable; if it is left out, the largest that is defined
    inputs             literals, as are outputs, bad, constraints and fairness
    latches            a sequence of ``Latch``; all its numbers are the array ``latches.words``
    gates              a sequence of ``Gate``; all its numbers are the array ``gates.words``
    justice_sizes      how many literals each justice property has
    justice_literals   the literals of all these
    symbols            a list of ``Symbol``
    comment            bytes, or None
    numbers            where ``ordered`` was asked for: the new variable of each that was defined, in the order in which
                       it was: inputs, latches, gates

    >>> circuit = Circuit(inputs=[2, 4], outputs=[6], gates=[(6, 4, 2)], symbols=[("o", 0, b"both")])
    >>> circuit.write(ascii=True)
    b'aag 3 2 0 1 1\\n2\\n4\\n6\\n6 4 2\\no0 both\\n'
    >>> circuit.outputs = [8]
    >>> try:
    ...     circuit.write()
    ... except Refused as refused:
    ...     print(refused.kind.name, refused.entry, refused)
    LITERAL_RANGE ('outputs', 0) outputs[0]: literal out of range
    """

    max_var: Optional[int] = None
    inputs: "array[int]" = _NOTHING
    latches: Entries = _NOTHING
    outputs: "array[int]" = _NOTHING
    bad: "array[int]" = _NOTHING
    constraints: "array[int]" = _NOTHING
    justice_sizes: "array[int]" = _NOTHING
    justice_literals: "array[int]" = _NOTHING
    fairness: "array[int]" = _NOTHING
    gates: Entries = _NOTHING
    symbols: List[Symbol] = _NOTHING
    comment: Optional[bytes] = None
    numbers: "Optional[array[int]]" = None

    def __post_init__(self) -> None:
        if self.max_var is None:
            defined = self.inputs, self.latches.words[::3], self.gates.words[::3]
            self.max_var = max((max(literals) for literals in defined if literals), default=0) // 2

    def __setattr__(self, name: str, value: Any) -> None:
        made = value if value is None or name not in _FIELDS else _FIELDS[name](value)
        super().__setattr__(name, made)

    def __repr__(self) -> str:
        counts = ((len(getattr(self, name) or ()), name) for name in _WIDTHS)
        return f"<Circuit: max_var {self.max_var}{''.join(f', {count} {name}' for count, name in counts if count)}>"

    def _sections(self) -> "Dict[str, array[int]]":
        """The words of the sections before the symbols."""
        sections = {name: getattr(self, name) for name in _WIDTHS if name not in ("symbols", "numbers")}
        return {**sections, "latches": self.latches.words, "gates": self.gates.words}

    def _symbol_words(self) -> "array[int]":
        words, start = array("I"), 0
        for kind, position, name in self.symbols:
            words.extend((_KINDS.get(kind, len(_LETTERS)), position, start, len(name)))
            start += len(name)
        return words

    def _counts(self, sections: "Dict[str, array[int]]", name_bytes: int = 0) -> _Counts:
        largest: Any = self.max_var
        counts = _Counts(_number("max_var", largest), name_bytes=name_bytes)
        for name, (section, words) in zip(_COUNTED, sections.items()):
            setattr(counts, name, len(words) // _WIDTHS[section])
        if self.comment is not None:
            counts.has_comment, counts.comment_bytes = 1, len(self.comment)
        return counts

    def write(self, *, ascii: bool = False) -> bytes:
        """The AIGER file of the circuit, as ``aiger aigtoaig`` would write it. A circuit that is not right is refused
        with the first entry that is wrong.

        ascii   write ASCII, with variables and gates as they are, and not binary
        """
        sections = {**self._sections(), "symbols": self._symbol_words()}
        names = b"".join(name for _, _, name in self.symbols)
        words, data = b"".join(sections.values()), names + (self.comment or b"")
        options, counts = _options((ascii, _ASCII)), self._counts(sections, len(names))
        return _made(
            (3 if ascii else 1) * len(words) + len(data) + 64,
            lambda output, room, outcome: _library.aigtools_write(
                options, counts, words, len(words) // 4, data, len(data), output, room, outcome
            ),
            sections,
        )[0]

    def ordered(self) -> "Circuit":
        """The circuit as a binary file has it: inputs are the variables from 1 on, latches follow, then gates, each
        behind its operands. Its ``numbers`` say which variable was which.

        >>> circuit = Circuit(inputs=[6], outputs=[3], gates=[(2, 4, 6), (4, 6, 7)]).ordered()
        >>> circuit.gates
        [Gate(literal=4, left=3, right=2), Gate(literal=6, left=4, right=2)]
        >>> circuit.outputs, circuit.numbers
        (array('I', [7]), array('I', [1, 3, 2]))
        """
        return read(self.write(ascii=True), ordered=True)

    def named(self, name: str, kind: Optional[str] = None) -> List[Named]:
        """What has this name. Where no symbol is this name, the bits of a word, ``name[0]`` and so on, lowest first; or
        what has this letter and position, as b0. A KeyError where there is nothing.

        kind   the letter of what alone is looked for: i, l, o, b, c, j or f

        >>> circuit = read(b"aag 2 2 0 1 0 1\\n2\\n4\\n3\\n5\\ni0 key[1]\\ni1 key[0]\\no0 open\\n")
        >>> circuit.named("open")
        [Named(kind='o', position=0, name='open', literals=(3,))]
        >>> [it.literals for it in circuit.named("key")]
        [(4,), (2,)]
        >>> circuit.named("b0")[0].literals
        (5,)
        """
        form = re.compile(re.escape(name.encode("utf-8", "surrogateescape")) + rb"(?:\[(\d+)\])?")
        matches = [(it, form.fullmatch(it.name)) for it in self.symbols if kind in (None, it.kind)]
        found = [(it, match[1]) for it, match in matches if match]
        those = [it for it, bit in found if bit is None]
        if not those:
            those = [it for it, _ in sorted(found, key=lambda it: (_KINDS[it[0].kind], int(it[1] or 0)))]
        if not those and self._has(name[:1], name[1:]) and kind in (None, name[:1]):
            those = [Symbol(name[:1], int(name[1:]), name.encode())]
        if not those:
            raise KeyError(name)
        return [Named(*it[:2], it.name.decode("utf-8", "surrogateescape"), self._literals(*it[:2])) for it in those]

    def value(self, step: Step, name: str, kind: Optional[str] = None) -> Optional[int]:
        """The value that a signal or a word of this name has in a step, as a number; None where a bit of it is x.

        >>> counter = Circuit(latches=[(2, 3, 0), (4, 6, 1)], gates=[(6, 4, 2)], symbols=[("l", 0, b"n[0]"), ("l", 1, b"n[1]")])
        >>> counter.value(counter.step([]), "n")
        2
        """
        those = self.named(name, kind)
        kinds = {it.kind for it in those}
        if len(kinds) > 1 or "j" in kinds:
            raise ValueError(f"{name} is no signal alone; kind is one of {', '.join(sorted(kinds))}")
        bits = [step.values[it.literals[0] // 2] for it in those]
        if 2 in bits:
            return None
        return sum((bit ^ it.literals[0] & 1) << place for place, (bit, it) in enumerate(zip(bits, those)))

    def _of_kind(self, kind: str) -> "Sequence[Any]":
        """What there is of the kind of this letter: literals, latches, or for justice properties their sizes."""
        found = (self.inputs, self.latches, self.outputs, self.bad, self.constraints, self.justice_sizes, self.fairness)
        return found[_KINDS[kind]]

    def _has(self, kind: str, position: str) -> bool:
        """Whether there is something of this letter and position."""
        is_number = re.fullmatch("0|[1-9][0-9]{0,9}", position)
        return kind in _KINDS and bool(is_number) and int(position) < len(self._of_kind(kind))

    def _literals(self, kind: str, position: int) -> Tuple[int, ...]:
        """The literals of what has this letter and position."""
        found = self._of_kind(kind)[position]
        if kind != "j":
            return (found.literal if kind == "l" else found,)
        start = sum(self.justice_sizes[:position])
        return tuple(self.justice_literals[start : start + found])

    def first_state(self) -> bytes:
        """A byte for each latch: its reset, or 2 where it is uninitialised.

        >>> Circuit(latches=[(2, 4, 0), (4, 2, 1), (6, 6, 6)]).first_state()
        b'\\x00\\x01\\x02'
        """
        return bytes(min(reset, 2) for reset in self.latches.words[2::3])

    def step(self, inputs: Iterable[int], state: Optional[Iterable[int]] = None) -> Step:
        """The values of a step, by those of inputs and latches: 0, 1, or 2 for x. Without a state it is the first step.
        The circuit must be in order, as from ``ordered`` or from a binary file, or it is refused: NOT_ORDERED.

        >>> toggle = Circuit(inputs=[2], latches=[(4, 10, 0)], outputs=[4], gates=[(6, 4, 2), (8, 5, 3), (10, 9, 7)])
        >>> step = toggle.step([1])
        >>> step.outputs, step.next
        (b'\\x00', b'\\x01')
        >>> toggle.step([2], step.next).next
        b'\\x02'
        """
        given = {"inputs": bytes(iter(inputs)), "state": self.first_state() if state is None else bytes(iter(state))}
        for (name, values), wanted in zip(given.items(), (self.inputs, self.latches)):
            if len(values) != len(wanted):
                raise ValueError(f"{name} has {len(values)} values, and not {len(wanted)}")
        sections, outcome = self._sections(), _Outcome()
        words, counts = b"".join(sections.values()), self._counts(sections)
        shown = [len(part) for part in (self.outputs, self.bad, self.constraints, self.latches)]
        values = bytearray(b"".join((b"\0", *given.values(), bytes(len(self.gates) + sum(shown)))))
        if _library.aigtools_step(counts, words, len(words) // 4, _address(values), len(values), outcome) != _DONE:
            _raise(outcome, {"constant": b"\0", **given})
        at = [*itertools.accumulate(shown, initial=len(values) - sum(shown))]
        return Step(*(bytes(values[begin:end]) for begin, end in zip([0, *at], at)))


def _guessed_words(data: bytes) -> int:
    """How many words a file may come to: by its header, with some for symbols, and by its length."""
    counts = (int(word) for word in data[:120].split(b"\n")[0].split()[2:10] if word.isdigit())
    told: int = sum(map(operator.mul, counts, (2, 4, 1, 4, 1, 1, 1, 1)))
    return min(told + len(data) // 4, 2 * len(data), _LARGEST_GUESS // 4) + 16


def _circuit(counts: _Counts, ordered: bool, words: memoryview, data: bytearray) -> Circuit:
    """The circuit that words and bytes tell."""
    numbers = counts.inputs + counts.latches + counts.gates
    fields: Dict[str, Any] = {}
    at = 0
    for (name, width), count in zip(_WIDTHS.items(), [*(getattr(counts, it) for it in _COUNTED), numbers]):
        fields[name] = array("I")
        fields[name].frombytes(words[at : at + 4 * width * count])
        at += 4 * width * count
    names, ends = bytes(memoryview(data)[: counts.name_bytes]), counts.name_bytes + counts.comment_bytes
    word = iter(fields["symbols"])
    fields["symbols"] = [
        (_LETTERS[kind], position, names[start : start + length])
        for kind, position, start, length in zip(word, word, word, word)
    ]
    comment = bytes(memoryview(data)[counts.name_bytes : ends]) if counts.has_comment else None
    fields["numbers"] = fields["numbers"] if ordered else None
    return Circuit(counts.max_var, comment=comment, **fields)


def read(data: Union[Data, str, "os.PathLike[str]"], *, ordered: bool = False, max_var: int = LARGEST) -> Circuit:
    """The circuit of an AIGER file, with variables and gates as they stand there.

    data      the bytes of the file, or its name, as a string or a path
    ordered   as ``convert`` would write it in binary: see ``Circuit.ordered``
    max_var   refuse a file with a larger index, or with more of a kind

    >>> circuit = read(b"aag 1 0 1 1 0\\n2 3\\n2\\nl0 bit\\nc\\ntoggle\\n")
    >>> circuit
    <Circuit: max_var 1, 1 latches, 1 outputs, 1 symbols>
    >>> circuit.latches[0], circuit.symbols, circuit.comment
    (Latch(literal=2, next=3, reset=0), [Symbol(kind='l', position=0, name=b'bit')], b'toggle\\n')
    """
    data = Path(data).read_bytes() if isinstance(data, (str, os.PathLike)) else _bytes(data)
    options, limit = _options((ordered, _ORDERED)), _number("max_var", max_var)
    counts, outcome, room, names = _Counts(), _Outcome(), _guessed_words(data), bytearray(len(data) + 1)
    while True:
        words = bytearray(4 * room)
        status = _library.aigtools_read(
            options, limit, data, len(data), _address(words), room, _address(names), len(names), counts, outcome
        )
        if status == _DONE:
            return _circuit(counts, bool(ordered), memoryview(words), names)
        if status != _TOO_SHORT:
            _raise(outcome)
        room = outcome.length


def version() -> str:
    """The version of the library."""
    number = _library.aigtools_version()
    return f"{number >> 16}.{number >> 8 & 255}.{number & 255}"
