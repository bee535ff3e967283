"""Compares what aiginfo, aigselect and aigtodot write of circuits made by chance with what is found here.

The circuits are those of images.py. The numbers must be those that are counted here, as lines and as a JSON object, which
the module json must read. Of a selection by some positions, perhaps given twice or beyond the last one, the text must be that
of the circuit that is made here, to ASCII and to binary, or the first position that is not there must be told; and each step of
its traces must be the source's without what is left out. A picture must be the graph that is drawn here, of all or of a place
over one step or all, or the place that is not there or the number of gates must be told.
"""
import dataclasses
import json
import random
import subprocess

from lib import images, traces

CIRCUITS = 600
LETTERS = "ilobcjf"
MISSING = {"o": "output", "b": "bad state", "c": "constraint", "j": "justice property", "f": "fairness constraint"}


def run(program, text, *words):
    """What comes of a call: standard output, standard error and the status."""
    ran = subprocess.run([program, *words], input=text, capture_output=True, check=False)
    return ran.stdout, ran.stderr, ran.returncode


def refused(what):
    return b"", f"aiger: -: {what}\n".encode(), 1


def cone(made, literals, in_all_steps):
    """The variables on which literals depend, through next states only in all steps."""
    needs = {own // 2: operands for own, *operands in made.gates}
    if in_all_steps:
        needs |= {latch: [following] for latch, following in zip(made.latches, made.nexts)}
    found, left = set(), [literal // 2 for literal in literals]
    while left:
        variable = left.pop()
        if variable not in found:
            found.add(variable)
            left += [literal // 2 for literal in needs.get(variable, ())]
    return found


def named(made):
    """Each symbol: its letter, its position and its name, in their order."""
    lines = [line.split(" ", 1) for line in made.symbols.splitlines()]
    return [(front[0], int(front[1:]), name) for front, name in lines]


# ---- numbers


def levels(made):
    """How many gates stand on the longest path."""
    above = {}
    for own, *operands in images.placed(made.gates):
        above[own // 2] = 1 + max(above.get(it // 2, 0) for it in operands)
    return max(above.values(), default=0)


def numbers(made):
    """What is counted, by name."""
    used = cone(made, sum(made.lists(), []), in_all_steps=True)
    sizes = {"inputs": made.inputs, "latches": made.latches, "outputs": made.outputs, "gates": made.gates, "bad": made.bad}
    sizes |= {"constraints": made.constraints, "justice": made.justice, "fairness": made.fairness}
    kinds = {"inputs": made.inputs, "latches": made.latches, "gates": [gate[0] // 2 for gate in made.gates]}
    return {
        "max_var": made.largest,
        **{name: len(of) for name, of in sizes.items()},
        "latches_at_one": made.resets.count("1"),
        "uninitialised_latches": made.resets.count("x"),
        "symbols": len(named(made)),
        "comment_bytes": len((made.comment or "").encode()),
        "levels": levels(made),
        **{f"used_{name}": len(used & {*of}) for name, of in kinds.items()},
        **{f"unused_{name}": len({*of} - used) for name, of in kinds.items()},
    }


def judge_numbers(program, made, _):
    """What is wrong with what is counted of this circuit, if anything is."""
    text, wanted = images.ascii_text(made), numbers(made)
    lines = "".join(f"{name} {number}\n" for name, number in wanted.items()).encode()
    if run(program, text, "aiginfo") != (lines, b"", 0):
        return f"it has other numbers: {text!r}"
    said, errors, status = run(program, text, "aiginfo", "--json")
    if (errors, status) != (b"", 0) or list(json.loads(said).items()) != list(wanted.items()):
        return f"it has another object: {text!r}"
    return None


# ---- selections


def selection(made, chosen):
    """The circuit with what is chosen of it, by letter and position, or what is not there."""
    lists = {"o": made.outputs, "b": made.bad, "j": made.justice}
    for letter, of in lists.items():
        for position in chosen[letter]:
            if position >= len(of):
                return f"no {MISSING[letter]} {position}"
    stays = {letter: [at for at in range(len(of)) if at in chosen[letter]] for letter, of in lists.items()}
    outputs, bad, justice = ([of[at] for at in stays[letter]] for letter, of in lists.items())
    it = dataclasses.replace(made, outputs=outputs, bad=bad, justice=justice, comment=None)
    it = dataclasses.replace(it, fairness=made.fairness if justice else [])
    used = cone(made, sum(it.lists(), []), in_all_steps=True)
    stays["i"], stays["l"] = ([at for at, of in enumerate(some) if of in used] for some in (made.inputs, made.latches))
    stays["c"], stays["f"] = range(len(made.constraints)), range(len(it.fairness))
    left = [(letter, at, name) for letter, at, name in named(made) if at in stays[letter]]
    return dataclasses.replace(
        it,
        inputs=[made.inputs[at] for at in stays["i"]],
        latches=[made.latches[at] for at in stays["l"]],
        nexts=[made.nexts[at] for at in stays["l"]],
        resets=[made.resets[at] for at in stays["l"]],
        gates=[gate for gate in made.gates if gate[0] // 2 in used],
        symbols="".join(f"{letter}{[*stays[letter]].index(at)} {name}\n" for letter, at, name in left),
    )


def steps_differ(chance, made, it):
    """Whether a run of the selection shows other values than the source of all that it has."""
    orders, state = [images.placed(of.gates) for of in (made, it)], "".join(made.resets)
    part = "".join(it.resets)
    for _ in range(4):
        given = {variable: chance.choice("01x") for variable in made.inputs}
        values, others = ({0: "0", **given, **dict(zip(of.latches, at))} for of, at in ((made, state), (it, part)))
        for at, order in zip((values, others), orders):
            for own, *operands in order:
                at[own // 2] = traces.conjunction(*traces.values(at, operands))
        shown = [variable for variable in others if variable]
        if any(values[variable] != others[variable] for variable in shown):
            return True
        state, part = ("".join(traces.values(at, of.nexts)) for of, at in ((made, values), (it, others)))
    return False


def judge_selection(program, made, at):
    """What is wrong with a selection of this circuit, if anything is."""
    chance, text = random.Random(at), images.ascii_text(made)
    lists = {"o": made.outputs, "b": made.bad, "j": made.justice}
    more = chance.randrange(6) == 0
    every = [(letter, at) for letter, of in lists.items() for at in range(len(of) + more)] or [("o", 0)]
    picked = [chance.choice(every) for _ in range(chance.randrange(1, 5))]
    names = {"o": "--output", "b": "--bad", "j": "--justice"}
    words = [word for letter, at in picked for word in (names[letter], str(at))]
    it = selection(made, {letter: [at for of, at in picked if of == letter] for letter in lists})
    for options, spelled in (["--ascii"], images.ascii_text), ([], images.image):
        wanted = refused(it) if isinstance(it, str) else (spelled(it), b"", 0)
        come = run(program, text, "aigselect", *options, *words)
        if come != wanted:
            return f"{words} of {text!r}: wanted {wanted!r}, came {come!r}"
    if not isinstance(it, str) and steps_differ(chance, made, it):
        return f"{words} of {text!r}: it has other values"
    return None


# ---- pictures


def label(made, letter, at):
    """What stands in a label of what has this letter and position, which has at most one name."""
    name = dict(((of, place), name) for of, place, name in named(made)).get((letter, at), f"{letter}{at}")
    return name.replace("\\", "\\\\").replace('"', '\\"').replace("&", "&amp;")


def shown(made, letter, at):
    """The literals of what a circuit shows at a place, if it is there."""
    lists = dict(zip("obcjf", (made.outputs, made.bad, made.constraints, made.justice, made.fairness)))[letter]
    return None if at >= len(lists) else lists[at] if letter == "j" else [lists[at]]


def node(name, shape, words):
    return f'  {name} [shape={shape},label="{words}"];\n'


def arrow(literal, to):
    return f"  v{literal // 2} -> {to}{' [arrowhead=odot]' if literal % 2 else ''};\n"


def next_arrow(literal, latch):
    return f"  v{literal // 2} -> v{latch} [style=dotted,constraint=false{',arrowhead=odot' if literal % 2 else ''}];\n"


def drawn(made, places, found, in_all_steps):
    """The graph with these variables and what stands at these places."""
    starts = {"0": "reset 0", "1": "reset 1", "x": "uninitialised"}
    lines = [node("v0", "plaintext", "0")] if 0 in found else []
    for at, variable in enumerate(made.inputs):
        lines += [node(f"v{variable}", "invhouse", label(made, "i", at))] if variable in found else []
    for at, latch in enumerate(made.latches):
        if latch in found:
            lines.append(node(f"v{latch}", "box", f"{label(made, 'l', at)}\\n{starts[made.resets[at]]}"))
            lines += [next_arrow(made.nexts[at], latch)] if in_all_steps else []
    for own, *operands in made.gates:
        if own // 2 in found:
            lines += [node(f"v{own // 2}", "circle", str(own)), *(arrow(it, f"v{own // 2}") for it in operands)]
    for letter, at in places:
        lines.append(node(f"{letter}{at}", "house", label(made, letter, at)))
        lines += [arrow(literal, f"{letter}{at}") for literal in shown(made, letter, at)]
    return f"digraph aiger {{\n{''.join(lines)}}}\n".encode()


def picture(made, place, in_all_steps, most):
    """What comes where this place, or all, is to be drawn."""
    if place and shown(made, *place) is None:
        return refused(f"no {MISSING[place[0]]} {place[1]}")
    places = [(letter, at) for letter in "obcjf" for at in range(99) if shown(made, letter, at) is not None]
    defined = [2 * it for it in made.inputs + made.latches] + [gate[0] for gate in made.gates]
    literals = shown(made, *place) if place else defined + sum(made.lists(), [])
    found = cone(made, literals, in_all_steps or not place)
    count = sum(gate[0] // 2 in found for gate in made.gates)
    if count > most:
        return refused(f"{count} gates, more than --gates; draw less with --cone, or raise --gates")
    return drawn(made, [place] if place else places, found, in_all_steps or not place), b"", 0


def judge_picture(program, made, at):
    """What is wrong with a picture of this circuit, if anything is."""
    chance, text = random.Random(at), images.ascii_text(made)
    place = chance.choice([None, (chance.choice("obcjf"), chance.randrange(4))])
    in_all_steps, most = bool(place) and chance.choice([True, False]), chance.choice([1000, 1000, 3])
    words = [*(["--cone", f"{place[0]}{place[1]}"] if place else []), *["--all-steps"] * in_all_steps]
    words += [] if most == 1000 else ["--gates", str(most)]
    wanted, come = picture(made, place, in_all_steps, most), run(program, text, "aigtodot", *words)
    return None if come == wanted else f"{words} of {text!r}: wanted {wanted!r}, came {come!r}"


def cases(program, _):
    chance = random.Random(12)
    for at in range(CIRCUITS):
        made = images.circuit(chance, most_gates=chance.choice([3, 11, 25]))
        of = judge_numbers, judge_selection, judge_picture
        yield of[at % 3], program, made, at
