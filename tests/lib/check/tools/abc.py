"""In the place of ABC: `read_aiger FILE` (or `read`, `&r`), then `pdr .. -I FILE`, of a small binary model, and perhaps
`write_cex -a FILE`.

    abc.py -q COMMANDS     COMMANDS have `; ` between them; also -c, and -f with a file that has them
"""
import itertools
import re
import sys


class Model:
    """A model of a binary file, whose latches start at 0: outputs and bad states are what is asked for."""

    def __init__(self, data):
        head, _, data = data.partition(b"\n")
        counts = [*map(int, head.split()[2:]), 0, 0, 0, 0]
        self.inputs, self.latches, outputs, gates, bad = counts[:5]
        if not head.startswith(b"aig ") or any(counts[5:8]):
            raise ValueError("no model of these commands")
        lines = data.split(b"\n", self.latches + outputs + bad)
        rest = lines.pop()
        self.nexts = [int(it.split()[0]) for it in lines[: self.latches]]
        self.ends = [int(it) for it in lines[self.latches :]]
        codes, self.gates = self.deltas(rest), []
        for at in range(self.inputs + self.latches + 1, self.inputs + self.latches + gates + 1):
            left = 2 * at - next(codes)
            self.gates.append((left, left - next(codes)))

    @staticmethod
    def deltas(data):
        """The numbers in the bytes of the gates."""
        value, place = 0, 0
        for byte in data:
            value |= (byte & 127) << place
            place += 7
            if byte < 128:
                yield value
                value, place = 0, 0

    def step(self, state, given):
        """The next state, and whether what is asked for is 1."""
        values = [0, *given, *state]
        for left, right in self.gates:
            values.append((values[left // 2] ^ left & 1) & (values[right // 2] ^ right & 1))
        ends = [tuple(values[it // 2] ^ it & 1 for it in literals) for literals in (self.nexts, self.ends)]
        return ends[0], any(ends[1])

    def reached(self):
        """The states that runs reach, and the inputs of the first run that is bad, or None."""
        every = list(itertools.product((0, 1), repeat=self.inputs))
        here, seen = {(0,) * self.latches: []}, set()
        while here:
            seen |= set(here)
            behind = {}
            for (state, run), given in itertools.product(here.items(), every):
                following, is_bad = self.step(state, given)
                if is_bad:
                    return seen, [*run, given]
                behind.setdefault(following, [*run, given])
            here = {state: run for state, run in behind.items() if state not in seen}
        return seen, None


def cubes(states, latches):
    """Cubes that meet all states but these."""
    found = []
    for state in itertools.product((0, 1), repeat=latches):
        row = list(state)
        if state in states or any(all(it in (None, x) for it, x in zip(cube, row)) for cube in found):
            continue
        for place in range(latches):
            kept, row[place] = row[place], None
            if any(all(it in (None, x) for it, x in zip(row, other)) for other in states):
                row[place] = kept
        found.append(row)
    return found


def pdr(model, file):
    """What is said of a model, with an invariant in this file; and the run of a counterexample."""
    if model.latches > 8 or model.inputs > 8:
        print("Property UNDECIDED.  Time =     0.00 sec")
        return None
    states, run = model.reached()
    if run is not None:
        print(f'Output 0 of miter "model" was asserted in frame {len(run) - 1}.  Time =     0.00 sec')
        return run
    rows = cubes(states, model.latches)
    with open(file, "w", encoding="ascii") as made:
        made.write(f"# Inductive invariant\n.i {model.latches}\n.o 1\n.p {len(rows)}\n")
        made.writelines("".join("-01"[0 if it is None else it + 1] for it in row) + " 1\n" for row in rows)
        made.write(".e\n\n")
    print("Property proved.  Time =     0.00 sec")
    return None


def write_counterexample(model, run, file):
    """The first state, then the inputs of each step."""
    if run is not None:
        lines = ["0" * model.latches, *("".join(map(str, given)) for given in run)]
        with open(file, "w", encoding="ascii") as made:
            made.write("\n".join(lines) + "# DONE\n")


def main(words):
    text = words[-1]
    if words[0] == "-f":
        with open(text, encoding="utf-8") as file:
            text = file.read()
    model = run = None
    for command in re.split(r"[;\n]", text):
        name, *rest = command.split() or [""]
        if name in ("read_aiger", "read", "&r", "&read"):
            with open(rest[-1].strip('"'), "rb") as file:
                model = Model(file.read())
        elif name == "pdr":
            run = pdr(model, rest[rest.index("-I") + 1].strip('"') if "-I" in rest else "/dev/null")
        elif name == "write_cex":
            write_counterexample(model, run, rest[-1].strip('"'))


if __name__ == "__main__":
    main(sys.argv[1:])
