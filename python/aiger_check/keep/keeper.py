"""What is kept of answers."""

import hashlib
import re
from pathlib import Path
from typing import List, Sequence, Set

from aiger_check.answers import Assertion, Verdict
from aiger_check.faults import Trouble, visible
from aiger_check.keep.waves import of_witness
from aiger_check.keep.whole import put_whole
from aiger_check.tools.aiger import Aiger

#: what the files are called that show the answers of all pairs at once
TOGETHER = "together"
#: the end of the name of a waveform of a whole design
DESIGN = ".design.vcd"
#: how the names of the files end that show an answer
SUFFIXES = (".aiw", ".vcd", DESIGN, ".stimulus", ".drat", ".pla", ".check.sh")


class Keeper:
    """Puts what shows the answers into the user's folder, each file at once."""

    #: what the model's file is called, and of what a script speaks
    called, shown = "model", "the model with this digest"

    def __init__(self, folder: Path, model: Path, aiger: Aiger) -> None:
        self.folder, self.path, self.aiger = folder, model, aiger
        # no assertion may have the name of what shows all
        self.names: Set[str] = {TOGETHER}
        self.has_all = False
        #: of each kept model the line that says its digest
        self.digests: List[str] = []
        folder.mkdir(parents=True, exist_ok=True)
        self.remove(TOGETHER)
        self.model = self.put_model(self.called, model)
        #: the words by which all of it is asked for again
        self.again = [self.model]

    def put_model(self, name: str, path: Path) -> str:
        """Keeps a model by a name that has its digest."""
        data = path.read_bytes()
        digest = hashlib.sha256(data).hexdigest()
        kept = f"{name}-{digest[:16]}.aig"
        self.put(kept, data)
        self.digests.append(f"{digest}  {kept}")
        return kept

    def put(self, name: str, data: bytes, mode: int = 0o666) -> Path:
        return put_whole(self.folder / name, data, mode)

    def name(self, assertion: Assertion) -> str:
        """A name for the files of an assertion, which no other has."""
        base = re.sub(r"[^A-Za-z0-9_.+-]", "_", assertion.file).lstrip(".-")[:100] or "assertion"
        name, count = base, 1
        while name.lower() in self.names:
            count += 1
            name = f"{base}-{count}"
        self.names.add(name.lower())
        return name

    def remove(self, name: str) -> None:
        """Removes what an earlier run kept by a name, so that no proof of another answer stands there."""
        for suffix in SUFFIXES:
            place = self.folder / f"{name}{suffix}"
            try:
                place.unlink(missing_ok=True)
            except OSError as why:
                raise Trouble(f"{visible(str(place))}: {why.strerror}") from why

    def keep(self, assertion: Assertion, verdict: Verdict) -> None:
        name = self.name(assertion)
        self.remove(name)
        if verdict.witness:
            self.put_run(name, assertion, verdict, verdict.witness)
            verdict.kept = self.put(f"{name}.aiw", verdict.witness.read_bytes())
        if verdict.refutation:
            proof = self.put_proof(TOGETHER if verdict.of_all else name, verdict, verdict.refutation)
            options = self.options(proof, assertion, verdict)
            asks = self.asks_of_rest(options, verdict.left_out) if verdict.left_out else self.asks(options)
            self.put_script(name, assertion, verdict, [*asks, f'[ "$answer" = "{verdict.claim()}" ]'])

    def put_run(self, name: str, assertion: Assertion, verdict: Verdict, witness: Path) -> None:
        """Keeps what shows the run of a witness."""
        self.put(f"{name}.vcd", of_witness(self.aiger, self.path, witness))

    def put_proof(self, name: str, verdict: Verdict, refutation: Path) -> str:
        """Keeps what shows an answer; what shows all answers is kept once."""
        if not (verdict.of_all and self.has_all):
            self.put(f"{name}.drat", refutation.read_bytes())
            if verdict.invariant:
                self.put(f"{name}.pla", verdict.invariant.read_bytes())
        self.has_all = self.has_all or verdict.of_all
        return name

    def put_script(self, name: str, assertion: Assertion, verdict: Verdict, asks: List[str]) -> None:
        """Keeps what checks the answer again, by aiger alone."""
        checks = [f'echo "{line}" | sha256sum --check --quiet || exit 1' for line in self.digests]
        lines = [
            "#!/bin/sh",
            f"# {assertion}: {assertion.said(verdict)}",
            f"# Ends with 0 exactly if aiger says so again, of {self.shown}.",
            'CDPATH= cd -- "$(dirname -- "$0")" || exit 2',
            *checks,
            *asks,
        ]
        self.put(f"{name}.check.sh", "\n".join([*lines, ""]).encode(errors="replace"), 0o777)

    def options(self, proof: str, assertion: Assertion, verdict: Verdict) -> str:
        """The words by which aigunroll is asked again."""
        how = f"--invariant {proof}.pla" if verdict.invariant else f"--frames {verdict.steps}"
        of = "" if verdict.of_all else "{} {} ".format(*assertion.option)
        return f"{how} {of}{'--simplify ' * verdict.simplified}--refutation {proof}.drat"

    def asks(self, options: str) -> List[str]:
        """The lines that get an answer of the model."""
        return [f'answer=$("${{AIGER:-aiger}}" aigunroll {options} {self.model}) || exit 1']

    def asks_of_rest(self, options: str, left_out: Sequence[int]) -> List[str]:
        """The lines that get an answer of the model without some of its bad states."""
        return [
            "aiger=${AIGER:-aiger}",
            f'answer=$("$aiger" aigtoaig --ascii --strip {self.model} |',
            f"""  awk -v without=" {' '.join(map(str, left_out))} " '{WITHOUT}' |""",
            f'  "$aiger" aigunroll {options} -) || exit 1',
        ]


#: for awk: of an ASCII file the header with fewer bad states, and all lines but theirs
WITHOUT = """\
NR == 1 {
    first = 2 + $3 + $4 + $5; last = first + $7
    for (at = first; at < last; at++) if (index(without, " " (at - first) " ")) $7--
}
NR >= first && NR < last && index(without, " " (NR - first) " ") { next }
{ print }"""
