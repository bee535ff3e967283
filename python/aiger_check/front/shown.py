"""A design as Yosys read it, and a second model of it that shows all that the user named."""

import shutil
from dataclasses import dataclass
from pathlib import Path
from typing import List, Optional, Sequence

from aiger_check.front.second.probes import EXPOSE, Probed, Probes
from aiger_check.tools.processes import Children


@dataclass(frozen=True)
class WholeDesign:
    """What of a design makes a second model: the folder where it lies flat, its top module, its clock if it has one,
    and whether its steps are those of a global clock."""

    yosys: str
    folder: Path
    top: str
    clock: Optional[str]
    is_global: bool

    def probed(self, children: Children, folder: Path) -> Probed:
        """The second model, which is made in a folder of its own."""
        shutil.copy(self.folder / "flat.il", folder)
        return WithWords(self.yosys, children, folder).model(self.is_global)


class WithWords(Probes):
    """A second model that shows the words of memories too."""

    def script(self, clocks: Sequence[str]) -> List[str]:
        made = super().script(clocks)
        behind = 1 + next(at for at, it in enumerate(made) if it.startswith("memory_map"))
        return [*made[:behind], EXPOSE, *made[behind:]]
