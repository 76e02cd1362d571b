"""What becomes of an input that Ninja took for a source, since a file that was loaded later says what makes it.

Between the two commands there is then neither an order nor dirtiness, and the resolved manifest would have both. Where
the user did not run, and a dyndep file says the input, the input is left out. Where the user ran, the order holds all
the same in one case: the file was loaded before Ninja started anything that the user's target leads to. In every other
case the manifest has a race of its own, of which nothing is certain.
"""

from __future__ import annotations

from dataclasses import dataclass, field

from ..fields import shown
from ..ninja import Ninja
from ..rules import IDLE
from .looking import Apart, Looked
from .resolving import Resolving

_NAMED = 5
# Up to 1.11 Ninja puts commands that are ready into its queue target by target, later when it has looked at all.
_QUEUES_AT_THE_END = (1, 12)


@dataclass
class Orders:
    """What is left out of the resolved manifest, by edge; what is said of that; and what has no order."""

    inputs: dict[int, set[bytes]] = field(default_factory=dict)
    outputs: dict[int, set[bytes]] = field(default_factory=dict)
    notes: list[str] = field(default_factory=list)
    unordered: list[str] = field(default_factory=list)

    @property
    def left_out(self) -> list[tuple[int, bytes, bool]]:
        """Each path that is left out: of which edge, and whether it is an output."""
        return [(number, path, is_output) for found, is_output in ((self.inputs, False), (self.outputs, True))
                for number, paths in sorted(found.items()) for path in sorted(paths)]

    def leave_out(self, resolving: Resolving) -> None:
        """Takes the paths away again."""
        for number in sorted({*self.inputs, *self.outputs}):
            resolving.leave_out(number, self.inputs.get(number, set()), self.outputs.get(number, set()))
        self.notes = self.notes[:_NAMED] + self.unordered[:_NAMED]


def decided(looked: Looked, resolving: Resolving, has_run: list[bool], ninja: Ninja) -> Orders:
    """What becomes of each such input. What has no order is left out as an output of its maker: so the recording has a
    file that the command writes without saying so, as Ninja took it."""
    found = Orders()
    for it in looked.apart:
        maker = resolving.maker_told[it.path]
        if not has_run[maker] and (not has_run[it.user] or looked.marks.get(maker) == IDLE):
            continue
        text = (f"{shown(resolving.manifest.edges[it.user].name)} has the input {shown(it.path)}, of which the dyndep "
                f"file {shown(it.file)} alone says what makes it, and Ninja looks at it before it loads that file: "
                f"it takes {shown(it.path)} for a source")
        told = resolving.told.get(it.user)
        if has_run[it.user]:
            if it.is_late or not _is_loaded_first(looked, it, ninja):
                found.unordered.append(text)
                found.outputs.setdefault(maker, set()).add(it.path)
        elif told is not None and it.path in told.inputs:
            found.inputs.setdefault(it.user, set()).add(it.path)
            found.notes.append(f"{text}. It did not run, though {shown(it.path)} was made: the recording leaves this "
                               f"input out, as Ninja had it")
        else:
            found.unordered.append(text)
            found.outputs.setdefault(maker, set()).add(it.path)
    return found


def _is_loaded_first(looked: Looked, it: Apart, ninja: Ninja) -> bool:
    """Whether the file was loaded before anything that the user's target leads to could start."""
    if ninja.version >= _QUEUES_AT_THE_END:
        return True
    return looked.target_of_file[it.file] <= looked.target_of[it.user]
