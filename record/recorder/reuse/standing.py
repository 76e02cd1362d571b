"""What stood at each place when the last of some recordings had ended."""

from __future__ import annotations

from collections.abc import Iterable

from ..fields import canonical
from .recording import Recording, Run

_NOTHING = -2


class Standing:
    """The contents that the commands of earlier recordings left, the later ones over the earlier ones, and the stamps
    of their outputs."""

    def __init__(self, recordings: Iterable[Recording]) -> None:
        """The recordings stand in the order of time. Raises BadRecording."""
        self._contents: dict[int, int | None] = {}
        self._stamps: dict[bytes, int] = {}
        for it in recordings:
            for edge in it.observed:
                run = it.run_of(edge)
                if run is not None:
                    self._contents.update(dict.fromkeys(run.taken, _NOTHING))
                    self._contents.update(run.left)
            for number, stamps in it.history.left.items():
                edge = it.manifest.edges[number]
                self._stamps.update(zip(map(canonical, edge.outputs), stamps))

    def is_same(self, run: Run) -> bool | None:
        """Whether a command left what stood there; None where that is not certain."""
        is_certain = True
        for place, content in run.left.items():
            before = self._contents.get(place, _NOTHING)
            if content is None or before is None:
                is_certain = False
            elif content != before:
                return False
        if any(it not in run.left and self._contents.get(it, _NOTHING) != _NOTHING for it in run.taken):
            return False
        return True if is_certain else None

    def stamp(self, path: bytes) -> int | None:
        """The stamp of an output when the last command that left it had ended."""
        return self._stamps.get(path)
