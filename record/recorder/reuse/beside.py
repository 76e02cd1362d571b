"""A recording beside another one: the edges, places and environments of the one as those of the other."""

from __future__ import annotations

from collections.abc import Sequence
from dataclasses import dataclass, field

from ..fields import canonical
from ..manifest import Edge
from .recording import Recording
from .shared import Folders, Shared, is_below

OWN_VARIABLES = frozenset((b"_", b"SHLVL", b"PWD", b"OLDPWD"))
"""What a shell sets by itself."""


@dataclass(frozen=True)
class Without:
    """What the user takes for the same: variables of the environment by their names, or all."""

    names: frozenset[bytes] = frozenset()
    is_all: bool = False


@dataclass
class Beside:
    """A recording beside the one whose commands are judged. `edges` are those whose commands ran, by their keys.
    `others` are variables of the environment that have other values than those of the commands to be judged, None where
    that cannot be compared; `aside` are the places that are set aside, each with the number of commands that speak for
    it."""

    recording: Recording
    folders: Folders
    edges: dict[bytes, Edge]
    others: list[bytes] | None
    aside: dict[int, int] = field(default_factory=dict)


def beside(judged: Recording, other: Recording, shared: Shared, without: Without) -> Beside:
    """Another recording beside the one whose commands are judged, which has contents. Raises BadRecording."""
    if not other.has_contents:
        return Beside(other, Folders([], []), _edges(judged, other, Folders([], [])), [])
    own, its = other.folders, judged.folders
    folders = Folders(own, its) if len(own) == len(its) else Folders(own[:1], its[:1])
    other.share(shared, folders)
    return Beside(other, folders, _edges(judged, other, folders), _other_variables(judged, other, without))


def key_of(judged: Recording, name: bytes) -> bytes:
    """What an edge is called in both recordings: its first output, from the build folder of the one that is judged."""
    return name.removeprefix(judged.entries.build + b"/")


def text_of(recording: Recording, edge: Edge) -> bytes:
    """What a command does: its text, and that of its response file. Raises BadRecording."""
    value = recording.manifest.value
    return value(edge, b"command") + b"\0" + value(edge, b"rspfile_content")


class Candidates:
    """Says of a place whether it may be set aside: it is of the system, no command leaves it, and it is no program."""

    def __init__(self, recordings: Sequence[Recording], shared: Shared) -> None:
        """The recording whose commands are judged comes first."""
        self._left = set[int]().union(*(it.left for it in recordings if it.has_contents))
        self._shared, self._tops = shared, set(recordings[0].folders)
        self._known: dict[int, bool] = {}

    def __call__(self, place: int) -> bool:
        if place not in self._known:
            is_ours = place in self._left or is_below(self._shared.paths[place], self._tops)
            self._known[place] = not (is_ours or place in self._shared.programs)
        return self._known[place]


def _edges(judged: Recording, other: Recording, folders: Folders) -> dict[bytes, Edge]:
    """The edges whose commands ran there, by their keys."""
    edges = (other.manifest.edges[number] for number in other.history.started)
    return {key_of(judged, folders.path(canonical(it.name))): it for it in edges}


def _other_variables(judged: Recording, other: Recording, without: Without) -> list[bytes] | None:
    if without.is_all:
        return []
    if judged.entries.key != other.entries.key:
        return None
    one, its = judged.entries.environment, other.entries.environment
    left_out = without.names | OWN_VARIABLES
    return sorted(it for it in one.keys() | its.keys() if one.get(it) != its.get(it) and it not in left_out)
