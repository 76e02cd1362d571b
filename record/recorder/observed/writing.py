"""Writes version 1 of the file `observed`: what each command read and wrote, paths once and sets as ranges of
numbers."""

from __future__ import annotations

from array import array
from collections import defaultdict
from collections.abc import Iterable, Iterator
from typing import Any, BinaryIO

from ..fields import field
from .filters import NINJA_LOGS
from .footprints import (FOLDER, IMPORTED, LINK_EDITED, LINK_READ, LINK_SEEN, LINK_WRITTEN, LISTED, MISSING, MODE, READ,
                         STATUS, THERE, Packed)
from .naming import Names
from .places import Places
from .processes import Command
from .programs import can_be_module

KINDS = ("reads", "stats", "misses", "lists", "writes", "edits", "deletes", "temps", "folders")
"""The kinds of the file, in its order."""

_LEAVES = ("writes", "edits", "deletes")
_MAKES = (*_LEAVES, "temps", "folders")
_STATS = STATUS | MODE | THERE | FOLDER | LINK_SEEN


def kinds_of(packed: Packed) -> dict[str, array[int]]:
    """A footprint as version 1 has it: for each kind the numbers of its places, in rising order; `imports` besides."""
    found: defaultdict[str, set[int]] = defaultdict(set)
    looks = [*zip(packed.places, packed.looks), *(it for its in packed.asked for it in its.places.items())]
    for place, look in looks:
        if look & (READ | LINK_READ):
            found["reads"].add(place)
        if look & _STATS:
            found["stats"].add(place)
        if look & MISSING:
            found["misses"].add(place)
        if look & LISTED:
            found["lists"].add(place)
        if look & IMPORTED:
            found["imports"].add(place)
        if look & (LINK_WRITTEN | LINK_EDITED):
            found["writes"].add(place)
        if look & LINK_EDITED:
            found["edits"].add(place)
    for place, it in packed.touched.items():
        if it.is_there:
            found["folders" if it.is_folder else "writes"].add(place)
            if it.is_edited and not it.is_folder:
                found["edits"].add(place)
        elif it.existed or it.is_edited:
            found["deletes"].add(place)
        elif not it.is_folder:
            found["temps"].add(place)
        else:  # a folder of the command's own, which nobody else filled
            found["lists"].discard(place)
    found["stats"] -= found["reads"] | found["lists"]
    return {kind: array("I", sorted(its)) for kind, its in found.items() if its}


class Observed:
    """What is written of the commands of a build; `pairs` has each with its edge, in the order of the starts."""

    def __init__(self, pairs: list[tuple[Any, Command]], places: Places, names: Names) -> None:
        self.pairs, self.places, self.names = pairs, places, names
        self._sets = {id(it): kinds_of(it.packed) if it.packed is not None else {} for _, it in pairs}
        self._left: set[int] = set()
        self._made: set[int] = set()
        uses: dict[int, int] = defaultdict(int)
        for sets in self._all_sets():
            self._left.update(*(sets.get(it, ()) for it in _LEAVES))
            self._made.update(*(sets.get(it, ()) for it in _MAKES))
            for place in sets.get("temps", ()):
                uses[place] += 1
        self._shared = self._temps_of_others(uses)
        self._modules = self._possible_modules()

    def _all_sets(self) -> Iterator[dict[str, array[int]]]:
        return iter(self._sets.values())

    def _temps_of_others(self, uses: dict[int, int]) -> set[int]:
        """The temporaries with which another command than the one whose they are has to do."""
        shared = {place for place, count in uses.items() if count > 1}
        for sets in self._all_sets():
            for kind, its in sets.items():
                if kind != "temps":
                    shared.update(uses.keys() & its if len(its) < len(uses) else {it for it in its if it in uses})
        return shared

    def _possible_modules(self) -> dict[bytes, list[int]]:
        """By its folder, each place that a command makes and that Python's import would take for a module."""
        found: dict[bytes, list[int]] = defaultdict(list)
        for place in sorted(self._made):
            path = self.places.paths[place]
            folder, _, name = path.rpartition(b"/")
            if can_be_module(name):
                found[folder].append(place)
                if name == b"__init__.py":
                    found[folder.rpartition(b"/")[0]].append(place)
        return found

    def is_named(self, kind: str, place: int) -> bool:
        """Whether a place is named; one that is not holds no race."""
        if kind == "misses":
            return place in self._made or place in self.names.outputs
        return self.names.is_inside(place) or place in self._left or place in self._shared

    def sets_of(self, command: Command) -> Iterator[tuple[str, list[int]]]:
        """The places of each kind, with what Python's import asked of: modules by their compiled copies, and entries
        of the folders that it listed."""
        sets: dict[str, Any] = dict(self._sets[id(command)])
        reads = set(sets.get("reads", ()))
        added = self._sources_of_compiled(reads) - reads
        if added:
            sets["reads"] = sorted({*reads, *added})
        asked = {it for folder in sets.pop("imports", ()) for it in self._modules.get(self.places.paths[folder], ())}
        changed = {it for kind in _MAKES for it in sets.get(kind, ())}
        stats = {*sets.get("stats", ()), *(asked - changed)} - reads - added
        sets["stats"] = sorted(stats)
        for kind in KINDS:
            if sets.get(kind):
                yield kind, sets[kind]

    def _sources_of_compiled(self, reads: set[int]) -> set[int]:
        found = set()
        for place in reads:
            path = self.places.paths[place]
            if path.endswith(b".pyc") and b"/__pycache__/" in path:
                folder, _, name = path.rpartition(b"/__pycache__/")
                found.add(self.places.number(folder + b"/" + name.split(b".")[0] + b".py"))
        return found

    def write(self, file: BinaryIO, by: bytes) -> list[bytes]:
        """Writes the whole file; gives the places that it names."""
        numbers: dict[int, int] = {}
        body: list[bytes] = []
        for edge, command in self.pairs:
            flags = [it.encode() for it in command.whole.words_of_version_1]
            body.append(b" ".join([b"edge", field(edge.name), *flags]))
            outside: set[int] = set()
            for kind, its in self.sets_of(command):
                named = [numbers.setdefault(it, len(numbers)) for it in its if self.is_named(kind, it)]
                if named:
                    body.append(kind.encode() + b" " + ranges(named))
                outside.update(it for it in its if self._is_outside(kind, it))
            if outside:
                body.append(b"outside %d" % len(outside))
        paths = [self.names.of(it) for it in numbers]
        file.write(b"rebug-observed 1\nby " + field(by) + b"\n")
        file.writelines(b"path " + field(it) + b"\n" for it in paths)
        file.writelines(it + b"\n" for it in body)
        return paths

    def inner_logs(self) -> dict[bytes, list[Any]]:
        """The logs that a Ninja leaves which a command runs, each with the edges of these commands."""
        logs = {it for it, path in enumerate(self.places.paths) if path.rpartition(b"/")[2] in NINJA_LOGS} & self._left
        found: dict[bytes, list[Any]] = {self.names.of(it): [] for it in sorted(logs)}
        for edge, command in self.pairs if logs else ():
            sets = self._sets[id(command)]
            for place in logs.intersection(it for kind in _LEAVES for it in sets.get(kind, ())):
                found[self.names.of(place)].append(edge)
        return found

    def _is_outside(self, kind: str, place: int) -> bool:
        """Whether a place is one of those that are counted and not named."""
        return kind != "temps" and not self.names.is_inside(place) and not self.is_named(kind, place)


def ranges(numbers: Iterable[int]) -> bytes:
    """Numbers in rising order, where a run of them is written by its ends."""
    parts: list[bytes] = []
    first = last = None
    for it in [*sorted(set(numbers)), None]:
        if last is not None and it == last + 1:
            last = it
            continue
        if first is not None:
            parts.append(b"%d" % first if first == last else b"%d-%d" % (first, last))
        first = last = it
    return b" ".join(parts)
