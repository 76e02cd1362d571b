"""Writes the file `contents` (docs/FORMATS.md): versions once, and of each command which it met and left."""

from __future__ import annotations

import hashlib
from collections.abc import Iterable, Iterator
from dataclasses import dataclass, field as made_field
from typing import BinaryIO

from ..fields import field
from ..observed.places import Places
from ..observed.writing import ranges

Line = tuple[bytes, ...]


@dataclass
class Block:
    """What is written of one command: `number` is that of its block in `observed`. `read` and `left` are numbers of
    versions, all others are entries."""

    number: int
    read: list[int] = made_field(default_factory=list)
    left: list[int] = made_field(default_factory=list)
    there: list[int] = made_field(default_factory=list)
    missing: list[int] = made_field(default_factory=list)
    unsure: list[int] = made_field(default_factory=list)
    unsettled: list[int] = made_field(default_factory=list)

    def lines(self, entry: dict[int, int]) -> Iterator[bytes]:
        """Its lines; none where there is nothing to say."""
        found = [(b"read", self.read), (b"left", self.left)]
        for word, places in ((b"there", self.there), (b"missing", self.missing), (b"unsure", self.unsure),
                             (b"unsettled", self.unsettled)):
            found.append((word, [entry[it] for it in places]))
        if any(its for _, its in found):
            yield b"edge %d" % self.number
            yield from (word + b" " + ranges(its) for word, its in found if its)


class Text:
    """The text of a build. Entries that `observed` does not name get numbers behind its last one, and those of one
    folder follow each other. Versions have numbers in the order in which they are first mentioned."""

    def __init__(self, places: Places, told: dict[int, int]) -> None:
        self.blocks: list[Block] = []
        self.entry = dict(told)
        self._places, self._paths, self._versions = places, list[tuple[int, list[bytes]]](), dict[Line, int]()
        self._spoken: dict[tuple[int, object], int] = {}

    def numbers(self, places: Iterable[int]) -> None:
        """Gives numbers to entries that have none: to the folders above them first, then to all others by their
        folders."""
        folders, paths = self._places.folders, self._places.paths
        wanted = {it for it in places if it not in self.entry}
        above: set[int] = set()
        for place in wanted:
            while place and (place := folders[place]) not in self.entry and place not in above:
                above.add(place)
        for place in sorted(above, key=lambda it: (paths[it].count(b"/"), paths[it])):
            self._number(place)
        for place in sorted(wanted - above, key=lambda it: (self.entry.get(folders[it], -1), paths[it])):
            self._number(place)

    def _number(self, place: int) -> None:
        folder = self.entry[self._places.folders[place]] if place else -1
        name = self._places.paths[place].rpartition(b"/")[2]
        if not self._paths or self._paths[-1][0] != folder:
            self._paths.append((folder, []))
        self._paths[-1][1].append(field(name))
        self.entry[place] = len(self.entry)

    def version(self, place: int, key: object, line: Line) -> int:
        """The number of a content that stood at an entry; `line` has the word, and what stands behind the entry."""
        known = self._spoken.get((place, key))
        if known is None:
            known = self._versions.setdefault((line[0], b"%d" % self.entry[place], *line[1:]), len(self._versions))
            self._spoken[place, key] = known
        return known

    def write(self, file: BinaryIO, head: Iterable[bytes], changed: Iterable[int]) -> None:
        """Writes the whole file."""
        moved = sorted({self.entry[it] for it in changed if it in self.entry})
        body = [line for block in self.blocks for line in block.lines(self.entry)]
        paths = [b"root" if folder < 0 else b" ".join([b"path", b"%d" % folder, *names])
                 for folder, names in self._paths]
        lines = [b"rebug-contents 1", *head, *paths, *(b" ".join(it) for it in self._versions)]
        if moved:
            lines.append(b"changed " + ranges(moved))
        lines += body
        text = b"".join(it + b"\n" for it in lines)
        file.write(text + b"end %d %d %d %s\n" % (len(self._versions), len(self.blocks), len(lines),
                                                  hashlib.sha256(text).hexdigest().encode()))
