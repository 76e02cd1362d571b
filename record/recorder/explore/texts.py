"""Texts and lists of texts by numbers, so that a page has each once."""

from __future__ import annotations

from collections import Counter
from dataclasses import dataclass, field
from typing import Sequence
from zlib import crc32

NONE = -1
"""Stands where there is no text or no number."""
_MOST, _CUT = 64, 16
"""A chunk has at most so many numbers, and ends behind each number of so many on average."""


@dataclass
class Texts:
    """Texts, each once, in the order in which they were met."""

    all: list[str] = field(default_factory=list)
    _places: dict[str, int] = field(default_factory=dict)

    def number(self, text: str | None) -> int:
        """The number of a text, or NONE."""
        if text is None:
            return NONE
        place = self._places.setdefault(text, len(self.all))
        if place == len(self.all):
            self.all.append(text)
        return place

    def numbers(self, texts: Sequence[str]) -> list[int]:
        """The numbers of texts."""
        return [self.number(it) for it in texts]


def ends_of(names: Sequence[str]) -> list[int]:
    """The length of each name's shortest end, by whole parts, that no other name has: so no two files look alike."""
    found = [len(it) for it in names]
    left, depth = list(range(len(names))), 1
    while left:
        ends = {at: "/".join(names[at].split("/")[-depth:]) for at in left}
        count = Counter(ends.values())
        for at, end in ends.items():
            if count[end] == 1:
                found[at] = len(end)
        left = [at for at, end in ends.items() if count[end] > 1 and end != names[at]]
        depth += 1
    return found


def folder_of(name: str) -> str:
    """The folder of a path, `.` for one without."""
    return name.rpartition("/")[0] or "."


@dataclass
class Chunks:
    """Lists of numbers, as chunks that lists share. Where a chunk ends depends on its last number alone, so two lists
    that have a long part in common have its chunks in common, wherever the part stands."""

    all: list[list[int]] = field(default_factory=list)
    _places: dict[tuple[int, ...], int] = field(default_factory=dict)
    _ends: list[bool] = field(default_factory=list)

    def numbers(self, of: Sequence[int]) -> list[int]:
        """The chunks of a list, in their order."""
        found, begin, ends = [], 0, self._ends
        for number in range(len(ends), max(of, default=NONE) + 1):
            ends.append(crc32(b"%d" % number) % _CUT == 0)
        for at, number in enumerate(of, 1):
            if at == len(of) or at - begin == _MOST or ends[number]:
                found.append(self._number(tuple(of[begin:at])))
                begin = at
        return found

    def _number(self, chunk: tuple[int, ...]) -> int:
        place = self._places.setdefault(chunk, len(self.all))
        if place == len(self.all):
            self.all.append(list(chunk))
        return place
