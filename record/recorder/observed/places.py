"""Places: entries of folders by their real paths, each with a number and the number of its folder."""

from __future__ import annotations

import os

from .ways import Numbered, Standing, Way


class Places:
    """All entries that a build has to do with. A number is an index of `paths`; the root has the empty path. `folders`
    has for each entry the number of its folder, and for the root its own. `together` has for each entry, as far as
    calls of this build show it, all entries that are names of its file now. `clock` counts the names of files that came
    and went; `joined` and `lost` have when a name came where nothing had stood in this build, and when one went."""

    def __init__(self) -> None:
        self.paths: list[bytes] = [b""]
        self.folders: list[int] = [0]
        self.inodes: dict[bytes, dict[int, None]] = {}
        self.joined: dict[int, int] = {}
        self.lost: dict[int, int] = {}
        self.together: dict[int, dict[int, None]] = {}
        self.clock = 0
        self._numbers: dict[bytes, int] = {b"": 0, b"/": 0}

    def number(self, real: bytes) -> int:
        """The number of a real path."""
        number = self._numbers.get(real)
        if number is None:
            folder = self.number(real.rpartition(b"/")[0])
            number = self._numbers[real] = len(self.paths)
            self.paths.append(real)
            self.folders.append(folder)
        return number

    def join(self, place: int, other: int, is_new: bool) -> None:
        """Two entries are names of one file from now on. `is_new`: nothing had stood at the other in this build."""
        self.parted(other)
        its = self.together.setdefault(place, {place: None})
        its[other] = None
        self._came(its, other, is_new)
        self.inodes.setdefault(b"link-%d" % place, {place: None})[other] = None

    def _came(self, its: dict[int, None], other: int, is_new: bool) -> None:
        self.together[other] = its
        self.clock += 1
        if is_new or other in self.lost:
            self.joined[other] = self.clock

    def parted(self, place: int, has_others: bool = False) -> None:
        """A file is no longer at this entry. `has_others`: it has other names."""
        its = self.together.pop(place, None)
        if its is not None:
            del its[place]
        if its or has_others:
            self.clock += 1
            self.lost[place] = self.clock

    def moved(self, place: int, other: int, inode: bytes, is_new: bool) -> None:
        """A file of several names, `inode` among them where the observer shows it, is at another entry from now on."""
        self.parted(other)
        its = self.together.get(place, {})
        self.parted(place, bool(inode))
        if its or inode:
            its[other] = None
            self._came(its, other, is_new)
            self.inodes.setdefault(inode or b"link-%d" % place, {place: None})[other] = None

    def was_name(self, place: int, moment: int) -> bool:
        """Whether an entry was already, and still, a name of its file at a moment (`clock`)."""
        joined, lost = self.joined.get(place), self.lost.get(place)
        if lost is not None and lost <= moment:
            return joined is not None and lost < joined <= moment
        return joined is None or joined <= moment

    def are_one(self, way: Numbered, other: Numbered) -> bool:
        """Whether two ways lead to names of one file."""
        if way.standing is not Standing.FILE or other.standing is not Standing.FILE:
            return False
        is_one = way.way.inode and way.way.inode == other.way.inode
        return bool(is_one) or other.place in self.together.get(way.place, ())

    def besides(self, place: int) -> list[int]:
        """The other names that the file at an entry has at this moment."""
        return [it for it in self.together.get(place, ()) if it != place]

    def known(self, real: bytes) -> int | None:
        """The number of a real path, where it has one."""
        return self._numbers.get(real)

    def of(self, path: bytes) -> int:
        """The entry to which an absolute path leads, as the disk has it now."""
        return self.number(real_path(path))

    def find(self, path: bytes) -> int | None:
        """The same, where the build has to do with it."""
        return self.known(real_path(path))

    def numbered(self, way: Way) -> Numbered:
        """A way by numbers."""
        found = way.numbered
        if found is None:
            number = self.number
            place = number(way.entry)
            found = way.numbered = Numbered(
                place, way.standing, place if way.end is None else number(way.end),
                way.standing if way.end is None else way.end_standing, tuple((number(it), text) for it, text in way.links),
                tuple((number(it), text) for it, text in way.ends), tuple((number(it), state) for it, state in way.asked),
                way.end is None and not (way.links or way.asked or way.inode or way.process), way)
            if way.inode:
                self.inodes.setdefault(way.inode, {})[found.end] = None
        return found


def real_path(path: bytes) -> bytes:
    """The real path of an entry: links of folders on the way are followed, one at the last name is not."""
    folder, _, name = path.rstrip(b"/").rpartition(b"/")
    if name in (b"", b".", b".."):
        real = os.path.realpath(path or b"/")
    else:
        real = os.path.realpath(folder or b"/").rstrip(b"/") + b"/" + name
    return b"" if real == b"/" else real
