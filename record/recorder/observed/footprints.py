"""What one command looked at and changed: its footprint, kept while the command runs and packed when it has ended.

A look at an entry is a bit of a number, by the entry. A look that comes after the command's own first change of the
entry is AFTER and nothing else.
"""

from __future__ import annotations

from array import array
from collections.abc import Container
from dataclasses import dataclass, field
from itertools import islice

from .places import Places
from .ways import HIDDEN, Numbered, Standing

(READ, STATUS, MODE, THERE, FOLDER, MISSING, NEEDED, LISTED, IMPORTED, WANTED, AFTER, PASSED, LINK_READ, LINK_SEEN,
 LINK_WRITTEN, LINK_EDITED) = (1 << it for it in range(16))
"""The looks. NEEDED: a folder was there, and the call asked for it on its way to something else: an entry that it
made in it, `..`, a folder to work in. WANTED: so it was, and nothing was there. IMPORTED: Python's import read the
names in it. The last four say what was done through a link, which version 1 of the file has in the kinds of files."""

LOOKS = READ | STATUS | MODE | THERE | FOLDER | MISSING | NEEDED | WANTED


@dataclass(slots=True)
class Touched:
    """An entry that the command itself changed. `existed`: whether it was there before; None where nothing says it.
    `text` is that of a link."""

    existed: bool | None
    is_there: bool = True
    is_edited: bool = False
    is_folder: bool = False
    text: bytes | None = None


@dataclass(slots=True)
class Asked:
    """What one program that searches or makes folders asked for folders: by the entry, the looks. `is_search`: it only
    searches them."""

    program: bytes
    is_search: bool
    places: dict[int, int] = field(default_factory=dict)


@dataclass(frozen=True, slots=True)
class Opening:
    """How a file is opened that is made where it is missing: whether it was there, to write, and emptied."""

    was_there: bool
    writes: bool
    empties: bool


@dataclass(slots=True)
class Footprint:
    """The footprint of a command.

    `present` is common to all commands of a build: whether an entry was there when last a command changed it, or, of
    outputs, when the build began. `settled` has each entry that the command changed, or found where it would have
    made a folder. `own` are those that it changed before it listed their folder. At those of `special` a link came
    or went, or a renamed folder, at those of `linked` a link. `contents` are the files of several names whose content
    it changed, each with the moments (`Places.clock`) when it did so. `besides` are the other names that such files had
    then, as far as calls show it. `ensured` has the files that it opened and would have made where they were missing,
    and with which it did nothing else, each with the program. Of these, it opened those of `written` to write.
    """

    places: Places
    present: dict[int, bool]
    looks: dict[int, int] = field(default_factory=dict)
    links: dict[tuple[int, bytes], None] = field(default_factory=dict)
    touched: dict[int, Touched] = field(default_factory=dict)
    settled: set[int] = field(default_factory=set)
    found: set[int] = field(default_factory=set)
    own: set[int] = field(default_factory=set)
    asked: dict[tuple[bytes, bool], Asked] = field(default_factory=dict)
    hidden: set[bytes] = field(default_factory=set)
    special: set[int] = field(default_factory=set)
    linked: set[int] = field(default_factory=set)
    contents: dict[bytes, set[int]] = field(default_factory=dict)
    besides: set[int] = field(default_factory=set)
    ensured: dict[int, bytes] = field(default_factory=dict)
    written: set[int] = field(default_factory=set)
    _passed: set[int] = field(default_factory=set)
    _counted: int = 0
    _listed: set[int] = field(default_factory=set)

    # looks

    def see(self, place: int, bit: int) -> None:
        """One look at an entry."""
        looks = self.looks
        if place in self.settled and bit & LOOKS:
            bit = AFTER
        looks[place] = looks.get(place, 0) | bit
        self.ensured.pop(place, None)

    def link(self, place: int, text: bytes) -> None:
        """A link was met."""
        if place in self.settled:
            self.looks[place] = self.looks.get(place, 0) | AFTER
        else:
            self.links[place, text] = None

    def walked(self, way: Numbered, follows: bool) -> tuple[int, Standing]:
        """What a way met before its end; gives the entry at the end, and what stands there."""
        if way.is_bare:
            return way.place, way.standing
        for place, text in way.links:
            self.link(place, text)
        for place, standing in way.asked:
            self.see(place, NEEDED if standing is Standing.FOLDER else WANTED if standing is Standing.MISSING else THERE)
        if not follows:
            return way.place, way.standing
        for place, text in way.ends:
            self.link(place, text)
        return way.end, way.end_standing

    def look(self, way: Numbered, bit: int, follows: bool) -> tuple[int, int]:
        """A call found what it asked for; gives the entry, and the look."""
        place, standing = self.walked(way, follows)
        if standing in HIDDEN:
            self.hidden.add(self.places.paths[place])
            return place, 0
        if way.ends:
            self._through(way, LINK_READ if bit == READ else LINK_SEEN, follows)
        if standing is Standing.LINK:
            self.link(place, _text_of(way, place))
            return place, 0
        if standing is Standing.FOLDER and bit != NEEDED:
            bit = FOLDER
        self.see(place, bit)
        return place, bit

    def _through(self, way: Numbered, bit: int, follows: bool) -> None:
        """What was done through the links at the end of a way, or at the first one itself."""
        for place, _ in way.ends if follows else way.ends[:1]:
            if place not in self.settled or bit & (LINK_WRITTEN | LINK_EDITED):
                self.looks[place] = self.looks.get(place, 0) | bit

    def miss(self, way: Numbered, follows: bool) -> int:
        """A call asked for what is not there."""
        place, standing = self.walked(way, follows)
        if way.ends:
            self._through(way, LINK_SEEN, follows)
        if standing is Standing.LINK:  # a link that leads nowhere, and is followed no further
            self.link(place, _text_of(way, place))
        elif standing in HIDDEN:
            self.hidden.add(self.places.paths[place])
        else:
            self.see(place, MISSING)
        return place

    def ask_by(self, program: bytes, is_search: bool, place: int, bit: int) -> None:
        """A program that searches or makes folders asked for one."""
        if place in self.settled:
            self.see(place, bit)
            return
        places = self.asked_by(program, is_search).places
        places[place] = places.get(place, 0) | bit

    def asked_by(self, program: bytes, is_search: bool) -> Asked:
        """What a program that searches or makes folders asked for."""
        asked = self.asked.get((program, is_search))
        if asked is None:
            asked = self.asked[program, is_search] = Asked(program, is_search)
        return asked

    def listed(self, place: int, by_import: bool) -> None:
        """The names in a folder were read. What the command made there before its first look at them is its own."""
        if not by_import and place not in self._listed:
            self._listed.add(place)
        self.looks[place] = self.looks.get(place, 0) | (IMPORTED if by_import else LISTED)

    # changes

    def write(self, place: int, is_made: bool = False, text: bytes | None = None) -> None:
        """Written whole: made (`is_made`: the call says that nothing was there), emptied, or renamed to. `text` is that
        of a link."""
        touched = self._touch(place)
        if is_made and touched.existed is None:
            touched.existed = False
        if text is not None or touched.text is not None:
            self.note_link(place)
        touched.is_there, touched.is_folder, touched.text = True, False, text
        self.present[place] = True

    def write_through(self, way: Numbered, is_edit: bool) -> None:
        """A file's content was changed by one of its names, or through a link."""
        if way.ends:
            self._through(way, LINK_EDITED if is_edit else LINK_WRITTEN, True)
        if way.way.inode:
            self.contents.setdefault(way.way.inode, set()).add(self.places.clock)
        self.besides.update(self.places.besides(way.end))

    def note_link(self, place: int) -> None:
        """A link came or went."""
        self.special.add(place)
        self.linked.add(place)

    def edit(self, place: int) -> None:
        """Changed in place, if it was there before; else made."""
        is_first = place not in self.touched
        touched = self._touch(place)
        if is_first and touched.existed is not False:
            touched.is_edited = True
        touched.is_there = True
        self.present[place] = True

    def open_or_make(self, way: Numbered, place: int, program: bytes, how: Opening) -> None:
        """A file was opened, and was to be made where it was missing. A lock file is opened so."""
        is_alone = place in self.ensured or place not in self.looks and place not in self.touched
        if how.was_there and not how.writes:
            self.look(way, READ, True)
        else:
            self.write_through(way, not how.empties)
            if how.empties:
                self.write(place)
            else:
                self.edit(place)
        if is_alone:
            self.ensured[place] = program
            if how.writes:
                self.written.add(place)

    def remove(self, place: int, is_link: bool = False) -> None:
        """Taken away."""
        is_first = place not in self.touched
        touched = self._touch(place)
        if is_link or touched.text is not None:
            self.note_link(place)
        if is_first:
            touched.existed = True
        touched.is_there = False
        self.present[place] = False

    def make_folder(self, place: int, is_moved: bool = False) -> None:
        """A folder was made, where nothing was; or another was renamed to it."""
        touched = self._touch(place)
        if touched.existed is None:
            touched.existed = False
        if touched.text is not None:
            self.note_link(place)
        touched.is_there = touched.is_folder = True
        touched.text = None
        self.present[place] = True
        if is_moved:
            self.special.add(place)

    def find_folder(self, place: int) -> None:
        """A folder was to be made, and was there."""
        if place not in self.touched:
            self.found.add(place)
        self.settle(place)

    def settle(self, place: int) -> None:
        """The command changes an entry for the first time: what it passed before, it passed before."""
        if place in self.settled:
            return
        self._count_passed()
        if place in self._passed:
            self.looks[place] = self.looks.get(place, 0) | PASSED
        if self.places.folders[place] not in self._listed:
            self.own.add(place)
        self.settled.add(place)

    def _touch(self, place: int) -> Touched:
        self.ensured.pop(place, None)
        found = self.touched.get(place)
        if found is None:
            found = self.touched[place] = Touched(self.was_there(place))
            self.settle(place)
        return found

    def _count_passed(self) -> None:
        """The folders above each entry that was looked at since the last count."""
        folders, passed = self.places.folders, self._passed
        for place in islice(self.looks, self._counted, None):
            above = folders[place]
            while above not in passed:
                passed.add(above)
                above = folders[above]
        self._counted = len(self.looks)

    def was_there(self, place: int) -> bool | None:
        """Whether something was there before the command changed it; None where nothing says it."""
        if place in self.present:
            return self.present[place]
        looks = self.looks.get(place, 0)
        if looks & MISSING:
            return False
        return True if looks & (READ | STATUS | MODE | THERE | FOLDER) else None

    def below(self, folder: bytes) -> list[int]:
        """The entries below a folder (its path ends with a slash) that the command made and that are there."""
        paths = self.places.paths
        return [it for it, touched in self.touched.items() if touched.is_there and paths[it].startswith(folder)]

    def pack(self, locked: Container[int] = ()) -> Packed:
        """What is kept of it when the command has ended. `locked` are the files that the command locked."""
        self._count_passed()
        folders, passed = self.places.folders, self._passed
        for place in (*self.touched, *(it for it, _ in self.links), *(it for its in self.asked.values() for it in its.places)):
            above = folders[place]
            while above not in passed:
                passed.add(above)
                above = folders[above]
        looks = self.looks
        return Packed(array("I", looks.keys()), array("H", looks.values()), tuple(self.links), self.touched,
                      frozenset(self.found), frozenset(self.own & {it for it in self.own if folders[it] in self._listed}),
                      tuple(self.asked.values()), frozenset(self.hidden), frozenset(self.special), self.contents,
                      array("I", sorted(passed)),
                      {place: program for place, program in self.ensured.items() if place in locked},
                      frozenset(it for it in self.written if it in locked), frozenset(self.besides),
                      frozenset(self.linked))


@dataclass(slots=True)
class Packed:
    """The footprint of a command that has ended: entries and their looks, and the rest as in the footprint. `passed`
    are the folders on the ways to all that it had to do with. `ensured` and `written` have those files alone that it
    locked."""

    places: array[int]
    looks: array[int]
    links: tuple[tuple[int, bytes], ...]
    touched: dict[int, Touched]
    found: frozenset[int]
    own: frozenset[int]
    asked: tuple[Asked, ...]
    hidden: frozenset[bytes]
    special: frozenset[int]
    contents: dict[bytes, set[int]]
    passed: array[int]
    ensured: dict[int, bytes] = field(default_factory=dict)
    written: frozenset[int] = frozenset()
    besides: frozenset[int] = frozenset()
    linked: frozenset[int] = frozenset()


def _text_of(way: Numbered, place: int) -> bytes:
    """The text of the link at the end of a way."""
    return next((text for it, text in way.ends if it == place), b"")
