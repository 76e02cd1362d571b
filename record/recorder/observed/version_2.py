"""Writes version 2 of the file `observed` (docs/FORMATS.md): entries once, and of each command what it saw and
changed."""

from __future__ import annotations

import hashlib
from collections import Counter, defaultdict
from collections.abc import Iterable, Iterator
from dataclasses import dataclass, field as made_field
from typing import Any, BinaryIO

from ..fields import field
from .before import Before, FolderWays, Preparing
from .caches import Caches
from .footprints import (AFTER, FOLDER, IMPORTED, LINK_EDITED, LINK_READ, LINK_SEEN, LINK_WRITTEN, LISTED, MISSING, MODE,
                         NEEDED, PASSED, READ, STATUS, THERE, WANTED, Packed)
from .naming import Names
from .places import Places
from .processes import Command
from .programs import can_be_module
from .shares import Changes
from .ways import Standing
from .writing import ranges

_LOOKS = (("read", READ | LINK_READ), ("status", STATUS), ("mode", MODE),
          ("there", THERE | LINK_SEEN | LINK_WRITTEN | LINK_EDITED), ("folder", FOLDER | NEEDED),
          ("missing", MISSING | WANTED))
WORDS = ("cached", "read", "status", "mode", "there", "folder", "link", "missing", "passed", "listed", "own", "searched",
         "after", "left", "edited", "taken", "temps", "linked", "made", "found", "ensured", "removed", "prepared")
"""The words of a block's lines, in the order of the file."""

_STANDING = {Standing.FOLDER: "folder", Standing.MISSING: "missing"}
"""The words of looks by what stood at the entry; `there` for all else."""

Lines = dict[tuple[str, bytes], set[int]]


@dataclass
class Block:
    """What is written of one command, or of Ninja: the places of each line, by its word and field."""

    lines: Lines = made_field(default_factory=lambda: defaultdict(set))
    outside: int = 0

    def add(self, word: str, place: int, text: bytes = b"") -> None:
        """An entry more in a line."""
        self.lines[word, text].add(place)

    def sorted(self) -> Iterator[tuple[str, bytes, set[int]]]:
        """The lines in the order of the file."""
        for word, text in sorted(self.lines, key=lambda it: (WORDS.index(it[0]), it[1])):
            if self.lines[word, text]:
                yield word, text, self.lines[word, text]

    @property
    def places(self) -> set[int]:
        """All entries that it names."""
        return {place for its in self.lines.values() for place in its}


class Blocks:
    """The blocks of a build's commands, by what is left out."""

    def __init__(self, changes: Changes, names: Names, places: Places, caches: Caches) -> None:
        self.changes, self.names, self.places, self.caches = changes, names, places, caches
        self._busy = {places.folders[it] for it in changes.changed | changes.declared}
        self._by_folder: dict[int, list[int]] = defaultdict(list)
        for place in sorted(changes.changed):
            self._by_folder[places.folders[place]].append(place)

    def is_told(self, place: int) -> bool:
        """Whether looks at an entry are told though nobody changes it."""
        return self.changes.matters(place) or self.names.is_inside(place) or self.places.folders[place] in self._busy

    def of(self, packed: Packed, before: Before, ways: FolderWays) -> Block:
        """What is written of a command, `before` which Ninja did this. `ways` are those at the build's end."""
        block, changes = Block(), self.changes
        prepared = before.made
        self._looks(block, packed, prepared)
        self._asked(block, packed, prepared)
        for place, text in packed.links:
            if self.is_told(place):
                block.add("link", place, text)
        self._passed(block, packed, prepared)
        for place in packed.own:
            if changes.matters(place):
                block.add("own", place)
        self.changes_of(block, packed)
        for place in prepared:
            block.add("prepared", place)
        self._asked_before(block, before, ways)
        self._cached(block, packed)
        self._count_outside(block, packed)
        return block

    def _asked_before(self, block: Block, before: Before, ways: FolderWays) -> None:
        """What Ninja asked for the command."""
        for place, text in before.links:
            block.add("link", place, text)
        for place in before.asked:
            standing = ways.standing(place)
            if standing is not Standing.LINK:
                block.add(_STANDING.get(standing, "there"), place)

    def _is_quiet(self, place: int, prepared: set[int]) -> bool:
        """Whether Ninja sees to it that a folder is there before the command begins, and nobody takes it away."""
        return place in prepared and place not in self.changes.removed and place not in self.changes.special

    def _looks(self, block: Block, packed: Packed, prepared: set[int]) -> None:
        for place, look in zip(packed.places, packed.looks):
            if place not in self.changes.locks:
                self._look(block, place, look, prepared)
            elif place not in packed.touched:
                block.add("ensured", place, packed.ensured[place])
            if look & LISTED and (self.names.is_inside(place) or place in self._busy):
                block.add("listed", place)
            if look & IMPORTED:
                self._imported(block, packed, place)
            if look & AFTER and self.changes.matters(place) and place not in self.changes.locks:
                block.add("after", place)
            if look & READ:
                self._compiled(block, packed, place)

    def _look(self, block: Block, place: int, look: int, prepared: set[int]) -> None:
        matters = self.changes.matters(place)
        if not matters and not self.is_told(place):
            return
        for word, bits in _LOOKS:
            if not look & bits:
                continue
            if word in ("folder", "missing"):
                is_stamp = bool(look & FOLDER) and place in self._busy  # it changes with each entry that comes and goes
                if is_stamp and word == "folder" or matters and not self._is_quiet(place, prepared):
                    block.add(word, place)
            elif matters or word == "read" or not look & (READ | LINK_READ):
                block.add(word, place)

    def _compiled(self, block: Block, packed: Packed, place: int) -> None:
        """A module that was read by its compiled copy counts as read itself."""
        path = self.places.paths[place]
        if path.endswith(b".pyc") and b"/__pycache__/" in path:
            folder, _, name = path.rpartition(b"/__pycache__/")
            source = self.places.number(folder + b"/" + name.split(b".")[0] + b".py")
            if self.is_told(source) and source not in packed.touched:
                block.add("read", source)

    def _imported(self, block: Block, packed: Packed, folder: int) -> None:
        """The entries of a folder that Python's import takes for modules, and that somebody changes."""
        for place in self._by_folder.get(folder, ()):
            is_module = can_be_module(self.places.paths[place]) or place in self.changes.made or place in self.changes.special
            if is_module and place not in packed.touched:
                block.add("there", place)

    def _asked(self, block: Block, packed: Packed, prepared: set[int]) -> None:
        """What programs that search or make folders asked for."""
        for asked in packed.asked:
            for place, look in asked.places.items():
                if not self.changes.matters(place) or self._is_quiet(place, prepared):
                    continue
                if not self.changes.is_plain_folder(place):
                    self._look(block, place, look, prepared)
                elif not asked.is_search:
                    block.add("ensured", place, asked.program)
                else:
                    block.add("searched", place, asked.program)
                    if look & MISSING:
                        self._searched_in_vain(block, packed, place)

    def _searched_in_vain(self, block: Block, packed: Packed, folder: int) -> None:
        """The entries that a command would have asked for in a search folder: those of which it asked for the same end
        anywhere."""
        below = [folder]
        asked = None
        while below:
            for place in self._by_folder.get(below.pop(), ()):
                below.append(place)
                if asked is None:
                    asked = self._asked_names(packed)
                rest = self.places.paths[place][len(self.places.paths[folder]) :]
                if place not in packed.touched and any(it.endswith(rest) for it in asked.get(rest.rpartition(b"/")[2], ())):
                    block.add("missing", place)

    def _asked_names(self, packed: Packed) -> dict[bytes, list[bytes]]:
        """The paths that a command asked for, by their last names."""
        found: dict[bytes, list[bytes]] = defaultdict(list)
        for place in {*packed.places, *(it for its in packed.asked for it in its.places)}:
            path = self.places.paths[place]
            found[path.rpartition(b"/")[2]].append(path)
        return found

    def _passed(self, block: Block, packed: Packed, prepared: set[int]) -> None:
        before = {place for place, look in zip(packed.places, packed.looks) if look & PASSED}
        for place in packed.passed:
            if not self.changes.matters(place) or self._is_quiet(place, prepared):
                continue
            if place in packed.touched or place in packed.found:
                block.add("passed" if place in before else "after", place)
            else:
                block.add("passed", place)

    def changes_of(self, block: Block, packed: Packed) -> None:
        """What a command, or Ninja, changed."""
        for place, it in packed.touched.items():
            if not it.is_there:
                if not it.existed and not it.is_edited:
                    if self.names.is_inside(place) or place in self.changes.shared:
                        block.add("temps", place)
                else:
                    block.add("removed" if it.is_folder else "taken", place)
            elif it.is_folder:
                block.add("made", place)
            elif place in self.changes.locks and it.existed is not False:
                block.add("ensured", place, packed.ensured[place])
            elif place in self.changes.locks:
                block.add("made", place)
            elif it.text is not None:
                block.add("linked", place, it.text)
            else:
                block.add("edited" if it.is_edited else "left", place)
        for place in packed.found - packed.touched.keys():
            block.add("found", place)
        for place in packed.besides - packed.touched.keys():
            block.add("edited", place)
        for inode, moments in packed.contents.items():
            for first in self.places.inodes.get(inode, ()):
                for place in self.changes.names.get(first, ()):
                    if place not in packed.touched and any(self.places.was_name(place, it) for it in moments):
                        block.add("edited", place)

    def _cached(self, block: Block, packed: Packed) -> None:
        for place, look in zip(packed.places, packed.looks):
            if look & READ and not self.names.is_inside(place):
                folder = self.caches.of(place)
                if folder is None and place in self.changes.left:
                    folder = self.places.folders[place]
                if folder is not None:
                    block.add("cached", folder)

    def _count_outside(self, block: Block, packed: Packed) -> None:
        named = block.places
        temps = {place for place, it in packed.touched.items() if not it.is_there and not it.existed and not it.is_edited}
        others = {*packed.places, *packed.touched, *(it for it, _ in packed.links),
                  *(it for its in packed.asked for it in its.places)}
        block.outside = sum(1 for it in others - named - temps if not self.names.is_inside(it))


@dataclass(frozen=True)
class Head:
    """What is written before the blocks: `present` says of entries whether they were there when the build began."""

    by: bytes
    release: bytes
    machine: bytes
    present: dict[int, bool]
    own_files: tuple[int, ...] = ()


class Version2:
    """The text of a build: `pairs` has each command with its edge, in the order of the starts, `ninja` what Ninja
    did, `preparing` what it did before commands."""

    def __init__(self, pairs: list[tuple[Any, Command]], ninja: Packed, blocks: Blocks, head: Head,
                 preparing: Preparing) -> None:
        self.pairs, self.blocks, self.head, self.places = pairs, blocks, head, blocks.places
        before = [preparing.before(edge, blocks.changes) for edge, _ in pairs]
        self.found = [blocks.of(it.packed, its, preparing.last) if it.packed is not None else Block()
                      for (_, it), its in zip(pairs, before)]
        self.ninja = Block()
        blocks.changes_of(self.ninja, ninja)
        if all(its.is_steady for its in before):
            self.ninja.lines["made", b""] -= {place for its in before for place in its.made}
        self.numbers = self._numbered()

    def _numbered(self) -> dict[int, int]:
        """The number of each entry: folders of others first, each behind its own, then all as they are first named."""
        mentioned: dict[int, None] = {}
        for block in (self.ninja, *self.found):
            for _, _, its in block.sorted():
                mentioned.update(dict.fromkeys(sorted(its)))
        told, folders = set(mentioned), self.places.folders
        above: set[int] = set()
        for place in mentioned:
            way = []
            at = folders[place] if place else place
            while at != place:
                way.append(at)
                if at in told:
                    above.update(way)
                if not at:
                    break
                at = folders[at]
        first = sorted(above, key=lambda it: (self.places.paths[it].count(b"/"), self.places.paths[it]))
        return {place: number for number, place in enumerate(dict.fromkeys([*first, *mentioned]))}

    def write(self, file: BinaryIO) -> list[bytes]:
        """Writes the whole file; gives the paths that it names."""
        lines = [b"rebug-observed 2", b" ".join([b"by", *map(field, (self.head.by, self.head.release, self.head.machine))])]
        names, paths = self.blocks.names, []
        for place in self.numbers:
            paths.append(names.unique(place))
            folder = self.numbers.get(self.places.folders[place]) if place else None
            lines.append(b"path " + field(paths[-1]) + (b"" if folder is None else b" %d" % folder))
        lines += self._head_lines(set(paths))
        lines += self._block_lines(b"ninja", self.ninja)
        for (edge, command), block in zip(self.pairs, self.found):
            flags = [b" ".join([b"flag", it.flag.value.encode(), field(it.call), field(it.program),
                                field(self.shown(it.text))]) for it in command.whole.sorted()]
            lines += self._block_lines(b"edge " + field(edge.name), block, flags)
        body = b"".join(it + b"\n" for it in lines)
        file.write(body + b"end %d %d %d %s\n" % (len(self.numbers), len(self.pairs), len(lines),
                                                  hashlib.sha256(body).hexdigest().encode()))
        return paths

    def shown(self, text: bytes) -> bytes:
        """The text of a flag. A path in it is that by which the build names the entry."""
        place = self.places.known(text) if text.startswith(b"/") else None
        return text if place is None else self.blocks.names.of(place)

    def _head_lines(self, paths: set[bytes]) -> Iterator[bytes]:
        numbers = self.numbers
        also = {path: number for place, number in numbers.items() for path in self.blocks.names.others(place)}
        for path in sorted(also.keys() - paths):
            yield b"also " + field(path) + b" %d" % also[path]
        groups = {min(it): it for it in self.blocks.changes.names.values()}
        for group in groups.values():
            its = [numbers[it] for it in group if it in numbers]
            if len(its) > 1:
                yield b"same " + ranges(its)
        opening = [numbers[it] for it, is_there in self.head.present.items() if is_there and it in numbers
                   and (self.blocks.changes.matters(it) or it in self.head.own_files)]
        if opening:
            yield b"opening " + ranges(opening)
        hidden: Counter[bytes] = Counter()
        for _, command in self.pairs:
            if command.packed is not None:
                hidden.update({_of_kernel(it) for it in command.packed.hidden})
        for path in sorted(hidden):
            yield b"hidden " + field(path) + b" %d" % hidden[path]

    def _block_lines(self, first: bytes, block: Block, flags: Iterable[bytes] = ()) -> Iterator[bytes]:
        found = [word.encode() + (b" " + field(text) if word in _WITH_FIELD else b"") + b" "
                 + ranges(self.numbers[it] for it in its) for word, text, its in block.sorted()]
        if first != b"ninja" or found:
            yield first
        yield from flags
        yield from found
        if block.outside:
            yield b"outside %d" % block.outside


_WITH_FIELD = ("link", "searched", "linked", "ensured")


def _of_kernel(path: bytes) -> bytes:
    """What is counted of a file of the kernel's: without the numbers of processes."""
    parts = path.split(b"/")
    if parts[1:2] == [b"proc"] and len(parts) > 2 and parts[2].isdigit():
        return b"/proc/self"
    return b"/".join(parts[:3]) if parts[1:2] in ([b"proc"], [b"sys"]) else path
