"""The contents of one build, from before Ninja starts until the file `contents` is written."""

from __future__ import annotations

import hashlib
import os
import time
from collections import defaultdict
from collections.abc import Iterable, Iterator, Mapping
from dataclasses import dataclass
from typing import Any, BinaryIO

from ..fields import field
from ..observed.calls import Event
from ..observed.flags import Flag
from ..observed.footprints import FOLDER, LINK_READ, LISTED, MISSING, MODE, READ, STATUS, THERE, Packed
from ..observed.places import Places
from ..observed.processes import Command, Processes
from ..observed.version_2 import Block as Told, Version2
from .certain import Moments
from .environment import digest, digests, key
from .hashing import Hasher
from .versions import Version, now
from .watching import Run, Watch
from .writing import Block, Text

FILE = b"contents"
"""The file's name in a recording."""

_ASKED = STATUS | MODE | THERE | FOLDER
_MENTIONED = READ | MISSING | LISTED | _ASKED
_SHOWN = ("read", "status", "mode", "there", "folder", "missing", "link")


@dataclass(frozen=True)
class Names:
    """What the contents need to know of the build: its folder, those of its sources, and the digest of `observed`."""

    build: bytes
    sources: list[bytes]
    observed: bytes


class Contents:
    """Watches a build. `events` stands between the observer and who follows the processes."""

    def __init__(self, processes: Processes, places: Places) -> None:
        self.places, self.hasher, self.seconds, self.waited = places, Hasher(), 0.0, 0.0
        self._watch = Watch(processes, places, self._looked, self._ended)
        self._asked: set[int] = set()
        self.final: dict[int, Version | None] = {}

    def events(self, events: Iterator[Event]) -> Iterator[Event]:
        """The events, without the looks that are for the contents."""
        return self._watch.events(events)

    def _looked(self, place: int, version: Version) -> None:
        self.hasher.want(self.places.paths[place], version)

    def _ended(self, command: Command) -> None:
        """A command has ended: the files that it read are hashed, each at its first reader's end."""
        assert command.packed is not None
        asked, paths = self._asked, self.places.paths
        for place, look in zip(command.packed.places, command.packed.looks):
            if look & READ and place not in asked:
                asked.add(place)
                self.hasher.want(paths[place])

    def end(self, ninja: Packed, told: Version2) -> None:
        """The build has ended: what stands now at each entry that was read."""
        began = time.monotonic()
        self.hasher.end()
        self.waited = time.monotonic() - began
        self._ninjas = {place for place, it in ninja.touched.items() if not it.is_folder}
        for (_, command), block in zip(told.pairs, told.found):
            self._asked |= _files_read(block, command.packed)
        self.final = {it: now(self.places.paths[it]) for it in self._asked}
        for place, version in self.final.items():
            if version is not None:
                self.hasher.missing(self.places.paths[place], version)
        self._moments = Moments(self._watch.runs, self._changed(told), self.places.folders, self.final)

    def _changed(self, told: Version2) -> dict[int, Iterable[int]]:
        """By its run, the entries that each command changes, also by another name of a file."""
        names, inodes = told.blocks.changes.names, self.places.inodes
        found: dict[int, Iterable[int]] = {}
        for run in self._watch.runs:
            packed = run.command.packed
            if packed is None:
                continue
            its = (packed.touched.keys() | packed.besides) - self._ninjas
            for inode in packed.contents:
                its |= {place for first in inodes.get(inode, ()) for place in names.get(first, ())}
            found[id(run)] = its
        return found

    def write(self, file: BinaryIO, told: Version2, ninja: Packed, names: Names) -> None:
        """Writes the file."""
        began = time.thread_time()
        self.end(ninja, told)
        text = Text(self.places, told.numbers)
        for number, ((_, command), block) in enumerate(zip(told.pairs, told.found)):
            run = self._watch.run_of(command)
            if run is not None and command.packed is not None:
                text.blocks.append(_Command(self, text, run, command.packed, block).block(number))
        text.write(file, _head(names, os.environb), self._changed_outside())
        self.seconds = self.hasher.seconds + time.thread_time() - began

    def remark(self) -> str:
        """What comes with every build and asks for nothing."""
        count, size = len(self.hasher.digests), self.hasher.bytes
        return (f"{count} contents were hashed, of {size:,} bytes; that and writing them "
                f"took {self.seconds:.2f} s of processor time, and {self.waited:.2f} s of waiting at the end")

    def _changed_outside(self) -> list[int]:
        """The entries that commands read, that no command changes, and that changed while commands ran."""
        first = min((it.began for it in self._watch.runs if it.began), default=0)
        return [place for place, version in self.final.items() if not self._moments.is_changed(place)
                and place not in self._ninjas and (version is None or version.changed >= first)]


class _Command:
    """What is written of one command."""

    def __init__(self, whole: Contents, text: Text, run: Run, packed: Packed, told: Told) -> None:
        self.whole, self.text, self.run, self.packed, self.told = whole, text, run, packed, told
        self._is_elsewhere = Flag.NAMESPACE in run.command.flags
        self._in_folders: defaultdict[int, list[int]] = defaultdict(list)

    def block(self, number: int) -> Block:
        """Its block."""
        block, packed, ninjas = Block(number), self.packed, self.whole._ninjas
        shown = {place for word in _SHOWN for place in self.told.lines.get((word, b""), ())}
        looks = dict(zip(packed.places, packed.looks))
        reads = _files_read(self.told, packed)
        self._number_all(reads)
        for place in (*looks, *sorted(reads - looks.keys())):
            look = looks.get(place, READ)
            if place in ninjas:
                continue
            if look & READ or place in reads:
                self._read(block, place)
            elif place not in shown and look & MISSING:
                block.missing.append(place)
            elif place not in shown and look & _ASKED:
                block.there.append(place)
            if look & LISTED:
                self._listed(block, place)
        self._asked(block, shown)
        self._links(block)
        self._left(block)
        return block

    def _number_all(self, reads: set[int]) -> None:
        """Gives numbers to all entries that the block may mention."""
        packed, ninjas = self.packed, self.whole._ninjas
        looked = [place for place, look in zip(packed.places, packed.looks) if look & _MENTIONED]
        asked = [place for its in packed.asked for place, look in its.places.items() if look & MISSING]
        self.text.numbers(it for it in (*looked, *asked, *reads, *(it for it, _ in packed.links)) if it not in ninjas)

    def _read(self, block: Block, place: int) -> None:
        """The content of a file that it read."""
        is_own = place in self.packed.touched or self._is_elsewhere
        number = None if is_own else self._file(place, self.whole._moments.met(self.run, place))
        if number is None:
            block.unsure.append(place)
        else:
            block.read.append(number)

    def _file(self, place: int, version: Version | None) -> int | None:
        """The number of a file's version; None where its digest is not known."""
        digest = self.whole.hasher.digests.get(version) if version is not None else None
        if version is None or digest is None:
            return None
        mode = (b"x",) if version.is_executable else ()
        return self.text.version(place, version, (b"version", b"%d" % version.size, digest.hex().encode(), *mode))

    def _listed(self, block: Block, folder: int) -> None:
        """The names in a folder that it read, but for those of its own changes."""
        touched = self.packed.touched.get(folder)
        if touched is not None and touched.existed is False:  # a folder that it made itself
            return
        version = None if self._is_elsewhere else self.whole._moments.listed(self.run, folder)
        names = self.whole.hasher.names.get(version) if version is not None else None
        own = self._own_names(folder)
        if names is None or own is None:
            block.unsure.append(folder)
            return
        seen = sorted({it for it in names if it not in own} | {name for name, was_there in own.items() if was_there})
        digest = hashlib.sha256(b"".join(it + b"\0" for it in seen)).hexdigest().encode()
        block.read.append(self.text.version(folder, digest, (b"names", b"%d" % len(seen), digest)))

    def _own_names(self, folder: int) -> dict[bytes, bool] | None:
        """The names that the command changes in a folder, and whether each was there when it read them; None where
        nothing says it."""
        places, found, own = self.whole.places, dict[bytes, bool](), self.packed.own
        if not self._in_folders:
            for place in self.packed.touched:
                self._in_folders[places.folders[place]].append(place)
        for place in self._in_folders.get(folder, ()):
            existed = self.packed.touched[place].existed
            if existed is None and place not in own:
                return None
            found[places.paths[place].rpartition(b"/")[2]] = bool(existed) and place not in own
        return found

    def _asked(self, block: Block, shown: set[int]) -> None:
        """The folders that programs which search or make folders asked for in vain."""
        for asked in self.packed.asked:
            for place, look in asked.places.items():
                if look & MISSING and place not in shown and place not in self.whole._ninjas:
                    block.missing.append(place)

    def _links(self, block: Block) -> None:
        """The links that it met, where `observed` does not have them."""
        told = {(text, place) for (word, text), its in self.told.lines.items() if word == "link" for place in its}
        for place, link in self.packed.links:
            if (link, place) not in told:
                block.read.append(self.text.version(place, link, (b"link", field(link))))

    def _left(self, block: Block) -> None:
        """The files that it left."""
        unsure = set(block.unsure)
        for place in sorted(self.told.lines.get(("left", b""), set()) | self.told.lines.get(("edited", b""), set())):
            if place in self.whole._ninjas:
                continue
            number = self._file(place, self.whole._moments.left(self.run, place))
            if number is None:
                block.unsettled.append(place)
            else:
                block.left.append(number)
            it = self.packed.touched.get(place)
            if place not in unsure and it is not None and it.is_edited:
                block.unsure.append(place)


def _files_read(told: Told, packed: Packed | None) -> set[int]:
    """The entries whose own content a command read, by the lines of `observed`: none at which only a link stood."""
    if packed is None:
        return set()
    links = {place for place, look in zip(packed.places, packed.looks) if look & LINK_READ and not look & READ}
    return told.lines.get(("read", b""), set()) - links


def _head(names: Names, environment: Mapping[bytes, bytes]) -> Iterator[bytes]:
    """The lines in front of the entries."""
    own = key()
    yield b"by sha256"
    yield b"of " + names.observed
    yield b"build " + field(names.build)
    yield from (b"source " + field(it) for it in names.sources)
    yield b"key " + digest(own, b"").hex().encode()
    yield from (b"environ %s %s" % (field(name), it.hex().encode()) for name, it in digests(own, environment))
