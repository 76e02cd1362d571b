"""What the commands of a build have to do with each other: which entries matter, sockets and locks that two of them
use."""

from __future__ import annotations

import os
import stat
from collections import defaultdict
from collections.abc import Iterable, Mapping

from .flags import Flag
from .footprints import IMPORTED, LISTED, Packed
from .places import Places
from .processes import Command
from .programs import can_be_module
from .servers import flag_servers


class Changes:
    """What is changed in a build, by commands and by Ninja. `declared` are the entries that the manifest's edges make.

    `made` are folders that somebody made or found where one was to be made, `special` are the entries at which a
    link came or went, or a renamed folder, `linked` are those where a link did, `removed` are folders that were taken
    away. `locks` are files of which commands made sure that they are there, and which they locked: nobody did anything
    else with one of them, and nobody read the names in its folder. One that somebody opened to write is empty when the
    build has ended.
    """

    def __init__(self, packed: Iterable[Packed], places: Places, declared: Iterable[int],
                 opening: Mapping[int, bool] = {}) -> None:
        self.places = places
        self.found: set[int] = set()
        self.declared = set(declared)
        self.changed: set[int] = set()
        self.left: set[int] = set()
        self.made: set[int] = set()
        self.special: set[int] = set()
        self.linked: set[int] = set()
        self.removed: set[int] = set()
        uses: defaultdict[int, int] = defaultdict(int)
        all_packed = list(packed)
        for it in all_packed:
            self._add(it, uses)
        self.changed |= {it for it in self.found if not opening.get(it, False)}
        self.shared = self._shared_temps(all_packed, uses)
        self.changed |= self.shared
        self.names = _same_files(places)
        self.locks = self._locks(all_packed)
        self.left -= self.locks

    def _locks(self, all_packed: list[Packed]) -> set[int]:
        """The lock files that commands made, or opened to write."""
        found = {place for it in all_packed for place in it.ensured} & self.changed
        written = {place for it in all_packed for place in it.written} & found
        found -= {place for place in written if not _is_empty(self.places.paths[place])}
        found -= self.declared | self.special | self.names.keys()
        folders = self.places.folders
        for it in all_packed if found else ():
            used = {*it.touched, *it.places, *(place for place, _ in it.links)}
            used.update(*(asked.places for asked in it.asked))
            listed = {place: look for place, look in zip(it.places, it.looks) if look & (LISTED | IMPORTED)}
            found -= used - it.ensured.keys()
            found = {place for place in found if not _shows(listed.get(folders[place], 0), self.places.paths[place])}
        return found

    def _add(self, packed: Packed, uses: dict[int, int]) -> None:
        self.special |= packed.special
        self.linked |= packed.linked
        self.made |= packed.found
        self.found |= packed.found
        self.changed |= packed.besides
        self.left |= packed.besides
        for place, it in packed.touched.items():
            if not it.is_there and not it.existed and not it.is_edited:
                uses[place] += 1
                if it.is_folder:
                    self.made.add(place)
                continue
            self.changed.add(place)
            if it.is_folder and it.is_there:
                self.made.add(place)
            elif it.is_folder:
                self.removed.add(place)
            else:
                self.left.add(place)

    def _shared_temps(self, packed: list[Packed], uses: dict[int, int]) -> set[int]:
        """Temporaries with which another command than the one whose they are has to do, or whose folder it lists."""
        shared = {place for place, count in uses.items() if count > 1}
        folders: defaultdict[int, set[int]] = defaultdict(set)
        for place in uses:
            folders[self.places.folders[place]].add(place)
        for it in packed:
            mine = it.touched
            for place, look in zip(it.places, it.looks):
                if place in uses and place not in mine:
                    shared.add(place)
                if look & LISTED and place in folders:
                    shared.update(other for other in folders[place] if other not in mine)
            for asked in it.asked:
                shared.update(place for place in asked.places if place in uses and place not in mine)
        return shared

    def matters(self, place: int) -> bool:
        """Whether an entry is changed in this build, or declared to be made."""
        return place in self.changed or place in self.declared

    def is_plain_folder(self, place: int) -> bool:
        """Whether an entry is a folder that commands make, and no link or renamed folder ever stands there."""
        return place in self.made and place not in self.special


def _shows(look: int, path: bytes) -> bool:
    """Whether a look at a folder shows whether this entry of it is there: import looks for modules alone."""
    return bool(look & LISTED or look & IMPORTED and can_be_module(path))


def _is_empty(path: bytes) -> bool:
    """Whether a file without content is there."""
    try:
        it = os.lstat(path)
    except OSError:
        return False
    return stat.S_ISREG(it.st_mode) and not it.st_size


def _same_files(places: Places) -> dict[int, set[int]]:
    """By the entry, all entries that were names of one file."""
    groups: dict[int, set[int]] = {}
    for its in places.inodes.values():
        if len(its) > 1:
            group = set(its)
            for place in its:
                group |= groups.get(place, set())
            for place in group:
                groups[place] = group
    return groups


def flag_what_two_share(commands: list[Command], changes: Changes) -> None:
    """Sets the flags of sockets and locks that more than one command has to do with."""
    flag_servers(commands)
    _flag_locks(commands, changes)
    _flag_inputs(commands)


def _flag_inputs(commands: list[Command]) -> None:
    """Two commands that have one standard input, as those of the console: what one reads there the other does not. What
    somebody types at a terminal is nothing of the build."""
    readers = [it for it in commands if it.standard_input and not it.standard_input.startswith((b"/dev/tty", b"/dev/pts"))]
    if len(readers) > 1:
        for it in readers:
            it.flag(Flag.IPC, b"read", b"sh", it.standard_input)


def _flag_locks(commands: list[Command], changes: Changes) -> None:
    locked = {place for it in commands for place in it.locks}
    if not locked:
        return
    users: defaultdict[int, set[int]] = defaultdict(set)
    for number, it in enumerate(commands):
        if it.packed is not None:
            for place in {*it.locks, *(locked & it.packed.touched.keys()), *(locked.intersection(it.packed.places))}:
                users[place].add(number)
    for command in commands:
        for place, (call, program) in command.locks.items():
            if len(users[place]) > 1:
                command.flag(Flag.IPC, call, program, changes.places.paths[place])
