"""What Ninja does for a command before that begins.

It makes the folders above the outputs of the command's edge where they are missing, and from Ninja 1.13 on those above
the depfile. It writes the response file, for which it makes no folder. All this comes after all that the edge waits
for, and before whatever waits for the edge. So it counts as done by the command.
"""

from __future__ import annotations

import os
from collections.abc import Iterable
from dataclasses import dataclass, field
from typing import Any

from .places import Places
from .resolving import Resolver
from .shares import Changes
from .ways import Standing


@dataclass(frozen=True)
class FolderWay:
    """How the path of a folder leads there, name by name. `folders` are the entries that are no links. `links` are the
    links, each with its text, and `ends` the entries to which they lead."""

    folders: tuple[int, ...]
    links: tuple[tuple[int, bytes], ...]
    ends: tuple[int, ...]


class FolderWays:
    """The ways of folders from the build folder, as the disk has them at one time."""

    def __init__(self, places: Places, build: bytes) -> None:
        self._places, self._build = places, build
        self._resolver = Resolver(places)
        self._known: dict[bytes, FolderWay] = {}

    def way(self, folder: bytes) -> FolderWay:
        """The way of a folder's path, as the manifest has it."""
        found = self._known.get(folder)
        if found is None:
            found = self._known[folder] = self._walk(folder)
        return found

    def known(self, folder: bytes) -> FolderWay | None:
        """The way of a folder's path, where it was asked for before."""
        return self._known.get(folder)

    def standing(self, place: int) -> Standing:
        """What stands at an entry."""
        return self._resolver.way(self._places.paths[place] or b"/").standing

    def _walk(self, folder: bytes) -> FolderWay:
        places = self._places
        at = 0 if folder.startswith(b"/") else places.number(self._build)
        folders: list[int] = []
        links: list[tuple[int, bytes]] = []
        ends: list[int] = []
        for name in folder.split(b"/"):
            if name == b"..":
                at = places.folders[at]
            elif name not in (b"", b"."):
                at = places.number(places.paths[at] + b"/" + name)
                way = self._resolver.way(places.paths[at])
                if way.standing is Standing.LINK:
                    links += way.ends
                    at = way.end
                    ends.append(at)
                else:
                    folders.append(at)
        return FolderWay(tuple(folders), tuple(links), tuple(ends))


@dataclass
class Before:
    """What Ninja did before one command, so far as it matters.

    `made` are the folders that it made where they were missing. `links` are the links through which it came, each with
    its text, and `asked` are the other entries that decide where it made folders, or whether it could. `is_steady`: no
    entry decided where it made folders, so there are no others than those of `made`.
    """

    made: set[int] = field(default_factory=set)
    links: set[tuple[int, bytes]] = field(default_factory=set)
    asked: set[int] = field(default_factory=set)
    is_steady: bool = True


class Preparing:
    """What Ninja does before the commands of a build. The ways of folders are looked at when the build begins, and
    when it has ended. `makes_folders_of_depfiles`: as Ninja does from 1.13 on."""

    def __init__(self, places: Places, build: bytes, makes_folders_of_depfiles: bool) -> None:
        self._places, self._build = places, build
        self._makes_folders_of_depfiles = makes_folders_of_depfiles
        self._first = FolderWays(places, build)
        self._last: FolderWays | None = None

    def made_for(self, edge: Any) -> list[bytes]:
        """The files of an edge above which Ninja makes the folders."""
        return [*edge.outputs, *((edge.depfile,) if edge.depfile and self._makes_folders_of_depfiles else ())]

    def begin(self, edges: Iterable[Any]) -> None:
        """The build begins."""
        for edge in edges:
            for path in (*self.made_for(edge), edge.rspfile) if not edge.phony else ():
                self._first.way(os.path.dirname(path))

    @property
    def last(self) -> FolderWays:
        """The ways as they are when the build has ended."""
        if self._last is None:
            self._last = FolderWays(self._places, self._build)
        return self._last

    def before(self, edge: Any, changes: Changes) -> Before:
        """What Ninja did before the command of an edge."""
        found = Before()
        for folder in {os.path.dirname(path): None for path in self.made_for(edge)}:
            self._come(found, folder, changes)
            found.made.update(self.last.way(folder).folders)
        found.made = {it for it in found.made - found.asked if changes.matters(it)}
        found.is_steady = not found.links and not found.asked
        if edge.rspfile:
            self._need(found, os.path.dirname(edge.rspfile), changes)
        return found

    def _come(self, found: Before, folder: bytes, changes: Changes) -> None:
        """Ninja comes to a folder. It makes nothing at the end of a link. So what stands at the end is asked for, and
        so is each entry at which a link came or went."""
        ways = [it for it in (self._first.known(folder), self.last.way(folder)) if it is not None]
        links = {place for way in ways for place, _ in way.links}
        for way in ways:
            found.links.update(it for it in way.links if changes.matters(it[0]))
            found.asked.update(it for it in way.folders if it in links or it in changes.linked)
            for place in way.ends:
                found.asked.update(it for it in self._up(place) if changes.matters(it))

    def _need(self, found: Before, folder: bytes, changes: Changes) -> None:
        """Ninja writes a file into a folder, which has to be there."""
        self._come(found, folder, changes)
        way = self.last.way(folder)
        found.asked.update(it for it in way.folders if changes.matters(it) and it not in found.made)

    def _up(self, place: int) -> Iterable[int]:
        """An entry and the folders above it."""
        folders = self._places.folders
        while place:
            yield place
            place = folders[place]
