"""How places are named: as the build names them, and which of them are named at all."""

from __future__ import annotations

import json
import os
from collections.abc import Iterable
from typing import Any

from .places import Places

_SYSTEM = (b"/usr/", b"/lib", b"/etc/", b"/opt/", b"/bin/", b"/sbin/", b"/nix/", b"/gnu/")


def source_folders(build: bytes, manifest: Any) -> list[bytes]:
    """The real folders of the sources: as CMake or Meson note them, else those where inputs are that no edge makes."""
    noted = [*_of_cmake(build), *_of_meson(build)]
    found = [os.path.realpath(it) for it in noted] or _of_inputs(build, manifest)
    return [it for it in found if it.count(b"/") > 1]


def _of_cmake(build: bytes) -> list[bytes]:
    begin = b"CMAKE_HOME_DIRECTORY:INTERNAL="
    try:
        with open(os.path.join(build, b"CMakeCache.txt"), "rb") as file:
            return [it[len(begin) :].strip() for it in file if it.startswith(begin)]
    except OSError:
        return []


def _of_meson(build: bytes) -> list[bytes]:
    try:
        with open(os.path.join(build, b"meson-info/meson-info.json"), "rb") as file:
            return [os.fsencode(json.load(file)["directories"]["source"])]
    except (OSError, ValueError, KeyError, TypeError):
        return []


def _of_inputs(build: bytes, manifest: Any) -> list[bytes]:
    """The folder that all sources from outside of the build folder have in common, or each one's where that is none."""
    folders = set()
    for edge in manifest.edges:
        for path in (*edge.explicit, *edge.implicit):
            if path not in manifest.producer and path.startswith((b"/", b"..")):
                folders.add(os.path.dirname(path))
    folders = {os.path.realpath(os.path.join(build, it)) for it in folders}
    folders = {it for it in folders if not it.startswith((*_SYSTEM, build + b"/")) and it != build}
    common = os.path.commonpath(sorted(folders)) if folders else b"/"
    return [common] if common.count(b"/") > 1 else sorted(folders)


class Names:
    """Names of places. `paths` are those of the manifest and of lists, where of two names of a place the first counts;
    outputs come before all others."""

    def __init__(self, places: Places, build: bytes, sources: Iterable[bytes], paths: Iterable[bytes],
                 outputs: Iterable[bytes]) -> None:
        self._places, self._build = places, build
        self._below = tuple(it + b"/" for it in (build, *sources))
        self._tops = {build, *sources}
        self._names: dict[int, list[bytes]] = {}
        self._folders: dict[int, bytes] = {}
        self._used: dict[bytes, int] = {}
        self._inside: dict[int, bool] = {}
        for path in outputs:
            self._note(path)
        self.outputs = set(self._names)
        for path in paths:
            self._note(path)

    def _note(self, path: bytes) -> None:
        place = self._places.find(os.path.join(self._build, path))
        if place is None:
            return
        names = self._names.setdefault(place, [])
        if path in names:
            return
        names.append(path)
        folder = os.path.dirname(path)
        if path.startswith(b"../") and place and b"/../" not in path.lstrip(b"./"):
            above = self._places.folders[place]
            if os.path.normpath(os.path.join(self._build, folder)) == self._places.paths[above]:
                self._folders.setdefault(above, folder)

    def of(self, place: int) -> bytes:
        """The name: that of the build, else relative to the build folder where it is below that, else absolute."""
        found = self._names.get(place)
        if found:
            return found[0]
        real = self._places.paths[place] or b"/"
        if real == self._build:
            return b"."
        return real[len(self._build) + 1 :] if real.startswith(self._build + b"/") else real

    def unique(self, place: int) -> bytes:
        """The name, as version 2 of the file has it: an entry beside one that the manifest names is named in the same
        way. Where another place has this name, it is the real path."""
        name = self.of(place)
        if name.startswith(b"/") and place and place not in self._names:
            folder = self._folders.get(self._places.folders[place])
            own = self._folders.get(place)
            name = own or (folder + b"/" + self._places.paths[place].rpartition(b"/")[2] if folder else name)
        if self._used.setdefault(name, place) != place:
            name = self._places.paths[place] or b"/"
            self._used.setdefault(name, place)
        return name

    def others(self, place: int) -> list[bytes]:
        """Further names that the build has for it."""
        return self._names.get(place, [])[1:]

    def is_inside(self, place: int) -> bool:
        """Whether a place is below the build folder or one of the sources'."""
        found = self._inside.get(place)
        if found is None:
            real = self._places.paths[place]
            found = self._inside[place] = real.startswith(self._below) or real in self._tops
        return found
