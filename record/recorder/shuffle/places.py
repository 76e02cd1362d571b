"""Where a build is shuffled: the build folder and its sources, the targets, and what goes before each build."""

from __future__ import annotations

import os
from dataclasses import dataclass

from ..fields import canonical, shown
from ..manifest import Edge, Manifest
from ..observed.naming import source_folders
from ..words import NinjaWords
from .commands import Commands, NoBuild, commands_of, read_manifest
from .copying import Copying, check
from .rooms import layers_of_room, outermost
from .running import Place
from .states import Before

_OF_THE_SYSTEM = frozenset(b"bin boot dev etc home lib lib32 lib64 libx32 media mnt nix opt proc root run sbin srv sys "
                           b"tmp usr var".split())


@dataclass
class Prepared:
    """A build that can be shuffled: where, the manifest's name, the targets as they were given, and its commands."""

    place: Place
    name: bytes
    targets: tuple[bytes, ...]
    commands: Commands

    def whole(self, path: bytes) -> bytes:
        """The real path of a path that the manifest names."""
        return whole_path(self.place.build, path)

    def shown(self, path: bytes) -> str:
        """A real path as a reader knows it: below the build folder without that folder."""
        build = self.place.build + b"/"
        return shown(path[len(build) :] if path.startswith(build) else path)

    def outputs(self, edge: Edge) -> list[bytes]:
        return [self.whole(it) for it in edge.outputs]


def whole_path(build: bytes, path: bytes) -> bytes:
    whole = os.path.normpath(os.path.join(build, path))
    return os.path.join(os.path.realpath(os.path.dirname(whole)), os.path.basename(whole))


def prepared(build: bytes, ninja: bytes, words: NinjaWords, environment: dict[str, str],
             copies: bytes | None = None) -> Prepared:
    """The build of the folder, in rooms, or in copies below a folder that is made anew for each. Raises NoBuild and
    Refused; nothing has run then."""
    real = os.path.realpath(build)
    if not os.path.isdir(real):
        raise NoBuild(f"{shown(build)} is no folder")
    manifest = read_manifest(real, words.manifest)
    commands = commands_of(manifest, words.manifest, words.targets)
    if not commands.graph.commands:
        raise NoBuild(f"the targets in {shown(build)} need no command")
    fixed = frozenset(path for it in commands.fixed for path in manifest.edges[it].outputs)
    folders = _folders(real, manifest)
    options = [os.fsencode(it) for it in words.all[: len(words.all) - len(words.targets)]]
    copying = Copying(copies, tuple(folders)) if copies else None
    if copying:
        check(copying, manifest)
    layers = [] if copying else layers_of_room(folders, environment)
    place = Place(real, (ninja, *options), manifest, Before(folders), tuple(layers), copying,
                  _away(manifest, commands.fixed), manifest.log_folder() or b".", fixed)
    return Prepared(place, words.manifest, tuple(words.targets), commands)


def _folders(build: bytes, manifest: Manifest) -> list[bytes]:
    """The folders that are copied and compared: those of the build and of its sources, and wherever Ninja or a command
    may leave a file by the manifest, also through a link; none below another. Raises NoBuild."""
    left = {os.path.dirname(path) for edge in manifest.edges if not edge.phony for path in edge.outputs}
    left |= {os.path.dirname(name) for name, _, _ in manifest.files} | {manifest.log_folder()}
    real = {build, *(source_folders(build, manifest) or _sources_near_the_root(build, manifest))}
    real |= {_nearest(os.path.realpath(os.path.join(build, it))) for it in left}
    found = outermost([it for it in real if os.path.isdir(it)])
    if b"/" in found:
        raise NoBuild("the build leaves files in the folder /, of which no copy is made")
    return found


def _sources_near_the_root(build: bytes, manifest: Manifest) -> list[bytes]:
    """The folders of sources that stand in a folder of / which is none of the system's own."""
    found = {os.path.dirname(it) for edge in manifest.edges for it in (*edge.explicit, *edge.implicit)
             if it not in manifest.producer and it.startswith((b"/", b".."))}
    real = {os.path.realpath(os.path.join(build, it)) for it in found}
    return [it for it in real if it.count(b"/") == 1 and it[1:] and it[1:] not in _OF_THE_SYSTEM and os.path.isdir(it)]


def _nearest(folder: bytes) -> bytes:
    """The folder, or the nearest above it that is there."""
    while not os.path.isdir(folder):
        folder = os.path.dirname(folder)
    return folder


def _away(manifest: Manifest, fixed: set[int]) -> tuple[bytes, ...]:
    """What a build from nothing does not find: outputs, and the files beside them. What a statement names as an input
    and no edge makes is a source, also where it is an output's depfile."""
    found: dict[bytes, None] = {}
    path: bytes
    for edge in manifest.edges:
        if edge.phony or edge.number in fixed:
            continue
        found.update(dict.fromkeys(edge.outputs))
        beside = [edge.depfile, edge.binding(b"rspfile") if b"rspfile" in edge.texts else b""]
        for path in filter(None, beside):
            found.setdefault(canonical(path))
    sources = {path for edge in manifest.edges for path in edge.inputs if path not in manifest.producer}
    return tuple(it for it in found if it not in sources and it not in (b".", b".."))
