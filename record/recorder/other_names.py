"""Other names of files. The manifest and lists may name a file in several ways: from the build folder, absolutely,
through a symbolic link. Ninja takes these for several files, and so does the trace. Beside the trace stands which of
them are one, so that answers can join them."""

from __future__ import annotations

import os
from collections.abc import Iterable

from .manifest import Manifest


def in_order(paths: Iterable[bytes]) -> list[bytes]:
    """Paths in the order in which they give a file its own name. An absolute path differs from machine to machine, so
    each relative one comes before."""
    return sorted(paths, key=lambda path: path.startswith(b"/"))


def outputs_in_order(manifest: Manifest) -> list[bytes]:
    """The outputs in the order in which they give a file its own name. What a phony edge has as its output stands for
    other files, so each output of a command comes before."""
    return [path for edge in sorted(manifest.edges, key=lambda edge: edge.phony) for path in edge.outputs]


def other_names(folder: bytes | str, manifest: Manifest, paths: Iterable[bytes]) -> dict[bytes, bytes]:
    """Path -> own name, for each path that leads to a file with another own name than the path.

    The own name of a file is the first output that names it, else the first of the paths `in_order` that does, else its
    path from the build folder where it is below that, else its absolute path. So `observed` names its place too. A path
    that names a symbolic link leads to the file at the link's end.
    """
    paths = list(paths)
    places = _Places(os.fsencode(folder))
    owns: dict[bytes, bytes] = {}
    for output in outputs_in_order(manifest):
        owns.setdefault(places.of(output), output)
    made = set(owns.values())
    for path in in_order(paths):
        owns.setdefault(places.of(path), path)
    found = {}
    for path in paths:
        place = places.of(path)
        own = owns[place]
        # Who lists another name of an output is to wait for its maker, also where the output is a link.
        if own == path or own not in made:
            own = places.end(place, owns)
        if own != path:
            found[path] = own
    return found


class _Places:
    """Places in a build: real paths, in which the links of folders are followed, and a link at the end is not."""

    def __init__(self, build: bytes) -> None:
        self.build = os.path.realpath(build)
        self._folders: dict[bytes, bytes] = {}

    def of(self, path: bytes) -> bytes:
        folder, _, name = os.path.join(self.build, path).rpartition(b"/")
        if name in (b"", b".", b".."):
            return _real(os.path.join(folder, name))
        real = self._folders.get(folder)
        if real is None:
            real = self._folders[folder] = _real(folder or b"/")
        return real.rstrip(b"/") + b"/" + name

    def end(self, place: bytes, owns: dict[bytes, bytes]) -> bytes:
        """The own name of the file to which a place leads: of another one, where the place is a link."""
        try:
            os.readlink(place)
        except (OSError, ValueError):
            return owns[place]
        last = _real(place)
        below = last[len(self.build) + 1 :] if last.startswith(self.build + b"/") else last
        return owns.get(last, b"." if last == self.build else below)


def _real(path: bytes) -> bytes:
    """The real path; the path itself where the system does not take it."""
    try:
        return os.path.realpath(path)
    except (OSError, ValueError):
        return path
