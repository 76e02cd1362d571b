"""Caches from which commands may read in place of doing their work: those that are known, and those of the user's list.

The user's list is the file `rebug/caches` in the folder of settings ($XDG_CONFIG_HOME, else ~/.config): a folder a
line.
"""

from __future__ import annotations

import os
import pathlib
from collections.abc import Iterable, Iterator, Mapping

from .filters import folders_of_caches
from .places import Places


class Caches:
    """The folders of caches, and which of them an entry is in."""

    def __init__(self, places: Places, folders: Iterable[bytes]) -> None:
        self._places = places
        self._folders = tuple(dict.fromkeys(it.rstrip(b"/") for it in folders))
        self._known: dict[int, int | None] = {}

    def of(self, place: int) -> int | None:
        """The folder of the cache in which an entry is; None where it is in none."""
        folder = self._places.folders[place]
        if folder not in self._known:
            path = self._places.paths[folder] + b"/"
            found = next((it for it in self._folders if path.startswith(it + b"/")), None)
            self._known[folder] = None if found is None else self._places.number(found)
        return self._known[folder]


def known_folders(environment: Mapping[str, str] = os.environ) -> Iterator[bytes]:
    """The folders of all caches that are there."""
    for folder in (*folders_of_caches(environment), *_listed(environment)):
        yield os.fsencode(folder)


def _listed(environment: Mapping[str, str]) -> Iterator[str]:
    """The folders of the user's list."""
    settings = environment.get("XDG_CONFIG_HOME") or os.path.join(environment.get("HOME") or "/", ".config")
    try:
        text = (pathlib.Path(settings) / "rebug" / "caches").read_text("utf-8", "surrogateescape")
    except OSError:
        return
    for line in text.splitlines():
        if os.path.isabs(line) and os.path.isdir(line) and os.path.realpath(line) != "/":
            yield os.path.realpath(line)
