"""What a build leaves: what stands at each path below some folders, as far as it is not what stood there before."""

from __future__ import annotations

import hashlib
import os
import stat
from dataclasses import dataclass, field, replace
from typing import Collection, Iterator

LEFT_OUT = frozenset((b".ninja_log", b".ninja_deps", b".ninja_lock", b"__pycache__"))
"""Names that are not compared: Ninja's logs, which have times, and the folders of Python's caches, whose bytes are not
the same from run to run."""
MISSING = "missing"


@dataclass(frozen=True)
class Stamp:
    """By what it is seen that a file is still the one that it was."""

    mode: int
    size: int
    changed: int
    renamed: int


@dataclass
class Before:
    """What stood below the folders before anything ran, none of them below another."""

    folders: list[bytes]
    stamps: dict[bytes, Stamp] = field(default_factory=dict)

    def __post_init__(self) -> None:
        self.stamps = dict(_stamps(self.folders))

    def state(self, path: bytes) -> str:
        """What stands at a path that nothing has changed."""
        return state_of(path) if path in self.stamps else MISSING

    def is_as_it_was(self) -> bool:
        """Whether all stands there as it did."""
        return dict(_stamps(self.folders)) == self.stamps


def _stamps(folders: Collection[bytes]) -> Iterator[tuple[bytes, Stamp]]:
    todo = list(folders)
    while todo:
        try:
            found = os.scandir(todo.pop())
        except OSError:
            continue
        with found:
            for it in found:
                if it.name in LEFT_OUT:
                    continue
                try:
                    status = it.stat(follow_symlinks=False)
                except OSError:
                    continue
                is_folder = stat.S_ISDIR(status.st_mode)
                if is_folder:
                    todo.append(it.path)
                yield it.path, Stamp(status.st_mode, 0 if is_folder else status.st_size,
                                     0 if is_folder else status.st_mtime_ns, 0 if is_folder else status.st_ctime_ns)


def changed(before: Before, ignored: Collection[bytes], top: bytes = b"") -> dict[bytes, str]:
    """The paths that are not as they were before, each with what stands there now. A file that was written again is
    among them also where its bytes are the same. Copies of the folders may stand below a folder `top`: a copy has the
    stamps of what it was made of, but for the last."""
    found, seen = {}, set()
    for here, stamp in _stamps([top + it for it in before.folders]):
        path = here[len(top) :]
        seen.add(path)
        was = before.stamps.get(path)
        if path not in ignored and (was is None or was != (replace(stamp, renamed=was.renamed) if top else stamp)):
            found[path] = state_of(here)
    found.update((path, MISSING) for path in before.stamps.keys() - seen if path not in ignored)
    return found


def state_of(path: bytes) -> str:
    """What stands at a path, as a text: of a file its mode and the sum of its bytes."""
    try:
        status = os.lstat(path)
        mode = status.st_mode
        if stat.S_ISLNK(mode):
            return f"link to {os.fsdecode(os.readlink(path))}"
        if stat.S_ISREG(mode):
            return f"file {stat.S_IMODE(mode):o} {_sum_of(path)}"
    except FileNotFoundError:
        return MISSING
    except OSError as why:
        return f"not read: {why.strerror}"
    return f"folder {stat.S_IMODE(mode):o}" if stat.S_ISDIR(mode) else "special"


def _sum_of(path: bytes) -> str:
    found = hashlib.sha256()
    handle = os.open(path, os.O_RDONLY | os.O_NOFOLLOW | os.O_NONBLOCK)
    with open(handle, "rb") as file:
        while data := file.read(1 << 20):
            found.update(data)
    return found.hexdigest()


def differing(before: Before, one: dict[bytes, str], other: dict[bytes, str]) -> set[bytes]:
    """The paths at which two builds left different things."""
    found = set()
    for path in one.keys() | other.keys():
        here, there = one.get(path), other.get(path)
        if here != there and (here or before.state(path)) != (there or before.state(path)):
            found.add(path)
    return found
