"""A version of a file: what the system says of it, which becomes another one with each change."""

from __future__ import annotations

import os
import stat
from typing import NamedTuple


class Version(NamedTuple):
    """What `lstat` shows of an entry. `changed` is the ctime, in nanoseconds: no program can set it, and each change of
    content or mode sets it to the kernel's clock."""

    device: int
    inode: int
    size: int
    written: int
    changed: int
    mode: int

    @property
    def is_file(self) -> bool:
        """Whether it is a regular file."""
        return stat.S_ISREG(self.mode)

    @property
    def is_folder(self) -> bool:
        """Whether it is a folder."""
        return stat.S_ISDIR(self.mode)

    @property
    def is_executable(self) -> bool:
        """Whether its owner may run it."""
        return bool(self.mode & stat.S_IXUSR)


def of_status(found: os.stat_result) -> Version:
    """The version that a status shows."""
    return Version(found.st_dev, found.st_ino, found.st_size, found.st_mtime_ns, found.st_ctime_ns, found.st_mode)


def of_text(text: bytes) -> Version:
    """The version that the observer told: the six numbers."""
    device, inode, size, written, changed, mode = map(int, text.split(b" "))
    return Version(device, inode, size, written, changed, mode)


def now(path: bytes) -> Version | None:
    """The version that stands at a path; None where nothing does, or nobody may ask."""
    try:
        return of_status(os.lstat(path or b"/"))
    except OSError:
        return None
