"""Files of recordings, which may come from somebody else: only regular files are read, and none without an end."""

from __future__ import annotations

import errno
import os
import stat
from typing import BinaryIO

LONGEST = 1 << 30
"""The most bytes that are read of a file. A larger one is refused by its size, and not once memory is full."""
_PART = 1 << 20
_KINDS = ((stat.S_ISDIR, "a folder"), (stat.S_ISLNK, "a link"), (stat.S_ISFIFO, "a pipe"), (stat.S_ISSOCK, "a socket"),
          (stat.S_ISCHR, "a device"), (stat.S_ISBLK, "a device"))


class NoFile(OSError):
    """A sentence that says why this is no file to read; `strerror` has its end, behind the name."""


def read_regular(path: str | bytes, most: int = LONGEST) -> bytes:
    """The bytes of a file. Raises OSError, and NoFile for a pipe, a device and a file of more than `most` bytes."""
    descriptor = os.open(path, os.O_RDONLY | os.O_NONBLOCK | os.O_CLOEXEC | os.O_NOCTTY)
    with open(descriptor, "rb") as file:
        return read_open(file, path, most)


def read_open(file: BinaryIO, path: str | bytes, most: int = LONGEST) -> bytes:
    """The bytes of an open file that has this name. Raises OSError, and NoFile as above."""
    found = os.fstat(file.fileno())
    if not stat.S_ISREG(found.st_mode):
        raise NoFile(errno.EINVAL, f"it is {kind_of(found.st_mode)}, and not a file", os.fsdecode(path))
    parts: list[bytes] = []
    count = 0 if found.st_size <= most else found.st_size
    while count <= most and (part := file.read(_PART)):
        parts.append(part)
        count += len(part)
    if count > most:
        raise NoFile(errno.EFBIG, f"it has more than {most} bytes", os.fsdecode(path))
    return b"".join(parts)


def kind_of(mode: int) -> str:
    """What something is that is not a file, by its mode."""
    return next((text for is_kind, text in _KINDS if is_kind(mode)), "no file")
