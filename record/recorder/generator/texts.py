"""The files of a generator as they are read, each once, and no more of them than a limit allows."""

from __future__ import annotations

import os
import stat
from typing import Callable, Generic, TypeVar

MOST_BYTES = 1 << 20
_Read = TypeVar("_Read")


def text_of(path: str, most: int = MOST_BYTES) -> str | None:
    """The text of a plain file that has at most so many bytes; None where there is none. Bytes that are no UTF-8, and
    ends of lines, stay as they are."""
    try:
        with open(os.open(path, os.O_RDONLY | os.O_NONBLOCK), "rb") as file:
            found = os.fstat(file.fileno())
            if not stat.S_ISREG(found.st_mode) or found.st_size > most:
                return None
            return file.read(most + 1).decode("utf-8", "surrogateescape")
    except OSError:
        return None


class Texts(Generic[_Read]):
    """What is read of files by their paths. Of all files together at most `left` letters are read."""

    def __init__(self, read: Callable[[str], list[_Read]], left: int = 16 * MOST_BYTES) -> None:
        self._read, self._left = read, left
        self._known: dict[str, list[_Read]] = {}

    def of(self, path: str) -> list[_Read]:
        """What is read of this file: nothing where it is not there, or is too much."""
        if path not in self._known:
            text = text_of(path) or ""
            self._left -= len(text)
            self._known[path] = self._read(text) if self._left >= 0 else []
        return self._known[path]
