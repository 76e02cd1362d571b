"""Places and contents by numbers that several recordings share, so that runs of two recordings can be compared."""

from __future__ import annotations

import os
import re
from collections.abc import Sequence

from ..fields import shown
from ..provoke.races import shown_name
from ..rerun.entries import Content, File, Link, Names

MISSING, THERE, FILE, FOLDER = range(4)
"""Answers without a content: nothing was there; something was; a file; a folder. Each content has a greater number."""
_LINK = -1
_WORDS = ("missing", "there", "file", "folder")
_PATH = re.compile(rb"(?<![^\s\"'=:,;@(<>|&])(-[A-Za-z]+|)(/[^\s\"':,;()<>|&]*)")


class Shared:
    """Numbers of places, which are paths as the first recording has them, and of answers. The place of the names in a
    folder is the folder's path with a slash behind it. At `programs` stood files that their owner may run."""

    def __init__(self) -> None:
        self.paths: list[bytes] = []
        self.contents: list[Content | None] = [None] * len(_WORDS)
        self.programs: set[int] = set()
        self._places: dict[bytes, int] = {}
        self._answers: dict[Content, int] = {}
        self._kinds = [MISSING, THERE, FILE, FOLDER]

    def place(self, path: bytes) -> int:
        """The number of a place."""
        number = self._places.setdefault(path, len(self.paths))
        if number == len(self.paths):
            self.paths.append(path)
        return number

    def answer(self, content: Content) -> int:
        """The number of a content as an answer."""
        number = self._answers.setdefault(content, len(self.contents))
        if number == len(self.contents):
            self.contents.append(content)
            self._kinds.append(FILE if isinstance(content, File) else FOLDER if isinstance(content, Names) else _LINK)
        return number

    def agree(self, one: int, other: int) -> bool:
        """Whether two answers can be of the same file, link or folder: one without a content says nothing of that."""
        if one == other:
            return True
        if MISSING in (one, other):
            return False
        bare = min(one, other)
        return bare == THERE or bare in (FILE, FOLDER) and self._kinds[max(one, other)] == bare

    def is_bare(self, answer: int) -> bool:
        """Whether the answer has no bytes of a file and no names of a folder. That of a link has none either: who asks
        for a link in order to replace it gets its text as well."""
        return answer <= FOLDER or self._kinds[answer] == _LINK

    def word(self, answer: int) -> str:
        """An answer as it is written."""
        content = self.contents[answer]
        if isinstance(content, File):
            return shown(content.digest) + " x" * content.is_executable
        if isinstance(content, Link):
            return "link " + shown_name(content.text)
        return _WORDS[answer] if content is None else "names " + shown(content.digest)


class Folders:
    """Takes paths of one recording for those of another whose build folder and folders of sources stand elsewhere."""

    def __init__(self, own: Sequence[bytes], other: Sequence[bytes]) -> None:
        """The folders of one and those of the other, in the same order."""
        pairs = sorted(zip(own, other), key=lambda it: -len(it[0])) if list(own) != list(other) else []
        self._pairs = [(one + b"/", others + b"/") for one, others in pairs]

    @property
    def are_elsewhere(self) -> bool:
        """Whether some folder has another path."""
        return bool(self._pairs)

    def path(self, path: bytes) -> bytes:
        """A path as the other recording has it. One that is below a folder of the other recording alone is of none."""
        if not self._pairs:
            return path
        for own, other in self._pairs:
            if (path + b"/").startswith(own):
                return (other + path[len(own) :]).rstrip(b"/") if path + b"/" == own else other + path[len(own) :]
        return b"\0" + path if any((path + b"/").startswith(other) for _, other in self._pairs) else path

    def text(self, text: bytes) -> bytes:
        """A command's text with the other recording's folders, where an absolute path stands below one of its own."""
        if not self._pairs:
            return text
        return _PATH.sub(lambda found: found[1] + self.path(found[2]), text)


def is_below(path: bytes, folders: set[bytes]) -> bool:
    """Whether a path is one of the folders, or below one."""
    while path and path not in folders:
        path = os.path.dirname(path) if path != b"/" else b""
    return bool(path)
