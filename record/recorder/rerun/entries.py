"""The entries and contents that the files `observed` and `contents` of a recording speak of by numbers."""

from __future__ import annotations

import os
from dataclasses import dataclass

from .lines import BadRecording, Lines

OBSERVED, CONTENTS = b"rebug-observed 2", b"rebug-contents 1"
"""The first lines of the two files."""
OLD = b"rebug-observed 1"
"""The first line of an observation to which no contents belong."""
_MOST_NAME = 4096


@dataclass(frozen=True)
class File:
    """The content of a file: the SHA-256 of its bytes, how many these are, and whether its owner may run it."""

    digest: bytes
    size: int
    is_executable: bool


@dataclass(frozen=True)
class Link:
    """The content of a link: where it leads."""

    text: bytes


@dataclass(frozen=True)
class Names:
    """The names in a folder: how many, and their digest."""

    count: int
    digest: bytes


Content = File | Link | Names


class Entries:
    """The entries of both files by their numbers, and the contents by theirs, each with the number of its entry.

    `paths` are absolute, and no link is on the way. `names` are paths as `observed` has them, else absolute ones.
    `folders` are entries in which others are. `moved` are those that changed while commands ran, and that no command
    changed.
    """

    def __init__(self, observed: Lines, contents: Lines) -> None:
        self.observed, self.contents = observed, contents
        self.paths: list[bytes] = []
        self.names: list[bytes] = []
        self.folders: set[int] = set()
        self.moved: list[int] = []
        self.versions: list[tuple[int, Content]] = []
        self.build, self.sources, self.key = b"", list[bytes](), b""
        self.environment: dict[bytes, bytes] = {}
        self._head: dict[bytes, list[tuple[int, list[bytes]]]] = {}

    def read_head(self) -> None:
        """Reads what stands in `contents` before the blocks and is about the build. Raises BadRecording."""
        text = self.contents.text
        for at, it in enumerate(self.contents.lines[1:], 1):
            word, *words = it.split(b" ")
            if word == b"edge":
                break
            self._head.setdefault(word, []).append((at, words))
        if self._one(b"by") != b"sha256":
            raise BadRecording("contents: its digests are of a kind that this version does not make")
        if self._one(b"of") != self.observed.digest:
            raise BadRecording("contents: it is of another file `observed`")
        self.build, self.key = self._one(b"build"), self._one(b"key")
        self.sources = [text(at, words[0]) for at, words in self._head.get(b"source", []) if len(words) == 1]
        for it in (self.build, *self.sources):
            if not it.startswith(b"/") or it == b"/" or os.path.normpath(it) != it:
                raise BadRecording(f"contents: {os.fsdecode(it)!r} is no path of a folder that can be emptied")
        self.environment = {text(at, words[0]): words[1]
                            for at, words in self._head.get(b"environ", []) if len(words) == 2}
        self._head.clear()

    def take_path(self, at: int, words: list[bytes]) -> None:
        """Takes the entry of a line `path` of `observed`: the name of one stands in its folder. Raises BadRecording."""
        text, name = self.observed.text(at, words[0]), os.path.basename(words[0])
        self.names.append(text)
        if len(words) > 1:
            number = self.observed.number(at, words[1], len(self.paths))
            self.folders.add(number)
            if name not in (b"", b".", b".."):
                self.paths.append(self.paths[number].rstrip(b"/") + b"/" + os.path.basename(text))
                return
        self.paths.append(os.path.normpath(os.path.join(self.build, text)))

    def read_contents(self) -> int:
        """Reads the further entries and the contents. Where the blocks begin in `contents`. Raises BadRecording."""
        lines = self.contents
        for at, it in enumerate(lines.lines[1:], 1):
            word, *words = it.split(b" ")
            if word == b"edge":
                return at
            if word == b"root":
                self._add(b"/")
            elif word == b"path":
                self._read_names(at, words)
            elif word in (b"version", b"link", b"names"):
                self.versions.append(self._version(at, word, words))
            elif word == b"changed":
                self.moved = lines.numbers(at, words, len(self.paths))
        return len(lines.lines)

    def _one(self, word: bytes) -> bytes:
        """The value of a word of the head that stands there once."""
        lines = self._head.get(word, [])
        if len(lines) != 1 or len(lines[0][1]) != 1:
            raise BadRecording(f"contents: the line `{word.decode()}` does not stand there once")
        return self.contents.text(lines[0][0], lines[0][1][0])

    def _add(self, path: bytes) -> None:
        self.paths.append(path)
        self.names.append(path.removeprefix(self.build + b"/"))

    def _read_names(self, at: int, words: list[bytes]) -> None:
        if not words:
            raise self.contents.fault(at, "a line without a folder")
        number = self.contents.number(at, words[0], len(self.paths))
        folder = self.paths[number].rstrip(b"/")
        self.folders.add(number)
        for word in words[1:]:
            name = self.contents.text(at, word)
            if b"/" in name or name in (b"", b".", b"..") or b"\0" in name or len(name) > _MOST_NAME:
                raise self.contents.fault(at, "a name that no entry of a folder has")
            self._add(folder + b"/" + name)

    def _version(self, at: int, word: bytes, words: list[bytes]) -> tuple[int, Content]:
        lines = self.contents
        least, most = (2, 2) if word == b"link" else (3, 4) if word == b"version" else (3, 3)
        if not least <= len(words) <= most or words[3:] not in ([], [b"x"]):
            raise lines.fault(at, "a content with other fields")
        entry = lines.number(at, words[0], len(self.paths))
        if word == b"link":
            return entry, Link(lines.text(at, words[1]))
        size = lines.number(at, words[1], 1 << 33) if word == b"names" else _size(lines, at, words[1])
        return entry, (Names(size, words[2]) if word == b"names" else File(words[2], size, len(words) == 4))


def _size(lines: Lines, at: int, word: bytes) -> int:
    if not word.isdigit() or len(word) > 18:
        raise lines.fault(at, "a size that is no number")
    return int(word)
