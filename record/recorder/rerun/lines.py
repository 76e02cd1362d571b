"""The lines of the files `observed` (version 2) and `contents` of a recording, which may come from somebody else.

Each file is checked as a whole by the digest in its last line, and each line when it is read. A fault names the file
and the line (docs/FORMATS.md).
"""

from __future__ import annotations

import hashlib
import re
from collections.abc import Sequence

_ESCAPES = {b"s": b" ", b"t": b"\t", b"n": b"\n", b"r": b"\r", b"\\": b"\\", b"0": b""}
_ESCAPED = re.compile(rb"\\(.?)", re.DOTALL)
_NUMBER = re.compile(rb"0|[1-9][0-9]{0,9}")


class BadRecording(Exception):
    """A sentence that says what is wrong with a file of a recording, with its line."""


class Fields:
    """Reads the fields of lines of one file."""

    def __init__(self, name: str) -> None:
        self.name = name

    def fault(self, at: int, what: str) -> BadRecording:
        """A fault of the line with this index."""
        return BadRecording(f"{self.name}:{at + 1}: {what}")

    def number(self, at: int, word: bytes, count: int) -> int:
        """A number below a count. Raises BadRecording."""
        if not _NUMBER.fullmatch(word) or int(word) >= count:
            raise self.fault(at, "a number that stands for nothing")
        return int(word)

    def numbers(self, at: int, words: Sequence[bytes], count: int) -> list[int]:
        """The numbers of ranges that rise, all below a count. Raises BadRecording."""
        return [number for its in self.ranges(at, words, count) for number in its]

    def ranges(self, at: int, words: Sequence[bytes], count: int) -> list[range]:
        """The same ranges as they are written. Raises BadRecording."""
        found: list[range] = []
        for word in words:
            first, is_range, last = word.partition(b"-")
            begin = self.number(at, first, count)
            end = self.number(at, last, count) if is_range else begin
            if end < begin or found and begin < found[-1].stop:
                raise self.fault(at, "numbers that do not rise")
            found.append(range(begin, end + 1))
        if not found:
            raise self.fault(at, "no number")
        return found

    def text(self, at: int, word: bytes) -> bytes:
        """The text of a field. Raises BadRecording."""
        def back(found: re.Match[bytes]) -> bytes:
            if found[1] not in _ESCAPES:
                raise self.fault(at, "an escape that stands for nothing")
            return _ESCAPES[found[1]]
        return _ESCAPED.sub(back, word) if b"\\" in word else word


class Lines(Fields):
    """The lines of one file without its last one, which has been checked."""

    def __init__(self, name: str, data: bytes, head: bytes) -> None:
        """Raises BadRecording for a file with another first line, one that was cut off, and one that is not as its last
        line says."""
        super().__init__(name)
        text, _, last = data.removesuffix(b"\n").rpartition(b"\n")
        self.lines = text.split(b"\n")
        if self.lines[0] != head and data.split(b"\n")[0] != head:
            raise BadRecording(f"{name}:1: it does not begin with `{head.decode()}`")
        words = last.split(b" ")
        self.digest = words[-1]
        if not data.endswith(b"\n") or words[0] != b"end" or len(words) < 2:
            raise BadRecording(f"{name}:{len(self.lines) + 1}: it is cut off: its last line does not begin with `end`")
        if hashlib.sha256(text + b"\n").hexdigest().encode() != self.digest:
            raise BadRecording(f"{name}:{len(self.lines) + 1}: the digest in its last line is not that of the lines "
                               f"above")
