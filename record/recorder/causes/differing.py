"""Where two files of an output differ, and what that looks like."""

from __future__ import annotations

import enum
import hashlib
import re
from collections import Counter
from collections.abc import Sequence
from dataclasses import dataclass

from ..actions.files import Files, Unreadable
from ..rerun.entries import Content, File
from ..rerun.lines import BadRecording

MOST_BYTES = 1 << 26
"""Larger files are not compared."""
_BEFORE, _BEHIND, _LEAST_TEXT = 30, 40, 4
_DAY, _LONGEST = 86400, 7
_DATE = re.compile(rb"\d\d:\d\d:\d\d|20\d\d-\d\d-\d\d")
_ADDRESS = re.compile(rb"0x[0-9a-f]{8,}")
_TEMPORARY = re.compile(rb"/tmp/|tmp\.")
_UUID = re.compile(rb"[0-9a-f]{8}(-[0-9a-f]{4}){3}-[0-9a-f]{12}")
_IN_DIGITS = ((re.compile(rb"\d{10}"), 10), (re.compile(rb"[0-7]{11}"), 8))
_IN_BYTES: tuple[tuple[int, bool], ...] = ((4, True), (4, False), (8, True))


class Looks(enum.Enum):
    """What a difference looks like."""

    LINES = "the same lines in another order"
    BYTES = "the same bytes in another order"
    FOLDER = "the name of a folder of the project"
    DATE = "a date or a time"
    SECONDS = "a time in seconds since 1970"
    DIGITS = "a time in seconds since 1970, in digits"
    ADDRESS = "an address in memory"
    TEMPORARY = "the name of a temporary file"
    UUID = "a random name (UUID)"


@dataclass(frozen=True)
class OtherBytes:
    """Two contents: where the first other byte is, how many bytes are others, and what stands there in both."""

    at: int
    count: int
    sizes: tuple[int, int]
    texts: tuple[str, str]
    looks: Looks | None


@dataclass(frozen=True)
class Side:
    """A folder that has the outputs of a build, the folders of the project in that build, and when the build ended, in
    seconds; 0 where that is not known."""

    files: Files
    folders: Sequence[bytes]
    ended: int

    def read(self, path: bytes, content: File) -> bytes | str:
        """The bytes that a build left, or why they are not there."""
        if content.size > MOST_BYTES:
            return f"it has more than {MOST_BYTES:,} bytes"
        try:
            found = self.files.read(path)
        except (BadRecording, Unreadable) as why:
            return str(why)
        if found is None:
            return f"{self.files.folder} does not have it"
        if hashlib.sha256(found).hexdigest().encode() != content.digest:
            return f"that of {self.files.folder} is not the one that the build left"
        return found


def other_bytes(path: bytes, sides: tuple[Side, Side], contents: tuple[Content | None, Content | None]) \
        -> OtherBytes | str:
    """Where the files of an output differ, or why that cannot be printed."""
    before, now = contents
    if not isinstance(before, File) or not isinstance(now, File):
        return "it is not a file in both builds"
    one, other = sides[0].read(path, before), sides[1].read(path, now)
    if isinstance(one, str) or isinstance(other, str):
        return one if isinstance(one, str) else other
    if one == other:
        return "its bytes are the same, and its x bit is another"
    at = next((at for at, (a, b) in enumerate(zip(one, other)) if a != b), min(len(one), len(other)))
    count = sum(a != b for a, b in zip(one, other)) + abs(len(one) - len(other))
    return OtherBytes(at, count, (len(one), len(other)), (_around(one, at), _around(other, at)),
                      _looks(one, other, at, sides))


def _around(text: bytes, at: int) -> str:
    """What stands around a byte: text where it is in a text, else bytes in hexadecimal digits."""
    begin = end = at
    while begin > max(0, at - _BEFORE) and 32 <= text[begin - 1] < 127:
        begin -= 1
    while end < min(len(text), at + _BEHIND) and 32 <= text[end] < 127:
        end += 1
    if end - begin >= _LEAST_TEXT:
        return text[begin:end].decode("ascii")
    return text[max(0, at - _LEAST_TEXT) : at + 2 * _LEAST_TEXT].hex(" ")


def _looks(one: bytes, other: bytes, at: int, sides: tuple[Side, Side]) -> Looks | None:
    """What a difference looks like; None where it looks like nothing that is known."""
    near = one[max(0, at - _BEFORE) : at + _BEFORE]
    if sorted(one.splitlines()) == sorted(other.splitlines()):
        return Looks.LINES
    if Counter(one) == Counter(other):
        return Looks.BYTES
    if any(a != b and a in one and b in other for a, b in zip(sides[0].folders, sides[1].folders)):
        return Looks.FOLDER
    if _UUID.search(one[max(0, at - 36) : at + 36]):
        return Looks.UUID
    if _DATE.search(near):
        return Looks.DATE
    if _are_seconds(one, other, at, sides):
        return Looks.SECONDS
    if _are_digits(one, other, at, sides):
        return Looks.DIGITS
    if _ADDRESS.search(one[max(0, at - _BEFORE) : at + 16]):
        return Looks.ADDRESS
    return Looks.TEMPORARY if _TEMPORARY.search(one[max(0, at - _BEFORE) : at + 8]) else None


def _are_seconds(one: bytes, other: bytes, at: int, sides: tuple[Side, Side]) -> bool:
    """Whether the first other byte is in a number that is a time in both."""
    for size, is_little in _IN_BYTES:
        for begin in range(max(0, at - size + 1), at + 1):
            its = (int.from_bytes(it[begin : begin + size], "little" if is_little else "big") for it in (one, other))
            if all(_is_near(it, side) for it, side in zip(its, sides)):
                return True
    return False


def _are_digits(one: bytes, other: bytes, at: int, sides: tuple[Side, Side]) -> bool:
    for form, base in _IN_DIGITS:
        its = [form.search(it[max(0, at - 10) : at + 11]) for it in (one, other)]
        if all(it and _is_near(int(it[0], base), side) for it, side in zip(its, sides)):
            return True
    return False


def _is_near(seconds: int, side: Side) -> bool:
    """Whether a time is of the days before a build's end."""
    return bool(side.ended) and -_LONGEST * _DAY < seconds - side.ended < _DAY
