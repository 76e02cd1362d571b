"""Reads Ninja's deps log from its file. Lists stay there and are read one by one, since together they are large."""

from __future__ import annotations

import array
import os
import struct
import sys
from operator import itemgetter
from typing import Container, Iterable, Sequence, TypeVar, Union

from .fields import LONGEST_PATH, canonical, field, shown

_HEADER = b"# ninjadeps\n"
_KNOWN = (3, 4)
_RECORD = 1 << 31
_LARGEST = 1 << 19  # Ninja takes no larger record


T = TypeVar("T")


class BrokenLog(Exception):
    """A sentence about a log that Ninja itself cannot go on from."""


class Listing:
    """What one record lists. The paths are read from the file each time that they are asked for."""

    __slots__ = ("log", "at", "count")

    def __init__(self, log: DepsLog, at: int, count: int) -> None:
        self.log, self.at, self.count = log, at, count

    def numbers(self) -> tuple[int, ...]:
        """The listed paths by their numbers in the log."""
        return struct.unpack(f"<{self.count}I", os.pread(self.log.file.fileno(), 4 * self.count, self.at))

    def paths(self) -> Sequence[bytes]:
        """The listed paths."""
        return taken(self.log.paths, self.numbers())

    def text(self) -> bytes:
        """The paths as fields of a trace line, with a space in front of each."""
        fields = self.log.fields
        if len(fields) != len(self.log.paths):
            fields = self.log.fields = [b" " + field(it) for it in self.log.paths]
        return b"".join(taken(fields, self.numbers()))


def taken(values: Sequence[T], numbers: Sequence[int]) -> tuple[T, ...]:
    """The values with these numbers. One getter for all is the quickest way of many, and it wants two numbers."""
    return itemgetter(*numbers)(values) if len(numbers) > 1 else tuple(values[it] for it in numbers)


class DepsLog:
    """A deps log as far as it can be read: `places` has output -> (stamp, Listing), the last of each output.

    The file is kept open, so lists can be read also when Ninja has written the log anew.
    """

    def __init__(self, path: bytes | str | None = None, ends_at_unknown_paths: bool = False) -> None:
        self.paths: list[bytes] = []
        self.fields: list[bytes] = []
        self.places: dict[bytes, tuple[int, Listing]] = {}
        self.version = 0
        self.ends_at_unknown_paths = ends_at_unknown_paths
        try:
            self.file = open(path or os.devnull, "rb")
        except OSError:
            self.file = open(os.devnull, "rb")
        self._read()

    def __del__(self) -> None:
        self.file.close()

    def _read(self) -> None:
        head = self.file.read(len(_HEADER) + 4)
        if head[:-4] != _HEADER or len(head) != len(_HEADER) + 4:
            return
        self.version = struct.unpack("<I", head[-4:])[0]
        if self.version not in _KNOWN:
            return
        at = len(head)
        while True:
            head = self.file.read(4)
            size = int.from_bytes(head, "little")
            length = size & ~_RECORD
            body = self.file.read(length) if len(head) == 4 and 0 < length <= _LARGEST else b""
            if not body or len(body) != length or length % 4:
                break
            if not (self._note(body, at + 4) if size & _RECORD else self._name(body)):
                break
            at += 4 + length

    def _note(self, body: bytes, at: int) -> bool:
        """The record of an output; false where the log ends there. That of a number without a path is left out."""
        number, skip = int.from_bytes(body[:4], "little"), 12 if self.version >= 4 else 8
        if len(body) < skip:
            raise self._broken(f"a record of {len(body)} bytes")
        listed = array.array("I", body[skip:])
        if sys.byteorder != "little":
            listed.byteswap()
        greatest = max(listed, default=0)
        if listed and greatest >= len(self.paths):
            if self.ends_at_unknown_paths:
                return False
            raise self._broken(f"a list with path {greatest}, and {len(self.paths)} paths before it")
        stamp = int.from_bytes(body[4:skip], "little", signed=True)
        if number < len(self.paths):
            self.places[self.paths[number]] = max(0, stamp), Listing(self, at + skip, len(listed))
        return True

    def _broken(self, what: str) -> BrokenLog:
        name = shown(os.fsencode(self.file.name))
        return BrokenLog(f"{name} is broken: it has {what}. Ninja ends by a fault of its own on it, and makes another "
                         f"where it is taken away; edges with lists are then built again")

    def _name(self, body: bytes) -> bool:
        """A path's record: its bytes, filled up by NULs to four, and its number turned over."""
        if int.from_bytes(body[-4:], "little") != len(self.paths) ^ 0xFFFFFFFF:
            return False
        path = body[:-4]
        for _ in range(3):
            path = path[:-1] if path.endswith(b"\0") else path
        self.paths.append(canonical(path) if len(path) <= LONGEST_PATH else path)
        return True


def without_records(content: bytes, outputs: Container[bytes]) -> bytes:
    """A deps log in which these outputs (canonical) have records that list nothing and are older than each output. So
    Ninja runs their commands, and finds no cycle by what they listed."""
    version = int.from_bytes(content[len(_HEADER) : len(_HEADER) + 4], "little")
    if content[: len(_HEADER)] != _HEADER or version not in _KNOWN:
        return content
    added, at, number = [], len(_HEADER) + 4, 0
    while at + 4 <= len(content):
        size = int.from_bytes(content[at : at + 4], "little")
        length = size & ~_RECORD
        body = content[at + 4 : at + 4 + length]
        if not 0 < length <= _LARGEST or len(body) != length:
            break
        if not size & _RECORD:
            if canonical(body[:-4].rstrip(b"\0")) in outputs:
                stamp = 8 if version >= 4 else 4
                added.append(struct.pack("<II", _RECORD | 4 + stamp, number) + bytes(stamp))
            number += 1
        at += 4 + length
    return content[:at] + b"".join(added)


def paths_of(listing: Union[Listing, Sequence[bytes]]) -> Sequence[bytes]:
    """The paths of a listing, whether it is a list or stands in a file."""
    return listing.paths() if isinstance(listing, Listing) else listing


def text_of(listing: Union[Listing, Iterable[bytes]]) -> bytes:
    """The paths of a listing as fields, with a space in front of each."""
    return listing.text() if isinstance(listing, Listing) else b"".join(b" " + field(it) for it in listing)
