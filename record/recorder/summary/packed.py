"""When each command of a build began and ended, as a short text."""

from __future__ import annotations

import base64
import binascii
import zlib
from collections.abc import Container, Iterator, Sequence
from dataclasses import dataclass
from itertools import accumulate
from operator import add

MOST_BYTES = 1 << 26
"""The most bytes that a text stands for: one that stands for more is refused before memory is full."""


@dataclass(frozen=True)
class Run:
    """A run of a command: its number among the commands of the manifest, and when it began and ended, in milliseconds
    from the begin of the build. `ended` is None where it was stopped."""

    command: int
    began: int
    ended: int | None


class BadText(Exception):
    """A text that stands for no runs."""


def packed(runs: Sequence[Run]) -> str:
    """Runs as a text: differences of numbers and begins from run to run, and durations, as numbers of seven bits a
    byte, compressed."""
    return _text(_bytes_of(runs))


def plain_text(runs: Sequence[Run]) -> str:
    """The same in base64 alone, without compression."""
    return base64.b64encode(_bytes_of(runs)).decode("ascii")


def _bytes_of(runs: Sequence[Run]) -> bytearray:
    found = bytearray()
    command = began = 0
    for it in in_order(runs):
        for number in (it.command - command, it.began - began, -1 if it.ended is None else it.ended - it.began):
            _append(found, number)
        command, began = it.command, it.began
    return found


def in_order(runs: Sequence[Run]) -> list[Run]:
    """Runs in the order of a packed text: as they began."""
    return sorted(runs, key=lambda it: (it.began, it.command))


def packed_numbers(numbers: Sequence[int]) -> str:
    """Numbers as a text of the same form."""
    found = bytearray()
    for it in numbers:
        _append(found, it)
    return _text(found)


def unpacked_numbers(text: str) -> list[int]:
    """The numbers of such a text. Raises BadText."""
    return _numbers(_bytes(text))


def _text(data: bytes) -> str:
    return base64.b64encode(zlib.compress(data, 9)).decode("ascii")


NEVER = 1 << 62
"""What stands for the begin of a command that did not run, and for the end of one that did not end: it is later than
each moment."""
_MOST_MOMENT = 1 << 60


@dataclass(frozen=True)
class Columns:
    """The commands that ran, in the order in which they began, when each began and ended, or NEVER where it was
    stopped, and whether some were stopped."""

    ran: list[int]
    begins: list[int]
    ends: list[int]
    has_stopped: bool

    def span(self, command: int) -> tuple[int, int]:
        """When a command began and ended; NEVER where it did not run, or was stopped."""
        try:
            at = self.ran.index(command)
        except ValueError:
            return NEVER, NEVER
        return self.begins[at], self.ends[at]

    def runs_of(self, commands: Container[int]) -> dict[int, Run]:
        """The runs of some commands, of those that ran."""
        return {it: Run(it, self.begins[at], None if self.ends[at] == NEVER else self.ends[at])
                for at, it in enumerate(self.ran) if it in commands}


def columns(text: str, count: int) -> Columns:
    """When each of so many commands began and ended, by the text of its runs. Raises BadText."""
    numbers = _numbers(_bytes(text))
    if len(numbers) % 3:
        raise BadText("its runs are cut off")
    ran, waits, lengths = list(accumulate(numbers[::3])), numbers[1::3], numbers[2::3]
    if not ran:
        return Columns([], [], [], False)
    begins = list(accumulate(waits))
    if not (0 <= min(ran) <= max(ran) < count and len(set(ran)) == len(ran)
            and 0 <= min(begins) <= max(begins) < _MOST_MOMENT and -1 <= min(lengths) <= max(lengths) < _MOST_MOMENT):
        raise BadText("its runs are of no commands of that manifest")
    ends = list(map(add, begins, lengths))
    if has_stopped := -1 in lengths:
        ends = [end if length >= 0 else NEVER for end, length in zip(ends, lengths)]
    if min(waits) < 0:
        order = sorted(range(len(ran)), key=begins.__getitem__)
        ran, begins, ends = ([column[at] for at in order] for column in (ran, begins, ends))
    return Columns(ran, begins, ends, has_stopped)


def plain(text: str) -> str:
    """The numbers of a text in base64 alone, without compression. Raises BadText."""
    return base64.b64encode(_bytes(text)).decode("ascii")


def unpacked(text: str, count: int) -> list[Run]:
    """The runs of a text, in a manifest with so many commands. Raises BadText."""
    its = columns(text, count)
    return [Run(command, began, None if ended == NEVER else ended)
            for command, began, ended in sorted(zip(its.ran, its.begins, its.ends))]


def _bytes(text: str) -> bytes:
    try:
        reader = zlib.decompressobj()
        found = reader.decompress(base64.b64decode(text, validate=True), MOST_BYTES)
    except (ValueError, binascii.Error, zlib.error) as why:
        raise BadText("its runs are no text of this form") from why
    if not reader.eof or reader.unused_data:
        raise BadText("its runs are cut off")
    return found


def _append(to: bytearray, number: int) -> None:
    number = 2 * number if number >= 0 else -2 * number - 1
    while number > 127:
        to.append(number & 127 | 128)
        number >>= 7
    to.append(number)


def _signed(number: int) -> int:
    return -(number >> 1) - 1 if number & 1 else number >> 1


_ONE = [_signed(it) for it in range(128)]
_TWO = [[_signed(low & 127 | high << 7) for high in range(128)] for low in range(256)]
"""Numbers of one byte, and those of two by the first and the second one, which most are."""


def _numbers(data: bytes) -> list[int]:
    """The numbers of seven bits a byte. Raises BadText."""
    rest = iter(data)
    take = rest.__next__
    try:
        return [_ONE[byte] if byte < 128 else _TWO[byte][high] if (high := take()) < 128
                else _signed(_longer(byte & 127 | (high & 127) << 7, rest)) for byte in rest]
    except StopIteration:
        raise BadText("its runs are cut off") from None


def _longer(number: int, rest: Iterator[int]) -> int:
    """A number of more than two bytes. Raises StopIteration and BadText."""
    shift = 14
    while True:
        byte = next(rest)
        number |= (byte & 127) << shift
        if byte < 128:
            return number
        shift += 7
        if shift > 63:
            raise BadText("its runs have a number that is too long")
