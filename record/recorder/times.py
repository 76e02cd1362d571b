"""The lines of a recording's file `times`: when its events happened, and what its commands spent."""

from __future__ import annotations

from collections.abc import Iterator
from typing import NamedTuple

_MOST_DIGITS = 16


class Time(NamedTuple):
    """When an event was, in milliseconds from the begin of the build. `processor`: how long the processes of the
    command that ended there used a processor, in milliseconds; None where that is not known."""

    moment: int
    processor: int | None


def moments(times: bytes) -> Iterator[tuple[bytes, Time]]:
    """By labels the lines `LABEL TIME` and `LABEL TIME PROCESSOR MEMORY`, of which version 1 has the first alone. A
    line of another form is passed over."""
    for line in times.split(b"\n")[1:]:
        label, *numbers = line.split(b" ")
        if numbers and all(it.isdigit() and len(it) < _MOST_DIGITS for it in numbers):
            yield label, Time(int(numbers[0]), int(numbers[1]) if len(numbers) > 1 else None)
