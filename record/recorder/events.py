"""The events of a build, as a trace has them (docs/FORMATS.md)."""

from __future__ import annotations

from dataclasses import dataclass
from typing import Sequence, Union

from .depslog import Listing

# What a command listed: paths, as they stand in a deps log's file or by themselves, or a depfile's text.
Listed = Union[Listing, Sequence[bytes], bytes]


@dataclass(frozen=True)
class Plan:
    """Ninja plans the targets; without any, the manifest's defaults."""

    targets: Sequence[bytes] = ()


@dataclass(frozen=True)
class Start:
    """The command of the edge with this output starts in a job, and in a slot of its pool where that has slots."""

    output: bytes
    job: int
    slot: int | None = None


@dataclass(frozen=True)
class Finish:
    """It ended well: a stamp for each output, and what it listed where that is known."""

    output: bytes
    stamps: Sequence[int]
    listing: Listed | None = None


@dataclass(frozen=True)
class Fail:
    """It failed, and left outputs with these stamps."""

    output: bytes
    stamps: Sequence[int]


@dataclass(frozen=True)
class Abort:
    """It was stopped, after an interrupt, and left outputs with these stamps."""

    output: bytes
    stamps: Sequence[int]


@dataclass(frozen=True)
class Clean:
    """The edge turned out to have no reason to run."""

    output: bytes


@dataclass(frozen=True)
class Pass:
    """A phony edge is passed, or one that only waited for others."""

    output: bytes


@dataclass(frozen=True)
class Touch:
    """The path's stamp became another, and no command did it."""

    path: bytes
    stamp: int


@dataclass(frozen=True)
class Interrupt:
    """The build was interrupted: nothing starts any more."""


OfEdge = Union[Start, Finish, Fail, Abort, Clean, Pass]
Event = Union[Plan, OfEdge, Touch, Interrupt]


def name_of(event: Event) -> bytes:
    """The output or the path that an event is about, empty where it is about none."""
    return b"" if isinstance(event, (Plan, Interrupt)) else event.path if isinstance(event, Touch) else event.output


# The kinds of events by the words of their lines.
WORDS: dict[type[Event], str] = {Plan: "plan", Start: "start", Finish: "finish", Fail: "fail", Abort: "abort",
                                 Clean: "clean", Pass: "pass", Touch: "touch", Interrupt: "interrupt"}
