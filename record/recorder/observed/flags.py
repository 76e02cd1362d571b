"""Why a command was not observed whole: flags, each with its cause."""

from __future__ import annotations

from dataclasses import dataclass
from enum import Enum


class Flag(str, Enum):
    """The words of flags, in the order of the file."""

    CUT = "cut"
    LATE = "late"
    SOCKET = "socket"
    IPC = "ipc"
    PROC = "proc"
    NAMESPACE = "namespace"
    URING = "uring"
    ATTRIBUTES = "attributes"
    NOTIFIED = "notified"
    DEEP = "deep"
    UNRESOLVED = "unresolved"
    UNKNOWN = "unknown"
    TWIN = "twin"

    def __str__(self) -> str:
        return self.value


IN_VERSION_1 = {Flag.CUT: "cut", Flag.SOCKET: "server", Flag.NAMESPACE: "namespace", Flag.URING: "uring",
                Flag.TWIN: "twin"}
"""The flags that version 1 of the file has; each other one is its `unresolved`."""

LOOKING = (b"statfs",)
"""Unknown calls that only look, and at no file: how much room a file system has. Version 1 of the file does not have
them, so such a command is observed whole there."""

MOST_CAUSES = 16


@dataclass(frozen=True, slots=True)
class Cause:
    """What set a flag: the system's call, the program, and a path, an address or a number."""

    flag: Flag
    call: bytes = b""
    program: bytes = b""
    text: bytes = b""


class Flags:
    """The flags of one command. Of each it has a number of causes at most, and knows whether there were more."""

    def __init__(self) -> None:
        self.causes: dict[Cause, None] = {}
        self._counts: dict[Flag, int] = {}
        self._in_version_1: set[Flag] = set()

    def note(self, cause: Cause) -> None:
        """Notes a cause, or that there are more than are told."""
        if cause in self.causes:
            return
        if cause.flag is not Flag.UNKNOWN or cause.call not in LOOKING:
            self._in_version_1.add(cause.flag)
        count = self._counts[cause.flag] = self._counts.get(cause.flag, 0) + 1
        if count <= MOST_CAUSES:
            self.causes[cause] = None
        elif count == MOST_CAUSES + 1:
            self.causes[Cause(cause.flag)] = None

    @property
    def words(self) -> set[Flag]:
        """The flags that are set."""
        return set(self._counts)

    def words_in(self, version: int) -> set[Flag]:
        """Those of the flags for which a version of the file has a word."""
        return self._in_version_1 if version == 1 else self.words

    @property
    def words_of_version_1(self) -> list[str]:
        """The same, as version 1 of the file has them, in its order."""
        found = {IN_VERSION_1.get(it, "unresolved") for it in self._in_version_1}
        return [it for it in ("cut", "server", "namespace", "uring", "unresolved", "twin") if it in found]

    def sorted(self) -> list[Cause]:
        """The causes in the order of the file: by flag, and then as they came."""
        order = list(Flag)
        return sorted(self.causes, key=lambda it: order.index(it.flag))
