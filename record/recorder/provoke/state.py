"""The state file of work in the folders themselves: whose it is, which folders it is about, and what was moved.

It stands in a folder of this user's in the build folder. Nothing is put back, moved or taken away by its name alone:
the user, the device and the inode of each folder, and those of each thing that was moved, are those that it notes.
"""

from __future__ import annotations

import json
import os
import stat
from dataclasses import asdict, dataclass
from typing import Any

from ..held import HeldFolder
from .places import content_of, opened, status_of

STATE = b"state"
_HEAD, _END = "rebug-provoke-state 1\n", "\nend\n"
_LONGEST = 1 << 28


class BadState(Exception):
    """Why what an earlier call left is not touched."""


@dataclass(frozen=True)
class Identity:
    """A file or a folder, whatever its name is."""

    device: int
    inode: int

    @staticmethod
    def of(found: os.stat_result) -> Identity:
        """That of what the system tells of."""
        return Identity(found.st_dev, found.st_ino)


@dataclass(frozen=True)
class Look:
    """What a folder looked like: owner, group, mode and stamps."""

    owner: int
    group: int
    mode: int
    read_ns: int
    changed_ns: int

    @staticmethod
    def of(found: os.stat_result) -> Look:
        """That of what the system tells of."""
        return Look(found.st_uid, found.st_gid, stat.S_IMODE(found.st_mode), found.st_atime_ns, found.st_mtime_ns)

    def give(self, descriptor: int) -> None:
        """Has the folder look so."""
        found = os.fstat(descriptor)
        if (found.st_uid, found.st_gid) != (self.owner, self.group):
            os.fchown(descriptor, self.owner, self.group)
        if stat.S_IMODE(found.st_mode) != self.mode:
            os.fchmod(descriptor, self.mode)
        os.utime(descriptor, ns=(self.read_ns, self.changed_ns))


@dataclass(frozen=True)
class Worked:
    """A folder that is worked in: its path, what it is and looked like, the names in it that stay, and the others."""

    path: str
    identity: Identity
    look: Look
    stays: tuple[str, ...]
    moved: dict[str, Identity]

    def opened(self) -> HeldFolder:
        """The folder. Raises BadState where another one stands at its path, or none."""
        try:
            held = opened(os.fsencode(self.path))
        except OSError as why:
            raise BadState(f"{self.path} cannot be opened: {why.strerror}") from why
        found = os.fstat(held.descriptor)
        if (Identity.of(found), found.st_uid) != (self.identity, self.look.owner):
            held.close()
            raise BadState(f"{self.path} is another folder than the one that was worked in")
        return held


@dataclass(frozen=True)
class Process:
    """A process: its number, when it began, and in which run of the system."""

    number: int
    began: str
    system: str

    @staticmethod
    def own() -> Process:
        """This process."""
        return Process(os.getpid(), _began(os.getpid()), _system())

    def is_running(self) -> bool:
        """Whether it has not ended yet."""
        return self.system == _system() and bool(self.began) and _began(self.number) == self.began


@dataclass(frozen=True)
class State:
    """What is to be known to put everything back: the user, the process that moved it, and the folders, of which each
    has what was moved in a folder beside this file. `asides` are these folders."""

    user: int
    process: Process
    asides: tuple[Identity, ...]
    folders: tuple[Worked, ...]

    def write(self, folder: HeldFolder) -> None:
        """Writes it, down to the disk, into the folder of ours."""
        text = _HEAD + json.dumps(asdict(self)) + _END
        with folder.create(STATE) as file:
            file.write(text.encode("ascii"))
            file.flush()
            os.fchmod(file.fileno(), 0o600)
            os.fsync(file.fileno())
        folder.settle()

    @staticmethod
    def read(folder: HeldFolder) -> State | None:
        """What stands in the folder of ours; None where none was written whole. Raises BadState for another's."""
        found = status_of(folder, STATE)
        if found is None:
            return None
        if not stat.S_ISREG(found.st_mode) or found.st_uid != os.geteuid() or found.st_nlink != 1 \
                or found.st_mode & (stat.S_IWGRP | stat.S_IWOTH):
            raise BadState("its state file is not one that a call of this user wrote")
        text = content_of(folder, STATE, _LONGEST)
        if text is None or not text.startswith(_HEAD.encode()) or not text.endswith(_END.encode()):
            return None
        try:
            it = _state(json.loads(text[len(_HEAD) : -len(_END)]))
        except (ValueError, TypeError, KeyError, AttributeError, RecursionError) as why:
            raise BadState("its state file cannot be read") from why
        if it.user != os.geteuid():
            raise BadState("its state file is another user's")
        return it


def _state(it: dict[str, Any]) -> State:
    folders = tuple(Worked(_text(one["path"]), _identity(one["identity"]), Look(**_numbers(one["look"])),
                           tuple(map(_text, one["stays"])),
                           {_name(name): _identity(its) for name, its in one["moved"].items()})
                    for one in it["folders"])
    process = Process(int(it["process"]["number"]), _text(it["process"]["began"]), _text(it["process"]["system"]))
    found = State(int(it["user"]), process, tuple(map(_identity, it["asides"])), folders)
    if len(found.asides) != len(folders) or not folders:
        raise ValueError("a folder has no place for what was moved")
    return found


def _identity(it: dict[str, Any]) -> Identity:
    return Identity(**_numbers(it))


def _numbers(it: dict[str, Any]) -> dict[str, int]:
    if not all(type(value) is int for value in it.values()):
        raise ValueError("a number is none")
    return it


def _text(it: Any) -> str:
    if not isinstance(it, str):
        raise ValueError("a text is none")
    return it


def _name(it: Any) -> str:
    """A name in a folder, and no path."""
    if _text(it) in ("", ".", "..") or "/" in it or "\0" in it:
        raise ValueError("a name is none")
    return it


def _began(process: int) -> str:
    """The time at which a process began, as the system counts it; empty where it runs no more."""
    try:
        with open(f"/proc/{process}/stat", "rb") as file:
            fields = file.read().rpartition(b")")[2].split()
        return "" if fields[0] in (b"Z", b"X") else fields[19].decode()
    except (OSError, IndexError):
        return ""


def _system() -> str:
    """The run of the system, which ends when the machine does."""
    try:
        with open("/proc/sys/kernel/random/boot_id", encoding="ascii") as file:
            return file.read().strip()
    except OSError:
        return ""
