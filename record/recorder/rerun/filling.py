"""What stands in a room before a command runs: the inputs that it met, from the folders of the project as they are now.

Only bytes with the recorded digest count. So a room never has a file as another command left it later.
"""

from __future__ import annotations

import contextlib
import hashlib
import io
import os
import stat
from collections.abc import Iterable, Iterator, Sequence
from dataclasses import dataclass, field
from typing import BinaryIO

from ..fields import shown
from .entries import File, Names
from .recorded import Command

_PART = 1 << 20
_OPEN = os.O_RDONLY | os.O_NOFOLLOW | os.O_NONBLOCK | os.O_NOCTTY | os.O_CLOEXEC
_OF_NINJA = (b".ninja_log", b".ninja_deps", b".ninja_lock")


class Lacking(Exception):
    """A sentence that says which input of a command is not there any more, so that the command is not run again."""


@dataclass
class Inputs:
    """What a room has: files, with the path of the file that each is a copy of (None for an empty one), links with
    where they lead, and folders. `doubts` say which of these may be others than the command met."""

    files: dict[bytes, bytes | None] = field(default_factory=dict)
    links: dict[bytes, bytes] = field(default_factory=dict)
    folders: set[bytes] = field(default_factory=set)
    doubts: list[str] = field(default_factory=list)

    def __contains__(self, path: bytes) -> bool:
        return path in self.files or path in self.links or path in self.folders


class Store:
    """The files of this system as they are now, each with its digest, which is made once for each version."""

    def __init__(self) -> None:
        self._digests: dict[tuple[int, ...], bytes] = {}

    def content(self, path: bytes) -> File | None:
        """The content of a regular file; None where no such file is there, or nobody may read it."""
        try:
            descriptor = os.open(path, _OPEN)
        except OSError:
            return None
        found = os.fstat(descriptor)
        if not stat.S_ISREG(found.st_mode):
            os.close(descriptor)
            return None
        with open(descriptor, "rb", buffering=0) as file:
            key = (found.st_dev, found.st_ino, found.st_size, found.st_mtime_ns, found.st_ctime_ns)
            if key not in self._digests:
                with contextlib.suppress(OSError):
                    self._digests[key] = digest_of(file)
            digest = self._digests.get(key)
            return None if digest is None else File(digest, found.st_size, bool(found.st_mode & stat.S_IXUSR))


def digest_of(file: BinaryIO | io.FileIO) -> bytes:
    """The SHA-256 of an open file's bytes, in digits."""
    found = hashlib.sha256()
    while part := file.read(_PART):
        found.update(part)
    return found.hexdigest().encode()


@dataclass
class Project:
    """The folders that are empty in a room, the build folder, what commands that started later changed, and the files
    as they are now."""

    empty: Sequence[bytes]
    build: bytes
    store: Store
    ninjas: set[bytes] = field(default_factory=set)

    def has(self, path: bytes) -> bool:
        """Whether a path stands in a folder that is empty in a room."""
        return any(path.startswith(it + b"/") or path == it for it in self.empty)

    def inputs(self, command: Command, later: set[bytes]) -> Inputs:
        """What the command met there. `later` are paths that commands changed which started after it. Raises
        Lacking."""
        edited = sorted(it for it in command.edited if it not in self.ninjas)
        if edited:
            raise Lacking(f"it changes {self.shown(edited[0])} in place, and the recording does not have the bytes "
                          f"from before")
        found, own = Inputs(), command.changed()
        for path, content in command.read.items():
            self._read(found, path, content)
        for path, text in command.links.items():
            if self.has(path) and path not in own:
                found.links[path] = text
        found.folders.update(it for it in command.folders if self.has(it) and it not in found.links)
        for path in sorted((command.asked | command.unsure | command.taken) - own | command.taken):
            if self.has(path) and path not in found:
                self._asked(found, path, command)
        for path, names in command.names.items():
            if self.has(path):
                self._listed(found, path, names, command, later)
        return found

    def shown(self, path: bytes) -> str:
        """A path as a reader knows it: below the build folder without that folder."""
        return shown(path.removeprefix(self.build + b"/"))

    def _read(self, found: Inputs, path: bytes, content: File) -> None:
        """A file whose bytes the command read."""
        now = self.store.content(path)
        is_same = now is not None and now.digest == content.digest
        if not self.has(path):
            if not is_same:
                found.doubts.append(f"{self.shown(path)} has other bytes now than the command read")
        elif is_same:
            found.files[path] = path
        elif now is None:
            raise Lacking(f"{self.shown(path)}, which it read, is not there any more")
        else:
            raise Lacking(f"{self.shown(path)} has other bytes now than it read")

    def _asked(self, found: Inputs, path: bytes, command: Command) -> None:
        """What the command asked for without reading it, and what it met of which the content is not known."""
        if path in command.unsure:
            found.doubts.append(f"it is not certain what it met at {self.shown(path)}")
        try:
            mode = os.lstat(path).st_mode
        except OSError:
            if path not in command.unsure and path not in self.ninjas:
                found.files[path] = None
            return
        if stat.S_ISDIR(mode):
            found.folders.add(path)
        elif stat.S_ISLNK(mode):
            found.links[path] = os.readlink(path)
        else:
            found.files[path] = path if stat.S_ISREG(mode) else None

    def _listed(self, found: Inputs, folder: bytes, names: Names, command: Command, later: set[bytes]) -> None:
        """The names in a folder whose names the command read."""
        for its in self._possible_names(folder, command, later):
            if len(its) == names.count and digest_of_names(its) == names.digest:
                break
        else:
            raise Lacking(f"the names in {self.shown(folder)}, which it read, are others now")
        found.folders.add(folder)
        for name in its:
            path = folder + b"/" + name
            if path not in found:
                self._asked(found, path, command)
                if found.files.get(path):
                    found.files[path] = None  # it met the name alone

    def _possible_names(self, folder: bytes, command: Command, later: set[bytes]) -> Iterator[set[bytes]]:
        """Names that may have been in a folder when the command read them: those of now, without the command's own and
        those of later commands, and with and without the files of Ninja's."""
        try:
            now = set(os.listdir(folder))
        except OSError:
            now = set()
        own = {os.path.basename(it) for it in command.changed() if os.path.dirname(it) == folder}
        others = {os.path.basename(it) for it in later if os.path.dirname(it) == folder}
        for its in (now - own, now - own - others, now):
            for ninjas in ((), _OF_NINJA, _OF_NINJA[1:], _OF_NINJA[:1]):
                yield its - set(ninjas)


def digest_of_names(names: Iterable[bytes]) -> bytes:
    """The digest of names in a folder, as the file `contents` has it."""
    return hashlib.sha256(b"".join(it + b"\0" for it in sorted(names))).hexdigest().encode()
