"""A folder held by its descriptor, below which no name is looked up through a symbolic link.

What stands in a folder that came from somebody else is data. Each folder on the way to a name is opened from the one
above it, and is refused where it is a link. So nothing outside of the held folder is written, moved or taken away, also
where somebody puts a link in the place of a folder in between.
"""

from __future__ import annotations

import contextlib
import errno
import os
import stat
from typing import BinaryIO, Iterator

from .fields import LONGEST_PATH

_FOLDER = os.O_RDONLY | os.O_DIRECTORY | os.O_CLOEXEC
_BUFFER = 1 << 18
# Errors of a file system that cannot be told to write a folder out.
_NO_FSYNC = (errno.EINVAL, errno.ENOTSUP, errno.EBADF, errno.EROFS)


def joined(folder: bytes, name: bytes) -> bytes:
    """The path of a name in a folder that is named from the held one, which itself is the empty path."""
    return folder + b"/" + name if folder else name


class HeldFolder:
    """A folder by its descriptor, which it owns. Paths are relative, canonical bytes; the empty path is the folder."""

    def __init__(self, descriptor: int) -> None:
        self.descriptor = descriptor

    @classmethod
    def at(cls, path: bytes | str | os.PathLike[str]) -> HeldFolder:
        """The folder at a path that the user gave, which may lead through links."""
        return cls(os.open(path, _FOLDER))

    def __enter__(self) -> HeldFolder:
        return self

    def __exit__(self, *_: object) -> None:
        self.close()

    def close(self) -> None:
        """Gives the descriptor back."""
        os.close(self.descriptor)

    def below(self, path: bytes) -> HeldFolder:
        """The folder with this path. An OSError is about its part that is a link (ELOOP or ENOTDIR) or not there."""
        held = HeldFolder(os.dup(self.descriptor))
        try:
            for part in path.split(b"/") if path else ():
                inner = os.open(part, _FOLDER | os.O_NOFOLLOW, dir_fd=held.descriptor)
                held.close()
                held = HeldFolder(inner)
        except BaseException:
            held.close()
            raise
        return held

    @contextlib.contextmanager
    def _parent(self, path: bytes) -> Iterator[tuple[int, bytes]]:
        """The descriptor of the folder that a name stands in, and the name."""
        folder, _, name = path.rpartition(b"/")
        with self.below(folder) as held:
            yield held.descriptor, name

    def status(self, path: bytes) -> os.stat_result | None:
        """What stands at the path, a link as the link that it is; None where nothing does."""
        try:
            with self._parent(path) as (folder, name):
                return os.stat(name, dir_fd=folder, follow_symlinks=False)
        except FileNotFoundError:
            return None

    def names(self, path: bytes = b"") -> list[bytes]:
        """The names in the folder with this path, in byte order."""
        with self.below(path) as held:
            return sorted(map(os.fsencode, os.listdir(held.descriptor)))

    def everything(self, path: bytes = b"") -> Iterator[tuple[bytes, os.stat_result]]:
        """All that stands below the path, each folder before what is in it. A folder is read once it was given, so
        one that the caller has moved away in between is left out."""
        todo = [path]
        while todo:
            folder = todo.pop()
            try:
                names = self.names(folder)
            except FileNotFoundError:
                continue
            for name in names:
                at = joined(folder, name)
                if len(at) > LONGEST_PATH:
                    raise OSError(errno.ENAMETOOLONG, os.strerror(errno.ENAMETOOLONG), os.fsdecode(at[:80] + b"..."))
                found = self.status(at)
                if found is not None:
                    yield at, found
                    if stat.S_ISDIR(found.st_mode):
                        todo.append(at)

    def make(self, path: bytes) -> None:
        """Makes a folder, and the folders on the way to it that are missing."""
        for at in _prefixes(path):
            with contextlib.suppress(FileExistsError), self._parent(at) as (folder, name):
                os.mkdir(name, dir_fd=folder)

    def create(self, path: bytes) -> BinaryIO:
        """A file that was not there, to write into. Folders on the way that are missing are made."""
        folder, _, name = path.rpartition(b"/")
        self.make(folder)
        with self.below(folder) as held:
            flags = os.O_WRONLY | os.O_CREAT | os.O_EXCL | os.O_NOFOLLOW | os.O_CLOEXEC
            return open(os.open(name, flags, 0o666, dir_fd=held.descriptor), "wb", buffering=_BUFFER)

    def read(self, path: bytes) -> BinaryIO:
        """A file to read from. A pipe that nobody writes into is not waited for."""
        flags = os.O_RDONLY | os.O_NOFOLLOW | os.O_NONBLOCK | os.O_CLOEXEC
        with self._parent(path) as (folder, name):
            return open(os.open(name, flags, dir_fd=folder), "rb")

    def move(self, path: bytes, to: HeldFolder, target: bytes) -> None:
        """Moves a file or a folder by one rename. A file in the target's place is replaced, and so is a link."""
        with self._parent(path) as (folder, name), to._parent(target) as (other, new):
            os.rename(name, new, src_dir_fd=folder, dst_dir_fd=other)

    def unlink(self, path: bytes) -> None:
        """Takes a file away, or a link."""
        with self._parent(path) as (folder, name):
            os.unlink(name, dir_fd=folder)

    def take_away(self, path: bytes) -> None:
        """Takes away a folder with all that is in it; links in it are taken away, and not what they lead to."""
        folders = [path]
        for at, found in self.everything(path):
            if stat.S_ISDIR(found.st_mode):
                folders.append(at)
            else:
                self.unlink(at)
        for at in reversed(folders):
            with self._parent(at) as (folder, name):
                os.rmdir(name, dir_fd=folder)

    def may_write(self) -> bool:
        """Whether the system lets this process put names into the folder."""
        return os.access(b".", os.W_OK | os.X_OK, dir_fd=self.descriptor, effective_ids=os.access in
                         os.supports_effective_ids)

    def settle_everything(self) -> None:
        """Has the system write all that is below the folder to the disk."""
        for at, found in self.everything():
            if stat.S_ISDIR(found.st_mode):
                with self.below(at) as folder:
                    folder.settle()
            elif stat.S_ISREG(found.st_mode):
                with self.read(at) as file:
                    os.fsync(file.fileno())
        self.settle()

    def settle(self) -> None:
        """Has the system write the names in the folder to the disk, where its file system can be told to."""
        try:
            os.fsync(self.descriptor)
        except OSError as why:
            if why.errno not in _NO_FSYNC:
                raise


def _prefixes(path: bytes) -> Iterator[bytes]:
    parts = path.split(b"/") if path else []
    for count in range(len(parts)):
        yield b"/".join(parts[: count + 1])
