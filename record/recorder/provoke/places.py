"""Places below held folders: what a trial writes and takes away, each name in a folder that is held by its descriptor.

A trial changes files in copies of folders. A link in such a copy may lead out of it, and another process may put one
there at any time. So the folder of each name is opened from the top of its copy, one part after the other, and no part
may be a link or stand on another file system.
"""

from __future__ import annotations

import contextlib
import ctypes
import errno
import os
import stat
from dataclasses import dataclass
from typing import Callable, Iterable, Iterator

from ..held import HeldFolder, joined

_NOT_REPLACED = 1  # RENAME_NOREPLACE
_UNKNOWN_CALL = (errno.ENOSYS, errno.EINVAL)
_READ = os.O_RDONLY | os.O_NOFOLLOW | os.O_NONBLOCK | os.O_CLOEXEC


def opened(path: bytes) -> HeldFolder:
    """The folder at an absolute path no part of which is a link. Raises OSError."""
    with HeldFolder.at(b"/") as root:
        return root.below(path.strip(b"/"))


@dataclass
class Place:
    """A name in a folder that is held."""

    folder: HeldFolder
    name: bytes

    def status(self) -> os.stat_result | None:
        """What stands there, a link as the link that it is; None where nothing does."""
        return status_of(self.folder, self.name)

    def take_away(self) -> bool:
        """Takes a file or a link away. A folder, a pipe and a device stay; false where nothing was taken away."""
        found = self.status()
        if found is None or not (stat.S_ISREG(found.st_mode) or stat.S_ISLNK(found.st_mode)):
            return False
        os.unlink(self.name, dir_fd=self.folder.descriptor)
        return True

    def write(self, content: bytes) -> None:
        """Writes a new file, in place of the file or the link that stands there."""
        self.take_away()
        with self.folder.create(self.name) as file:
            file.write(content)

    def make_old(self) -> None:
        """Gives what stands there the oldest stamp."""
        if self.status() is not None:
            os.utime(self.name, (1, 1), dir_fd=self.folder.descriptor, follow_symlinks=False)


class Tops:
    """Folders (real paths) below which a trial may change files. Paths are those of the build folder."""

    def __init__(self, build: bytes, folders: Iterable[bytes]) -> None:
        self.build, self.folders = build, tuple(folders)

    def real(self, path: bytes) -> bytes:
        """The one absolute name of what stands at a path: links on the way are followed, the last part is not."""
        return real_name(os.path.join(self.build, path), os.path.realpath)

    @contextlib.contextmanager
    def place(self, path: bytes) -> Iterator[Place | None]:
        """The place of a path; None where that is elsewhere, or no folder on the way is there."""
        folder, name = os.path.split(self.real(path))
        top = next((it for it in self.folders if folder == it or folder.startswith(it + b"/")), None)
        held = None if top is None or os.path.basename(path) in (b"", b".", b"..") else _below(top, folder)
        if held is None:
            yield None
            return
        with held:
            yield Place(held, name)

    def take_away(self, path: bytes) -> bool:
        """Takes away the file or the link at the path; false where none of these was taken away."""
        with self.place(path) as it:
            return it is not None and it.take_away()

    def write(self, path: bytes, content: bytes) -> None:
        """Writes a new file at the path. Raises OSError where no copy was made of its folder."""
        with self.place(path) as it:
            if it is None:
                raise OSError(f"{os.fsdecode(path)} stands where no copy was made")
            it.write(content)

    def make_old(self, path: bytes) -> None:
        """Gives what stands at the path the oldest stamp."""
        with self.place(path) as it:
            if it is not None:
                it.make_old()


def real_name(path: bytes, realpath: Callable[[bytes], bytes]) -> bytes:
    """The one absolute name of what stands at an absolute path; the other function gives that of a folder."""
    folder, name = os.path.split(path)
    if name in (b"", b".", b".."):
        return realpath(path)
    folder = realpath(folder)
    return (b"" if folder == b"/" else folder) + b"/" + name


def _below(top: bytes, folder: bytes) -> HeldFolder | None:
    """A folder below a top; None where it is not there, a part of its path is a link, or it is on another file
    system."""
    try:
        with opened(top) as held:
            found = held.below(folder[len(top) :].strip(b"/"))
            if os.fstat(found.descriptor).st_dev == os.fstat(held.descriptor).st_dev:
                return found
            found.close()
    except (FileNotFoundError, NotADirectoryError):
        pass
    except OSError as why:
        if why.errno != errno.ELOOP:
            raise
    return None


def status_of(folder: HeldFolder, name: bytes) -> os.stat_result | None:
    """What stands under a name in a held folder, a link as the link that it is; None where nothing does."""
    try:
        return os.stat(name, dir_fd=folder.descriptor, follow_symlinks=False)
    except FileNotFoundError:
        return None


def content_of(folder: HeldFolder, name: bytes, most: int) -> bytes | None:
    """The bytes of a file in a held folder; None where no file is there, or more than the most bytes."""
    try:
        descriptor = os.open(name, _READ, dir_fd=folder.descriptor)
    except OSError:
        return None
    with open(descriptor, "rb") as file:
        if not stat.S_ISREG(os.fstat(descriptor).st_mode):
            return None
        content = file.read(most + 1)
    return content if len(content) <= most else None


def move_to_free_name(source: HeldFolder, name: bytes, target: HeldFolder) -> None:
    """Moves what stands under a name into another folder, by one rename. Raises FileExistsError where the name is
    taken there."""
    libc = ctypes.CDLL(None, use_errno=True)
    if hasattr(libc, "renameat2"):
        if not libc.renameat2(source.descriptor, name, target.descriptor, name, _NOT_REPLACED):
            return
        number = ctypes.get_errno()
        if number not in _UNKNOWN_CALL:
            raise OSError(number, os.strerror(number), os.fsdecode(name))
    if status_of(target, name) is not None:
        raise FileExistsError(errno.EEXIST, os.strerror(errno.EEXIST), os.fsdecode(name))
    os.rename(name, name, src_dir_fd=source.descriptor, dst_dir_fd=target.descriptor)


def take_all_away(folder: HeldFolder) -> None:
    """Takes away all that stands in a held folder, on its own file system. Raises OSError for what is on another."""
    device = os.fstat(folder.descriptor).st_dev
    todo, folders = [b""], []
    while todo:
        at = todo.pop()
        with folder.below(at) as held:
            own = os.fstat(held.descriptor)
            if own.st_dev != device:
                raise OSError(errno.EXDEV, os.strerror(errno.EXDEV), os.fsdecode(at))
            if own.st_mode & stat.S_IRWXU != stat.S_IRWXU:
                os.fchmod(held.descriptor, stat.S_IRWXU)
            for name in map(os.fsencode, os.listdir(held.descriptor)):
                found = status_of(held, name)
                if found is not None and stat.S_ISDIR(found.st_mode):
                    todo.append(joined(at, name))
                elif found is not None:
                    os.unlink(name, dir_fd=held.descriptor)
        folders.append(at)
    for at in reversed(folders[1:]):
        parent, _, name = at.rpartition(b"/")
        with folder.below(parent) as held:
            os.rmdir(name, dir_fd=held.descriptor)
