"""Writes new texts of a user's files: each only where the file is as it was read, with a copy of it beside, and all or
none of them as far as the system allows."""

from __future__ import annotations

import os
import stat
from dataclasses import dataclass

_COPY, _NEW = ".before-mend", ".rebug-new"


class NotWritten(Exception):
    """Why nothing was written, or what was not, as a sentence."""


@dataclass(frozen=True)
class Written:
    """A file that was written, and the copy of what it was."""

    file: str
    copy: str


def write_all(old: dict[str, str], new: dict[str, str]) -> list[Written]:
    """Writes the new texts in place of the old ones. Raises NotWritten: nothing was written, unless it says so."""
    folders = [_Held(file, _bytes(old[file]), _bytes(text)) for file, text in sorted(new.items())]
    written: list[Written] = []
    try:
        for it in folders:
            it.open()
            it.look()
        for it in folders:
            it.write_beside()
        for it in folders:
            it.look()
            it.keep()
            it.switch()
            written.append(Written(it.file, os.path.join(os.path.dirname(it.real), it.copy)))
    except OSError as why:
        done = f"; {', '.join(it.file for it in written)} was written" if written else "; nothing was written"
        raise NotWritten(f"{it.file} cannot be written: {why.strerror or why}{done}") from why
    except _Changed as why:
        done = f"; {', '.join(it.file for it in written)} was written" if written else "; nothing was written"
        raise NotWritten(f"{why}{done}") from why
    finally:
        for it in folders:
            it.close()
    return written


def _bytes(text: str) -> bytes:
    return text.encode("utf-8", "surrogateescape")


class _Changed(Exception):
    """A file that is not as it was read."""


class _Held:
    """A file that is to be written, in a folder that is held open, so that no other one comes into its place."""

    def __init__(self, file: str, old: bytes, new: bytes) -> None:
        self.file, self.old, self.new = file, old, new
        self.real = os.path.realpath(file)
        self.name = os.path.basename(self.real)
        self.copy, self.beside, self.folder = "", "", -1

    def open(self) -> None:
        self.folder = os.open(os.path.dirname(self.real), os.O_RDONLY | os.O_DIRECTORY | os.O_CLOEXEC)

    def close(self) -> None:
        if self.folder < 0:
            return
        if self.beside:
            try:
                os.unlink(self.beside, dir_fd=self.folder)
            except OSError:
                pass
        os.close(self.folder)
        self.folder = -1

    def look(self) -> None:
        """Whether the file is as it was read."""
        handle = os.open(self.name, os.O_RDONLY | os.O_NOFOLLOW | os.O_NONBLOCK | os.O_CLOEXEC, dir_fd=self.folder)
        with os.fdopen(handle, "rb") as file:
            self.mode = os.fstat(handle).st_mode
            if not stat.S_ISREG(self.mode) or file.read(len(self.old) + 1) != self.old:
                raise _Changed(f"{self.file} was changed since it was read")

    def _create(self, name: str, content: bytes) -> None:
        handle = os.open(name, os.O_WRONLY | os.O_CREAT | os.O_EXCL | os.O_NOFOLLOW | os.O_CLOEXEC,
                         stat.S_IMODE(self.mode), dir_fd=self.folder)
        with os.fdopen(handle, "wb") as file:
            os.fchmod(handle, stat.S_IMODE(self.mode))
            file.write(content)
            file.flush()
            os.fsync(handle)

    def write_beside(self) -> None:
        """Writes the new text beside the file."""
        name = self.name + _NEW
        self._create(name, self.new)
        self.beside = name

    def keep(self) -> None:
        """Writes the copy, by a name that nothing has."""
        for count in range(1, 1000):
            self.copy = self.name + _COPY + (f"-{count}" if count > 1 else "")
            try:
                return self._create(self.copy, self.old)
            except FileExistsError:
                continue
        raise FileExistsError(17, f"there are too many copies {self.name}{_COPY}-N")

    def switch(self) -> None:
        """Puts the new text into the place of the file, in one step."""
        os.rename(self.beside, self.name, src_dir_fd=self.folder, dst_dir_fd=self.folder)
        self.beside = ""
