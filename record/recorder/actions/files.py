"""The files of a recording that may be somebody else's: each is looked up below its folder, and through no link."""

from __future__ import annotations

import errno
import os
import stat
import weakref

from ..fields import canonical, shown
from ..held import HeldFolder
from ..regular import NoFile, kind_of, read_open
from ..rerun.lines import BadRecording


class Unreadable(Exception):
    """A sentence that says which file the system does not let us read."""


class Files:
    """The files in a recording's folder, which the user named. The folder is open as long as the object is used."""

    def __init__(self, folder: str) -> None:
        """Raises BadRecording where there is no folder."""
        self.folder = folder
        try:
            self._held = HeldFolder.at(folder)
        except (FileNotFoundError, NotADirectoryError, ValueError) as why:
            raise BadRecording(f"there is no recording at {folder}") from why
        except OSError as why:
            raise Unreadable(f"cannot read {folder}: {why.strerror}") from why
        weakref.finalize(self, self._held.close)

    def read(self, name: bytes) -> bytes | None:
        """The bytes of a file; None where it is not there. Raises BadRecording and Unreadable."""
        path = canonical(name)
        if path.startswith((b"/", b"..")) or b"\0" in path:
            raise BadRecording(f"{shown(name)}: no file of a recording has this name")
        try:
            found = self._held.status(path)
            if found is None:
                return None
            if not stat.S_ISREG(found.st_mode):
                raise BadRecording(f"{shown(name)}: it is {kind_of(found.st_mode)}, and not a file")
            with self._held.read(path) as file:
                return read_open(file, path)
        except NoFile as why:
            raise BadRecording(f"{shown(name)}: {why.strerror}") from why
        except OSError as why:
            if why.errno in (errno.ENOTDIR, errno.ELOOP):
                raise BadRecording(f"{shown(name)}: a link or a file is on the way to it") from why
            raise Unreadable(f"cannot read {os.path.join(self.folder, shown(name))}: {why.strerror}") from why

    def needed(self, name: bytes) -> bytes:
        """The bytes of a file that each recording has. Raises BadRecording and Unreadable."""
        found = self.read(name)
        if found is None:
            raise BadRecording(f"{self.folder} is no recording: it has no file {shown(name)}")
        return found
