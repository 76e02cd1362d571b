"""Copies of folders in another path, where this system makes no rooms.

One copy stands there at a time, always at the same path, so that bytes which have the path are the same in each run.
What commands do elsewhere is done: only temporaries and the user's own folder are others.
"""

from __future__ import annotations

import os
import shutil
import subprocess
from dataclasses import dataclass

from ..fields import shown
from ..manifest import Manifest
from .commands import NoBuild


@dataclass(frozen=True)
class Copying:
    """Copies of the folders (real paths) below a folder `top`, in which each has its whole path."""

    top: bytes
    folders: tuple[bytes, ...]

    def place(self, path: bytes) -> bytes:
        """Where the copy of a path is."""
        return self.top + path

    def enter(self) -> None:
        """Makes the copies, and has this process use other folders for temporaries and for what is the user's own."""
        os.mkdir(self.top, 0o700)
        for folder in self.folders:
            os.makedirs(os.path.dirname(self.place(folder)), exist_ok=True)
            words = [b"cp", b"-a", b"--reflink=auto", b"--", folder, self.place(folder)]
            done = subprocess.run(words, stdin=subprocess.DEVNULL, stdout=subprocess.DEVNULL, stderr=subprocess.PIPE)
            if done.returncode:
                why = done.stderr.decode("utf-8", "backslashreplace").strip().splitlines()
                raise OSError(f"{shown(folder)} cannot be copied: {why[0] if why else 'cp failed'}")
        for name, variable in ((b"/home", "HOME"), (b"/temporaries", "TMPDIR")):
            os.mkdir(self.top + name)
            os.environ[variable] = os.fsdecode(self.top + name)

    def leave(self) -> None:
        """Takes the copies away, also those of folders that cannot be written."""
        for base, names, _ in os.walk(self.top):
            for name in names:
                path = os.path.join(base, name)
                if not os.path.islink(path):
                    os.chmod(path, 0o700)
        shutil.rmtree(self.top, ignore_errors=True)


def check(copying: Copying, manifest: Manifest) -> None:
    """Raises NoBuild where a build in the copies would change what is copied, or could: by a whole path, or by a
    link."""
    for name, content, _ in manifest.files:
        for folder in copying.folders:
            if folder in content:
                raise NoBuild(f"{shown(name)} names {shown(folder)} by its whole path, so that a build in a copy would "
                              f"change that folder. Nothing has run")
    for top in copying.folders:
        for base, folders, files in os.walk(top):
            for path in (os.path.join(base, name) for name in (*folders, *files)):
                if os.path.islink(path):
                    _check_link(path, top)


def _check_link(path: bytes, top: bytes) -> None:
    """Raises NoBuild where a link leads out of its folder, to what can be written."""
    leads = os.path.realpath(path)
    is_inside = not os.path.isabs(os.readlink(path)) and (leads == top or leads.startswith(top + b"/"))
    if not is_inside and os.path.exists(leads) and os.access(leads, os.W_OK) and not leads.startswith(b"/dev/"):
        raise NoBuild(f"{shown(path)} is a link to {shown(leads)}, which a build in a copy would change. Nothing has "
                      f"run")
