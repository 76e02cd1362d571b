"""Digests of files and of the names in folders, made in a thread of their own while the build goes on."""

from __future__ import annotations

import hashlib
import os
import queue
import threading
import time

from .versions import Version, now, of_status

_PART = 1 << 18
_OPEN_FILE = os.O_RDONLY | os.O_NOFOLLOW | os.O_NONBLOCK | os.O_NOCTTY | os.O_CLOEXEC
_GRAIN = 10_000_000
"""Nanoseconds: longer than a tick of any kernel's clock, within which two changes can have one stamp."""


class Hasher:
    """Makes digests. `digests` has those of versions, and None for a version that was not to be had any more: another
    one stood there, before the reading or after it, or nobody may read it. `names` has the names in a folder's version,
    in their order. `first` has the version that stood at a path when it was hashed without being asked for a version.
    """

    def __init__(self) -> None:
        self.digests: dict[Version, bytes | None] = {}
        self.names: dict[Version, tuple[bytes, ...] | None] = {}
        self.first: dict[bytes, Version | None] = {}
        self.seconds, self.bytes = 0.0, 0
        self._asked: set[Version] = set()
        self._jobs: queue.SimpleQueue[tuple[bytes, Version | None] | None] = queue.SimpleQueue()
        self._thread = threading.Thread(target=self._work, daemon=True)
        self._thread.start()

    def want(self, path: bytes, version: Version | None = None) -> None:
        """Asks for the digest of a version that stood at a path, or of the one that stands there."""
        if version is not None:
            if version in self._asked or not (version.is_file or version.is_folder):
                return
            self._asked.add(version)
        self._jobs.put((path, version))

    def end(self) -> None:
        """Waits until all that was asked for is done."""
        if self._thread.is_alive():
            self._jobs.put(None)
            self._thread.join()

    def missing(self, path: bytes, version: Version) -> None:
        """Makes a digest that nobody has asked for, once the thread has ended."""
        if version.is_file and version not in self.digests:
            self.digests[version] = self._digest(path, version)

    def _work(self) -> None:
        while (job := self._jobs.get()) is not None:
            self._do(*job)
        self.seconds = time.thread_time()

    def _do(self, path: bytes, version: Version | None) -> None:
        if version is None:
            version = self.first[path] = now(path)
        if version is None:
            return
        if version.is_folder and version not in self.names:
            self.names[version] = _names(path, version)
        elif version.is_file and version not in self.digests:
            self.digests[version] = self._digest(path, version)

    def _digest(self, path: bytes, version: Version) -> bytes | None:
        """The digest of a version; None where another one is there before or after the reading."""
        _wait_for_another_stamp(version)
        try:
            descriptor = os.open(path, _OPEN_FILE)
        except OSError:
            return None
        try:
            if of_status(os.fstat(descriptor)) != version:
                return None
            found, read = hashlib.sha256(), 0
            while part := os.read(descriptor, _PART):
                found.update(part)
                read += len(part)
                if read > version.size:  # it grows faster than it is read
                    return None
            self.bytes += read
            return found.digest() if of_status(os.fstat(descriptor)) == version else None
        except OSError:
            return None
        finally:
            os.close(descriptor)


def _names(path: bytes, version: Version) -> tuple[bytes, ...] | None:
    """The names in a folder's version; None where another one is there before or after the reading."""
    _wait_for_another_stamp(version)
    if now(path) != version:
        return None
    try:
        found = tuple(sorted(os.listdir(path or b"/")))
    except OSError:
        return None
    return found if now(path) == version else None


def _wait_for_another_stamp(version: Version) -> None:
    """Waits until a change would give the file another stamp than that of the version."""
    left = version.changed + _GRAIN - time.time_ns()
    if 0 < left <= _GRAIN:
        time.sleep(left / 1e9)
