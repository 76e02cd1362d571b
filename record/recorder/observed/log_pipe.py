"""The pipe through which an observer hands its log to the recorder."""

from __future__ import annotations

import contextlib
import fcntl
import io
import os
import shutil
import subprocess
import tempfile
import time
from typing import Any, BinaryIO

BUFFER = 1 << 20
"""How many bytes are read at once at most, and how large the pipe is where the system allows that."""

_SET_PIPE_SIZE, _GET_PIPE_SIZE = 1031, 1032  # F_SETPIPE_SZ and F_GETPIPE_SZ
_PAUSE_SECONDS = 0.02  # for a pipe of BUFFER bytes


class Log(io.RawIOBase):
    """A log that is read while it is written, and copied into a file where that is wanted.

    Observers write line by line. So a read waits for some more of them first, as long as the pipe takes them. Where the
    copy cannot be written, it ends there.
    """

    def __init__(self, descriptor: int, size: int, copy: BinaryIO | None) -> None:
        super().__init__()
        self.descriptor, self.copy, self.fault = descriptor, copy, ""
        self.enough, self.pause, self.last = size // 4, size / BUFFER * _PAUSE_SECONDS, size

    def readable(self) -> bool:
        return True

    def readinto(self, room: Any) -> int:
        if self.last < self.enough:
            time.sleep(self.pause)
        self.last = os.readv(self.descriptor, [room])
        if self.copy is not None:
            try:
                self.copy.write(memoryview(room)[: self.last])
            except OSError as why:
                self.fault, self.copy = why.strerror or str(why), None
        return self.last


class LogPipe:
    """A pipe that an observer opens for writing by `path`. The recorder reads at `reader`, and keeps a writer until
    `end`, so that the log does not end before its observer has opened it.

    The path is that of the recorder's own descriptor in /proc, so a recorder that is killed leaves nothing. Where other
    processes may not open that, it is a FIFO in a folder of its own, which `close` removes.
    """

    def __init__(self) -> None:
        self._folder: str | None = None
        self.reader, writer = os.pipe()
        self._writer: int | None = writer
        self.path = b"/proc/%d/fd/%d" % (os.getpid(), writer)
        if not _can_be_opened(self.path):
            self.end()
            os.close(self.reader)
            self._make_fifo()
        with contextlib.suppress(OSError):
            fcntl.fcntl(self.reader, _SET_PIPE_SIZE, BUFFER)

    def _make_fifo(self) -> None:
        self._folder = tempfile.mkdtemp(prefix="rebug-observe-")
        self.path = os.path.join(os.fsencode(self._folder), b"log")
        os.mkfifo(self.path, 0o600)
        self.reader = os.open(self.path, os.O_RDONLY | os.O_NONBLOCK)
        self._writer = os.open(self.path, os.O_WRONLY)
        os.set_blocking(self.reader, True)

    def log(self, copy: BinaryIO | None = None) -> Log:
        """What is written into the pipe."""
        return Log(self.reader, fcntl.fcntl(self.reader, _GET_PIPE_SIZE), copy)

    def end(self) -> None:
        """From here on the log ends where its observers have ended."""
        if self._writer is not None:
            os.close(self._writer)
            self._writer = None

    def close(self) -> None:
        """Nobody is to open it any more. Who reads or writes goes on."""
        self.end()
        if self._folder is not None:
            with contextlib.suppress(OSError):
                shutil.rmtree(self._folder)


def _can_be_opened(path: bytes) -> bool:
    """Whether another process can open a path for writing."""
    try:
        tried = subprocess.run(["/bin/sh", "-c", 'exec 2>/dev/null; exec 3>"$1"', "sh", path],
                               stdin=subprocess.DEVNULL, stdout=subprocess.DEVNULL, stderr=subprocess.DEVNULL)
    except OSError:
        return False
    return tried.returncode == 0
