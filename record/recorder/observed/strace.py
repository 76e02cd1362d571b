"""strace as an observer of a build."""

from __future__ import annotations

import os
import re
import shutil
import subprocess
from collections.abc import Iterator
from io import BufferedReader

from .calls import Event, Kind
from .log_pipe import LogPipe
from .own import SOURCE, machine, release_of
from .strace_text import CALLS, StraceText

_OLDEST = (5, 3)  # the first with --seccomp-bpf
_FIRST_SESSION = (5, 5)  # the first with -DDD
_LONGEST_ARGUMENT = 131_072  # the system takes no longer one, so a command is never cut off
_PROBE_SECONDS = 20


class Strace:
    """Runs Ninja under strace, whose log is text.

    strace observes as a grandchild (-D), so that Ninja stays the recorder's child and gets its signals. Nobody may kill
    it: the calls that its filter hands to it would fail from then on.
    """

    is_late = True

    def __init__(self) -> None:
        self.program = shutil.which("strace")
        self.version = _version(self.program) if self.program else ()
        self._reader = StraceText()
        self.release, self.machine = release_of(SOURCE), machine()

    @property
    def name(self) -> bytes:
        """What stands behind `by` in the file."""
        return b"strace-" + b".".join(b"%d" % it for it in self.version)

    @property
    def unread(self) -> int:
        """How many lines were not understood."""
        return self._reader.unread

    def refusal(self) -> str | None:
        """Why strace cannot observe here."""
        if self.program is None:
            return "there is no strace on the PATH"
        if self.version < _OLDEST:
            return f"{self.program} is older than strace 5.3, or tells no version"
        log = LogPipe()
        try:
            return self._try(log)
        finally:
            log.close()
            os.close(log.reader)

    def _try(self, log: LogPipe) -> str | None:
        """Observes a shell that does nothing."""
        words = self.words(log.path, [b"/bin/sh", b"-c", b":"])
        try:
            ran = subprocess.run(words, stdin=subprocess.DEVNULL, stdout=subprocess.DEVNULL, stderr=subprocess.PIPE,
                                 timeout=_PROBE_SECONDS)
        except (OSError, subprocess.TimeoutExpired) as why:
            return f"strace cannot be run: {why}"
        log.end()
        with os.fdopen(os.dup(log.reader), "rb") as log_file:
            seen = {call.kind for _, call in StraceText().events(log_file)}
        if ran.returncode == 0 and {Kind.EXEC, Kind.EXIT} <= seen:
            return None
        said = ran.stderr.decode("utf-8", "replace").strip().splitlines()
        return f"strace cannot observe a process{': ' + said[-1] if said else ''}"

    def words(self, log: bytes, ninja: list[bytes]) -> list[bytes]:
        """The words that run Ninja observed. Calls that this machine does not have are left out by their `?`."""
        calls = "trace=" + ",".join("?" + it for it in CALLS)
        detached = "-DDD" if self.version >= _FIRST_SESSION else "-D"
        own = [self.program or "strace", detached, "-f", "-q", "--seccomp-bpf", "-a", "1", "-s",
               str(_LONGEST_ARGUMENT), "-e", "signal=!SIGCHLD", "-e", calls, "-o"]
        return [*map(os.fsencode, own), log, *ninja]

    def events(self, log: BufferedReader) -> Iterator[Event]:
        """The calls of a log, as they come."""
        return self._reader.events(log)


def _version(program: str) -> tuple[int, ...]:
    try:
        said = subprocess.run([program, "-V"], stdin=subprocess.DEVNULL, capture_output=True, timeout=_PROBE_SECONDS)
    except (OSError, subprocess.TimeoutExpired):
        return ()
    found = re.search(rb"version (\d+)\.(\d+)", said.stdout)
    return tuple(map(int, found.groups())) if found else ()
