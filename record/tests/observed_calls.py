"""What an observer tells of a command: runs it, and gives the calls of each of its processes."""

import os
import pathlib
import select
import shutil
import subprocess
import tempfile
from collections.abc import Callable, Sequence
from dataclasses import dataclass, field
from typing import Any

from builds import LONGEST_SECONDS
from recorder.observed.calls import Call, Kind, Observer

PROGRAMS = pathlib.Path(__file__).resolve().parent / "programs"
NO_SUCH_CALL = 77
"""The status of the test's program where the machine has no such call."""


def built(folder: pathlib.Path, name: str = "calls", flags: Sequence[str] = ()) -> pathlib.Path:
    """The test's program, built into the folder."""
    program = folder / name
    words = ["cc", "-O1", "-w", "-pthread", *flags, "-o", str(program), str(PROGRAMS / "calls.c")]
    subprocess.run(words, check=True, capture_output=True)
    return program


@dataclass
class Observed:
    """What was told, in order, and the command's status."""

    events: list[tuple[int, Call]] = field(default_factory=list)
    status: int = 0
    output: bytes = b""

    @property
    def root(self) -> int:
        return self.events[0][0]

    def paths(self, *kinds: Kind, ok: bool = True) -> list[bytes]:
        """The paths of calls of these kinds, absolute, of those that went well or of those that did not."""
        return [whole(call) for _, call in self.events if call.kind in kinds and (call.result >= 0) == ok]

    def kinds(self) -> set[Kind]:
        """The kinds of the calls that went well."""
        return {call.kind for _, call in self.events if call.result >= 0}


def whole(call: Call) -> bytes:
    """The absolute path of a call whose observer names folders itself."""
    return call.folder + b"/" * bool(call.path) + call.path if isinstance(call.folder, bytes) else call.path


class Log:
    """A FIFO that is open for reading, and a process that is observed through it."""

    def __init__(self, observer: Observer, words: Sequence[str | bytes | pathlib.Path], **options: Any):
        self.observer, self.folder = observer, tempfile.mkdtemp(prefix="rebug-observed-")
        path = os.path.join(os.fsencode(self.folder), b"log")
        os.mkfifo(path)
        os.chmod(self.folder, 0o755)
        os.chmod(path, 0o666)
        self.reader = os.open(path, os.O_RDONLY | os.O_NONBLOCK)
        os.set_blocking(self.reader, True)
        words = observer.words(path, [os.fsencode(it) for it in words])
        self.process = subprocess.Popen(words, stdin=subprocess.DEVNULL, **options)
        poll = select.poll()
        poll.register(self.reader, select.POLLIN)
        assert poll.poll(1000 * LONGEST_SECONDS), "the observer writes nothing"

    def beside(self) -> int:
        """The number of the process that observes."""
        with open(f"/proc/{self.process.pid}/status") as file:
            return next(int(it.split()[1]) for it in file if it.startswith("TracerPid:"))

    def events(self) -> list[tuple[int, Call]]:
        """All events, to the end of the log."""
        with os.fdopen(self.reader, "rb") as file:
            return list(self.observer.events(file))

    def end(self, timeout: float = LONGEST_SECONDS) -> int:
        """Waits for the process; gives its status."""
        status = self.process.wait(timeout)
        shutil.rmtree(self.folder, ignore_errors=True)
        return status


def observed(observer: Observer, words: Sequence[str | bytes | pathlib.Path], folder: pathlib.Path,
             before: Callable[[], None] | None = None, output: bool = False) -> Observed:
    """Runs the words in the folder to their end."""
    log = Log(observer, words, cwd=folder, preexec_fn=before, stderr=subprocess.DEVNULL,
              stdout=subprocess.PIPE if output else subprocess.DEVNULL)
    events = log.events()
    said = log.process.stdout.read() if log.process.stdout else b""
    if log.process.stdout:
        log.process.stdout.close()
    return Observed(events, log.end(), said)
