"""rebug's own observer: the program of record/observer, built where it is not there yet, and what it tells."""

import atexit
import hashlib
import os
import pathlib
import re
import shutil
import signal
import subprocess
import tempfile
from collections.abc import Iterator
from typing import BinaryIO

from ..installed import IS_INSTALLED, TOP
from .calls import Event
from .own_records import Records

SOURCE = TOP / "record" / "observer" / "observer.c"
COMPILERS = ("cc", "gcc", "clang")
FLAGS = ("-std=c11", "-O2")
# Seconds; a busy machine takes a hundred times as long as a quiet one. The observer ends its trial itself (SIGALRM).
LONGEST_BUILD, LONGEST_TRY, _TO_END = 900, 120, 30
TOO_LATE = f"a trial of ptrace did not end within {LONGEST_TRY} seconds"


class NotBuilt(Exception):
    """Why there is no program, as the rest of a sentence."""


class Own:
    """The observer of record/observer. `program` names one that is built already."""

    name = b"ptrace"
    is_late = False

    def __init__(self, program: pathlib.Path | None = None):
        self.unread, self.looks, self._program = 0, False, program
        self.release, self.machine = release_of(SOURCE), machine()

    def program(self) -> pathlib.Path:
        """The program, which is built at the first use. Raises NotBuilt where it cannot be."""
        self._program = self._program or _built(SOURCE)
        return self._program

    def refusal(self) -> str | None:
        """Why it cannot observe here, as the rest of a sentence behind "cannot observe: "; None where it can."""
        try:
            tried = subprocess.run([self.program(), "--try"], stdin=subprocess.DEVNULL, stdout=subprocess.PIPE,
                                   stderr=subprocess.DEVNULL, timeout=LONGEST_TRY + _TO_END)
        except (NotBuilt, OSError) as why:
            return str(why)
        except subprocess.TimeoutExpired:
            return TOO_LATE
        if tried.returncode == 0:
            return None
        if tried.returncode == -signal.SIGALRM:
            return TOO_LATE
        return os.fsdecode(tried.stdout).strip() or f"a trial of ptrace ended with status {tried.returncode}"

    def words(self, log: bytes, ninja: list[bytes]) -> list[bytes]:
        """The words that run Ninja observed, writing to `log`; with a look at the end of each command, where `looks`."""
        return [os.fsencode(self.program()), *([b"--looks"] if self.looks else []), log, *ninja]

    def events(self, log: BinaryIO) -> Iterator[Event]:
        """The events of a log, as they come. What cannot be read is left out and counted in `unread`."""
        records = Records(log)
        yield from records.events()
        self.unread += not records.is_whole


def release_of(source: pathlib.Path) -> bytes:
    """The release of the kernel from which the lists of calls were taken, as the observer's source has it."""
    try:
        found = re.search(rb'^#define RELEASE "([^"]+)"$', source.read_bytes(), re.M)
    except OSError:
        found = None
    return found[1] if found else b"unknown"


def machine() -> bytes:
    """This machine's name, as the file has it."""
    name = os.uname().machine
    return _MACHINES.get(name, os.fsencode(name))


_MACHINES = {"x86_64": b"x86-64", "aarch64": b"arm64"}
"""The names of machines as the file has them."""


def _built(source: pathlib.Path) -> pathlib.Path:
    """The program of a source: that which `make` left beside it, else that of the cache, which may have to be made. An
    installed recorder has both from one release, whenever they were put there."""
    beside = source.with_suffix("")
    try:
        is_of_source = IS_INSTALLED or beside.stat().st_mtime_ns >= source.stat().st_mtime_ns
        if is_of_source and os.access(beside, os.X_OK):
            return beside
    except OSError:
        pass
    try:
        text = source.read_bytes()
    except OSError as why:
        raise NotBuilt(f"the observer's source cannot be read ({why.strerror})") from why
    name = f"observer-{hashlib.sha256(text).hexdigest()}"
    for folder in (_cache, _folder_of_this_process):
        try:
            program = folder() / name
            if not os.access(program, os.X_OK):
                _compile(source, program)
            return program
        except OSError as why:
            reason = why
    raise NotBuilt(f"the observer cannot be written ({reason.strerror})") from reason


def _cache() -> pathlib.Path:
    """The folder for what rebug builds once for all builds."""
    folder = pathlib.Path(os.environ.get("XDG_CACHE_HOME") or pathlib.Path("~/.cache").expanduser()) / "rebug"
    folder.mkdir(mode=0o700, parents=True, exist_ok=True)
    return folder


def _folder_of_this_process() -> pathlib.Path:
    """A folder that is removed when this process ends, where the cache cannot be written."""
    folder = pathlib.Path(tempfile.mkdtemp(prefix="rebug-observer-"))
    atexit.register(shutil.rmtree, folder, ignore_errors=True)
    return folder


def _compile(source: pathlib.Path, program: pathlib.Path) -> None:
    """Builds beside the program's place and moves it there, so that two recorders do not meet half of it."""
    compiler = next((found for it in COMPILERS if (found := shutil.which(it))), None)
    if compiler is None:
        raise NotBuilt("there is no C compiler (cc), which rebug's own observer is built by")
    handle, staging = tempfile.mkstemp(prefix=".observer-", dir=program.parent)
    os.close(handle)
    try:
        ran = subprocess.run([compiler, *FLAGS, "-o", staging, source], stdin=subprocess.DEVNULL,
                             stdout=subprocess.PIPE, stderr=subprocess.STDOUT, timeout=LONGEST_BUILD)
        if ran.returncode:
            said = os.fsdecode(ran.stdout).strip().splitlines()
            first = next((it for it in said if "error" in it), said[0] if said else f"status {ran.returncode}")
            raise NotBuilt(f"{compiler} does not build the observer ({first})")
        os.chmod(staging, 0o755)
        os.replace(staging, program)
    except subprocess.TimeoutExpired as why:
        raise NotBuilt(f"{compiler} did not build the observer within {LONGEST_BUILD} seconds") from why
    finally:
        pathlib.Path(staging).unlink(missing_ok=True)
