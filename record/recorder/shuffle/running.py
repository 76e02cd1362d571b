"""One run of a build from nothing in a room: the outputs taken away, the manifest's files exchanged, Ninja run, and
what it leaves told."""

from __future__ import annotations

import contextlib
import errno
import mmap
import os
import resource
import selectors
import shutil
import signal
import stat
import struct
import subprocess
import time
from dataclasses import dataclass, field
from typing import Sequence

from ..fields import canonical
from ..logs import read_build_log
from ..manifest import Manifest
from ..provoke.copies import end_with_parent
from ..said import BEGIN, END, Said
from .copying import Copying
from .recorded import Recording, record
from .rooms import Layer, enter
from .states import Before, changed

_STATUS, _STOPPED = b"[%f/%t] ", b"ninja: build stopped: "
_MOST_SAID = 4096
_MOST_KEPT = 64 << 20
_LEAST_ROOM, _NO_SPACE = 1 << 20, os.strerror(errno.ENOSPC).encode()
_LONG_CHAIN, _STACK = 20_000, 1 << 28
_SECONDS_TO_END, _LOOK_SECONDS = 3.0, 0.25
LOGS = (b".ninja_log", b".ninja_deps")


@dataclass(frozen=True)
class Place:
    """Where builds run: the build folder, Ninja's words up to the targets, the manifest, what stood there before, and
    the mounts of a room, or how folders are copied where this system makes no room. `away` are paths that go before a
    build, and `logs` is the folder of Ninja's logs. `kept` are outputs whose entries stay in the build log: those of
    what makes the manifest."""

    build: bytes
    ninja: tuple[bytes, ...]
    manifest: Manifest
    before: Before
    layers: tuple[Layer, ...]
    copying: Copying | None
    away: tuple[bytes, ...]
    logs: bytes
    kept: frozenset[bytes]


@dataclass(frozen=True)
class Task:
    """A run: the manifest's files that are others, the targets, how many jobs, further paths that go before, and after
    how many seconds it is ended. Of the paths `wanted` the bytes are given. `length` is the number of commands.
    A task that `is_recorded` runs under the recorder, and gives a recording or why there is none, and nothing else."""

    files: dict[bytes, bytes] = field(default_factory=dict)
    targets: tuple[bytes, ...] = ()
    jobs: int = 1
    away: tuple[bytes, ...] = ()
    seconds: float | None = None
    wanted: tuple[bytes, ...] = ()
    length: int = 0
    read_anew: bool = False
    is_recorded: bool = False


@dataclass
class Ran:
    """What came of a run.

    `order` has the first output of each edge that ended well, in the order in which they ended, and `times` when each
    began and ended (milliseconds). `changed` is what stands where something changed. `fault` is what Ninja said of a
    fault of its own. `used` is how much memory the copies took.
    """

    status: int
    failed: list[tuple[bytes, bytes]] = field(default_factory=list)
    fault: bytes = b""
    order: list[bytes] = field(default_factory=list)
    times: dict[bytes, tuple[int, int]] = field(default_factory=dict)
    changed: dict[bytes, str] = field(default_factory=dict)
    contents: dict[bytes, bytes] = field(default_factory=dict)
    seconds: float = 0.0
    processor: float = 0.0
    used: int = 0
    is_full: bool = False
    is_late: bool = False
    is_manifest_kept: bool = True
    recording: Recording = field(default_factory=dict)
    not_recorded: str = ""

    @property
    def is_good(self) -> bool:
        return not self.status and not self.is_late


def run_in_room(place: Place, task: Task, most_bytes: int, progress: mmap.mmap) -> Ran:
    """Runs the task in a room of this process's own, which ends with it. Raises Refused, and OSError where a file
    cannot be written or Ninja cannot be run."""
    memory = _enter(place, most_bytes)
    _clean(place, task)
    contents = {name: content for name, content, _ in place.manifest.files}
    stamps = {name: os.stat(name).st_mtime_ns for name in contents}
    for name, content in task.files.items():
        _exchange(name, content)
    if task.length > _LONG_CHAIN:
        with contextlib.suppress(ValueError, OSError):
            _, most = resource.getrlimit(resource.RLIMIT_STACK)
            resource.setrlimit(resource.RLIMIT_STACK, (_STACK, most))
    if task.is_recorded:
        return _recorded(place, task)
    found = _run(place, task, progress)
    found.is_manifest_kept = all(_read(name) == task.files.get(canonical(name), content) and os.stat(name).st_mtime_ns
                                 == stamps[name] for name, content in contents.items())
    _look_at_log(found, os.path.join(place.logs, LOGS[0]))
    ignored = {os.path.join(place.build, canonical(name)) for name in contents}
    found.changed = changed(place.before, ignored, place.copying.top if place.copying else b"")
    _keep(place, found, task.wanted)
    room = os.fstatvfs(memory)
    found.used = 0 if place.copying else (room.f_blocks - room.f_bfree) * room.f_frsize
    found.is_full = room.f_bavail * room.f_frsize < _LEAST_ROOM or any(_NO_SPACE in text for _, text in found.failed)
    return found


def _recorded(place: Place, task: Task) -> Ran:
    begin, used = time.monotonic(), resource.getrusage(resource.RUSAGE_CHILDREN)
    recording, why_not = record(os.getcwdb(), place.ninja, task.targets, place.manifest, task.seconds)
    after = resource.getrusage(resource.RUSAGE_CHILDREN)
    return Ran(0, recording=recording, not_recorded=why_not, seconds=time.monotonic() - begin,
               processor=after.ru_utime - used.ru_utime + after.ru_stime - used.ru_stime)


def _enter(place: Place, most_bytes: int) -> int:
    """Has this process be in a room, or in copies. Gives a handle of what they stand in."""
    copying = place.copying
    if copying is None:
        memory = enter(place.layers, most_bytes)
        os.chdir(place.build)
        return memory
    copying.enter()
    os.chdir(copying.place(place.build))
    return os.open(copying.top, os.O_RDONLY | os.O_DIRECTORY)


def _clean(place: Place, task: Task) -> None:
    """Takes away what a build from nothing does not find."""
    copying = place.copying
    tops = [copying.place(it) for it in copying.folders] if copying else [it.place for it in place.layers]
    for path in dict.fromkeys((*place.away, *(copying.place(it) if copying else it for it in task.away))):
        _take_away(path, tops)
    log, deps = (os.path.join(place.logs, it) for it in LOGS)
    content = _read(log)
    _take_away(log, tops)
    _take_away(deps, tops)
    if content is not None and place.kept:
        lines = [line for line in content.splitlines(keepends=True) if line.startswith(b"#")
                 or len(line.split(b"\t")) > 3 and canonical(line.split(b"\t")[3]) in place.kept]
        with open(log, "wb") as file:
            file.write(b"".join(lines))


def _take_away(path: bytes, tops: Sequence[bytes]) -> None:
    """Takes a path away where it stands in a copy; a link goes, and not what it leads to."""
    try:
        mode = os.lstat(path).st_mode
    except OSError:
        return
    folder = os.path.realpath(os.path.dirname(os.path.abspath(path)))
    whole = os.path.join(folder, os.path.basename(path))
    if not any(whole.startswith(top + b"/") for top in tops) or path in (b"", b".", b".."):
        return
    if stat.S_ISDIR(mode):
        shutil.rmtree(path)
    else:
        os.unlink(path)


def _exchange(path: bytes, content: bytes) -> None:
    """Writes a file anew, and through no link, with the stamp that it had: it is no reason to make the manifest."""
    status = os.stat(path)
    if os.path.islink(path):
        os.unlink(path)
    with open(path, "wb") as file:
        file.write(content)
    os.utime(path, ns=(status.st_atime_ns, status.st_mtime_ns))


def _run(place: Place, task: Task, progress: mmap.mmap) -> Ran:
    manifest = _with_files(place.manifest, task.files) if task.read_anew else place.manifest
    environment = {**os.environb, b"NINJA_STATUS": BEGIN + b"%e" + END + _STATUS}
    said, errors, me = Said(manifest, _STATUS, lambda _: None), os.memfd_create("errors"), os.getpid()
    begin, used = time.monotonic(), resource.getrusage(resource.RUSAGE_CHILDREN)
    words = [*place.ninja, b"-j%d" % task.jobs, *task.targets]
    process = subprocess.Popen(words, stdin=_standard_input(), stdout=subprocess.PIPE, stderr=errors, env=environment,
                               preexec_fn=lambda: end_with_parent(me))
    try:
        is_late = _take(process, said, task.seconds, progress)
        status = process.wait()
    except BaseException:
        _end(process)
        raise
    finally:
        if process.stdout:
            process.stdout.close()
    said.end()
    after = resource.getrusage(resource.RUSAGE_CHILDREN)
    os.lseek(errors, max(0, os.fstat(errors).st_size - _MOST_SAID), os.SEEK_SET)
    lines = [line for line in os.read(errors, _MOST_SAID).splitlines() if line.startswith(b"ninja: ")]
    os.close(errors)
    failed = [(it.edge.outputs[0], it.written.text if it.written else b"") for it in said.failed]
    if said.stopped:  # of what it finds as it builds Ninja writes among what its commands wrote
        lines.append(_STOPPED + said.stopped)
    return Ran(status if status >= 0 else 128 - status, failed, lines[-1] if status and lines else b"", is_late=is_late,
               seconds=time.monotonic() - begin,
               processor=after.ru_utime - used.ru_utime + after.ru_stime - used.ru_stime)


def _standard_input() -> int:
    """The file that is this process's standard input, from its beginning, since each run reads it; else nothing."""
    with contextlib.suppress(OSError):
        if stat.S_ISREG(os.fstat(0).st_mode):
            return os.open("/proc/self/fd/0", os.O_RDONLY)
    return subprocess.DEVNULL


def _with_files(manifest: Manifest, files: dict[bytes, bytes]) -> Manifest:
    contents = {canonical(name): content for name, content, _ in manifest.files}
    return Manifest(manifest.files[0][0], lambda name: {**contents, **files}[canonical(name)])


def _take(process: subprocess.Popen[bytes], said: Said, seconds: float | None, progress: mmap.mmap) -> bool:
    """Takes what Ninja writes up to its end, and counts its status lines. Gives whether it was ended, since it took too
    long."""
    assert process.stdout is not None
    until, count = time.monotonic() + seconds if seconds else None, 0
    with selectors.DefaultSelector() as ready:
        ready.register(process.stdout, selectors.EVENT_READ)
        while True:
            if ready.select(_LOOK_SECONDS):
                data = os.read(process.stdout.fileno(), 65536)
                if not data:
                    return False
                said.take(data)
                count += data.count(BEGIN)
                progress[:8] = struct.pack("q", count)
            elif process.poll() is not None:
                return False  # what a command left behind still has the pipe
            if until and time.monotonic() > until:
                _end(process)
                return True


def _end(process: subprocess.Popen[bytes]) -> None:
    """Has Ninja end its commands, and waits for it."""
    process.send_signal(signal.SIGINT)
    try:
        process.wait(timeout=_SECONDS_TO_END)
    except subprocess.TimeoutExpired:
        process.kill()
        process.wait()


def _look_at_log(found: Ran, path: bytes) -> None:
    """The order of the commands, and their times, by Ninja's log."""
    for it in read_build_log(_read(path) or b"").entries:
        output = canonical(it.output)
        found.order.append(output)
        found.times[output] = it.start, it.end


def _keep(place: Place, found: Ran, wanted: Sequence[bytes]) -> None:
    left = _MOST_KEPT
    for path in wanted:
        here = place.copying.place(path) if place.copying else path
        with contextlib.suppress(OSError):
            if stat.S_ISREG(os.lstat(here).st_mode) and os.lstat(here).st_size <= left:
                found.contents[path] = _read(here) or b""
                left -= len(found.contents[path])


def _read(path: bytes) -> bytes | None:
    try:
        with open(path, "rb") as file:
            return file.read()
    except OSError:
        return None
