"""One try: the manifest's files exchanged, what the two commands left taken away, Ninja run, and what was then left.

It works on the folders that are there; who calls it has put copies in their places."""

from __future__ import annotations

import hashlib
import os
import re
import select
import signal
import stat
import subprocess
import time
from dataclasses import dataclass, field
from typing import Callable

from ..depslog import without_records
from ..fields import canonical
from ..manifest import Manifest
from ..said import BEGIN, END, Said
from .copies import end_with_parent
from .places import Tops

_STATUS = b"[%f/%t] "
_COUNTS = re.compile(END + rb"\[(\d+)/(\d+)\] ")
_LONGEST_COUNTS = 40
_MOST_SAID = 4096
_SECONDS_BETWEEN = 1.0

Tell = Callable[[str], None]
"""Takes how far the build is. It is called once a second."""


@dataclass(frozen=True)
class Trial:
    """What is to be tried: in `build` Ninja (`words`) is to build `targets` by a manifest of which `manifest` has the
    edges, and `files` those of its files that are others (canonical names -> content). `before` is built by the
    manifest that is there. Then `away` are files that go (a folder stays), `unlisted` outputs of which Ninja's records
    go, `forgotten` outputs whose commands the build log is to lose, and `old` paths that get the oldest stamp.
    `compared` are looked at afterwards. Nothing is changed but below `folders`, of which copies stand there."""

    build: bytes
    words: tuple[bytes, ...]
    before: tuple[bytes, ...]
    targets: tuple[bytes, ...]
    manifest: Manifest
    files: dict[bytes, bytes]
    away: tuple[bytes, ...]
    unlisted: tuple[bytes, ...]
    forgotten: tuple[bytes, ...]
    old: tuple[bytes, ...]
    compared: tuple[bytes, ...]
    folders: tuple[bytes, ...]


@dataclass
class Tried:
    """What came of it: Ninja's status, the commands that failed with what they wrote, what Ninja said of a fault of its
    own, and of each compared path the sum of its bytes (None: it is not there). `is_ready` is false where what was to
    be built before could not be, and `is_manifest_kept` where the build made the manifest anew. `count` is how many
    commands Ninja ran for what was to be built before."""

    status: int
    failed: list[tuple[bytes, bytes]] = field(default_factory=list)
    fault: bytes = b""
    sums: dict[bytes, str | None] = field(default_factory=dict)
    is_ready: bool = True
    is_manifest_kept: bool = True
    count: int = 0


def tried(it: Trial, tell: Tell) -> Tried:
    """Does it. Raises OSError where a file cannot be written, or Ninja cannot be run."""
    os.chdir(it.build)
    count = 0
    if it.before:
        found = _run(it, it.before, tell)
        count = found.count
        if found.status:
            found.is_ready = False
            return found
    tops = Tops(it.build, it.folders)
    for name, content in it.files.items():
        tops.write(name, content)
    for path in it.away:
        tops.take_away(path)
    _forget(it, tops)
    for path in it.old:
        tops.make_old(path)
    found = _run(it, it.targets, tell)
    found.sums = {path: sum_of(path) for path in it.compared}
    found.is_manifest_kept = all(_read(name) == content for name, content in it.files.items())
    found.count = count
    return found


def _forget(it: Trial, tops: Tops) -> None:
    """Takes outputs out of the build log, so that Ninja runs their commands, and their records out of the deps log."""
    logs = it.manifest.log_folder() or b"."
    outputs = set(it.forgotten)
    path = os.path.join(logs, b".ninja_log")
    content = _read(path) if outputs else None
    if content is not None:
        tops.write(path, b"".join(line for line in content.splitlines(keepends=True) if len(line.split(b"\t")) < 4
                                  or canonical(line.split(b"\t")[3]) not in outputs))
    path = os.path.join(logs, b".ninja_deps")
    content = _read(path) if it.unlisted else None
    if content is not None:
        tops.write(path, without_records(content, set(it.unlisted)))


def _run(it: Trial, targets: tuple[bytes, ...], tell: Tell) -> Tried:
    environment = {**os.environb, b"NINJA_STATUS": BEGIN + b"%e" + END + _STATUS}
    said, errors, me = Said(it.manifest, _STATUS, lambda _: None), os.memfd_create("errors"), os.getpid()
    process = subprocess.Popen([*it.words, *targets], stdin=subprocess.DEVNULL, stdout=subprocess.PIPE, stderr=errors,
                               env=environment, preexec_fn=lambda: end_with_parent(me))
    assert process.stdout is not None
    try:
        count = _listen(process.stdout.fileno(), said, tell)
        status = process.wait()
    except BaseException:
        _end(process)
        raise
    said.end()
    os.lseek(errors, max(0, os.fstat(errors).st_size - _MOST_SAID), os.SEEK_SET)
    lines = [line for line in os.read(errors, _MOST_SAID).splitlines() if line.startswith(b"ninja: ")]
    os.close(errors)
    failed = [(them.edge.name, them.written.text if them.written else b"") for them in said.failed]
    return Tried(status if status >= 0 else 128 - status, failed, lines[-1] if status and lines else b"", count=count)


def _listen(output: int, said: Said, tell: Tell) -> int:
    """Takes all that Ninja writes, says once a second how far it is, and gives how many commands it has run."""
    begun = last = time.monotonic()
    count, far, end = 0, "", b""
    while True:
        if select.select([output], [], [], max(0.0, last + _SECONDS_BETWEEN - time.monotonic()))[0]:
            data = os.read(output, 65536)
            if not data:
                return count
            said.take(data)
            counts = _COUNTS.findall(end + data)
            if counts:
                count = int(counts[-1][0])
                far = f"{count} of {int(counts[-1][1])} commands, "
            end = data[-_LONGEST_COUNTS:]
        if time.monotonic() >= last + _SECONDS_BETWEEN:
            last = time.monotonic()
            tell(f"{far}{last - begun:.0f} s")


def _end(process: subprocess.Popen[bytes]) -> None:
    """Has Ninja end its commands, and waits for it."""
    process.send_signal(signal.SIGINT)
    try:
        process.wait(timeout=2)
    except subprocess.TimeoutExpired:
        process.kill()
        process.wait()


def sum_of(path: bytes) -> str | None:
    """A sum of what stands at a path: a file's bytes, where a link leads, that it is a folder; None for nothing."""
    try:
        mode = os.lstat(path).st_mode
    except OSError:
        return None
    if stat.S_ISLNK(mode):
        return f"link to {os.fsdecode(os.readlink(path))}"
    if not stat.S_ISREG(mode):
        return "folder" if stat.S_ISDIR(mode) else "special"
    found = hashlib.sha256()
    with open(path, "rb") as file:
        while data := file.read(1 << 20):
            found.update(data)
    return found.hexdigest()


def _read(path: bytes) -> bytes | None:
    try:
        with open(path, "rb") as file:
            return file.read()
    except OSError:
        return None
