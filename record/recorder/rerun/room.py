"""One run of a command in a room, and what it left there."""

from __future__ import annotations

import contextlib
import ctypes
import errno
import os
import pwd
import shutil
import signal
import stat
import subprocess
from collections.abc import Collection, Iterator, Sequence
from dataclasses import dataclass, field

from ..provoke.copies import Refused, end_with_parent
from ..shuffle.rooms import Layer, enter
from .filling import Inputs, digest_of
from .entries import File, Link

_PART = 1 << 20
_NEW_USER = 0x10000000  # CLONE_NEWUSER
_ANOTHER_USER, _ANOTHER_DATE = "nobody", "+400d"
_EARLIER = 86_402 * 10**9
"""How many nanoseconds earlier the other stamps are: a day and two seconds, since zip files have steps of two."""
_ELSEWHERE = b"/rebug-elsewhere"
_MOST_SAID, _MOST_EXCERPTS, _EXCERPT = 1 << 16, 3, 24
_COMPILED = b"__pycache__"
_LEAST_ROOM = 1 << 16
_NO_RIGHT = (errno.EROFS, errno.EACCES, errno.EPERM)
_NO_PLACE = (errno.EEXIST, errno.ENOTDIR, errno.EISDIR, errno.ENOENT, errno.ELOOP, errno.ENAMETOOLONG, *_NO_RIGHT)

Left = dict[bytes, File | Link]


class Unfillable(Exception):
    """Why the inputs of a command cannot stand in a room, as of a file in another one's place."""


@dataclass(frozen=True)
class Variation:
    """How a room is another one than that of the recording."""

    name: str
    stamps: bool = False
    date: bool = False
    folder: bool = False
    user: bool = False


AS_RECORDED = Variation("as recorded")
STAMPS, DATE, FOLDER, USER = (Variation("stamps", stamps=True), Variation("date", date=True),
                              Variation("folder", folder=True), Variation("user", user=True))


@dataclass(frozen=True)
class Task:
    """A command that is run: its text, the build folder, its response file with the content, the folders that Ninja
    makes for it, and what it is expected to leave. `ignored` are paths at which nothing is compared. `seconds` is when
    it is ended."""

    text: bytes
    build: bytes
    response: tuple[bytes, bytes] | None
    folders: tuple[bytes, ...]
    expected: Left
    taken: frozenset[bytes]
    ignored: frozenset[bytes]
    seconds: float


@dataclass(frozen=True)
class Excerpt:
    """Where two files begin to differ, and some bytes from there on: of the recorded one, and of the one that was
    left."""

    at: int
    recorded: bytes
    found: bytes


@dataclass
class Ran:
    """What came of a run: the status of the command (None where it was ended, since it took too long), the paths that
    are not as expected, excerpts of some of them, and what it wrote."""

    status: int | None
    differing: list[bytes] = field(default_factory=list)
    excerpts: dict[bytes, Excerpt] = field(default_factory=dict)
    missing: set[bytes] = field(default_factory=set)
    left: Left = field(default_factory=dict)
    written: bytes = b""

    @property
    def is_same(self) -> bool:
        return self.status == 0 and not self.differing


@dataclass(frozen=True)
class Room:
    """A room: its mounts, which folders are empty in it, which of the folders below these are of the project, and how
    many bytes may stand in it."""

    layers: tuple[Layer, ...]
    empty: tuple[bytes, ...]
    project: tuple[bytes, ...]
    most_bytes: int


def run_alone(room: Room, task: Task, inputs: Inputs, variation: Variation) -> Ran:
    """Runs the task in a room of this process's own whose empty folders get its inputs and nothing else. Raises
    Refused, and OSError where the room has no place for the inputs."""
    originals, tops = _Originals(room.empty), room.project
    memory = enter(room.layers, room.most_bytes)
    where = _Where(tops, variation)
    try:
        filled = _fill(originals, inputs, task, where)
    except OSError as why:
        if why.errno in _NO_PLACE:
            raise Unfillable(f"its inputs have no place beside each other in a room: {why.strerror}") from why
        raise
    status, written = _run(task, where)
    _look_at_memory(memory, status)
    left = {path: it for path, it in _left(tops, filled, where).items() if not _is_ignored(path, task)}
    for path in task.expected.keys() - left.keys():
        content = _content(where.at(path))
        if content is not None and not any(path.startswith(it + b"/") for it in tops):
            left[path] = content
    return _compared(status, written, left, task, originals, where)


def run_in_whole(room: Room, task: Task, away: Collection[bytes]) -> Ran:
    """Runs the task in a room in which the project stands as it is now, without what the command left and without the
    paths `away`."""
    originals = _Originals(room.project)
    memory = enter(room.layers, room.most_bytes)
    for path in (*away, *task.expected):
        with contextlib.suppress(FileNotFoundError, NotADirectoryError):
            os.unlink(path)
    where = _Where([], AS_RECORDED)
    _prepare(task, where)
    status, written = _run(task, where)
    _look_at_memory(memory, status)
    found = {path: _content(path) for path in task.expected}
    left = {path: it for path, it in found.items() if it is not None}
    return _compared(status, written, left, task, originals, where)


def _look_at_memory(memory: int, status: int | None) -> None:
    """Raises OSError where a command failed in a room that is full."""
    found = os.fstatvfs(memory)
    if status != 0 and found.f_bavail * found.f_frsize < _LEAST_ROOM:
        raise OSError(errno.ENOSPC, "a room has not enough memory for what a command leaves")


class _Originals:
    """The folders of the project as they are outside of the room."""

    def __init__(self, tops: Sequence[bytes]) -> None:
        self._handles = [(it, os.open(it, os.O_PATH | os.O_DIRECTORY | os.O_CLOEXEC)) for it in tops]

    def opened(self, path: bytes) -> int:
        """A descriptor of the file at a path. Raises OSError."""
        for top, handle in self._handles:
            if path.startswith(top + b"/"):
                return os.open(path[len(top) + 1 :], os.O_RDONLY | os.O_NOFOLLOW | os.O_NONBLOCK | os.O_CLOEXEC,
                               dir_fd=handle)
        return os.open(path, os.O_RDONLY | os.O_NOFOLLOW | os.O_NONBLOCK | os.O_CLOEXEC)


class _Where:
    """Where paths of the project stand in a room, and how a text names them there."""

    def __init__(self, tops: Sequence[bytes], variation: Variation) -> None:
        self.variation = variation
        self._tops = sorted(tops, key=len, reverse=True) if variation.folder else []
        self._to = b"/tmp" + _ELSEWHERE

    def at(self, path: bytes) -> bytes:
        """Where the path stands."""
        is_moved = any(path == it or path.startswith(it + b"/") for it in self._tops) and not path.startswith(self._to)
        return self._to + path if is_moved else path

    def text(self, text: bytes) -> bytes:
        """A text in which each whole path of a moved folder is the other one."""
        for it in self._tops:
            parts = text.split(it)
            text = parts[0] + b"".join((self._to if part[:1] in b"/ \t\n\"';:,)=" else b"") + it + part
                                       for part in parts[1:])
        return text


def _fill(originals: _Originals, inputs: Inputs, task: Task, where: _Where) -> dict[bytes, os.stat_result]:
    """Puts the inputs there. Gives what each file and link is now."""
    for path in sorted(inputs.folders):
        os.makedirs(where.at(path), exist_ok=True)
    _prepare(task, where)
    for path, source in sorted(inputs.files.items()):
        if task.response and path == task.response[0]:
            continue
        at = where.at(path)
        os.makedirs(os.path.dirname(at), exist_ok=True)
        _copy(originals, source, at, where.variation.stamps)
    for path, text in sorted(inputs.links.items()):
        at = where.at(path)
        os.makedirs(os.path.dirname(at), exist_ok=True)
        with contextlib.suppress(FileExistsError):
            os.symlink(where.text(text), at)
    return {path: os.lstat(where.at(path)) for path in (*inputs.files, *inputs.links)}


def _prepare(task: Task, where: _Where) -> None:
    """Makes what Ninja makes before a command: folders for the outputs, and the response file."""
    os.makedirs(where.at(task.build), exist_ok=True)
    for folder in task.folders:
        try:
            os.makedirs(where.at(folder), exist_ok=True)
        except OSError as why:
            if why.errno not in _NO_RIGHT:  # outside of the project, where Ninja has made it
                raise
    if task.response:
        path, content = task.response
        os.makedirs(os.path.dirname(where.at(path)), exist_ok=True)
        with open(where.at(path), "wb") as file:
            file.write(where.text(content))


def _copy(originals: _Originals, source: bytes | None, at: bytes, has_other_stamps: bool) -> None:
    with open(at, "xb") as target:
        if source is None:
            return
        descriptor = originals.opened(source)
        with open(descriptor, "rb") as file:
            found = os.fstat(descriptor)
            shutil.copyfileobj(file, target, _PART)
            os.fchmod(target.fileno(), stat.S_IMODE(found.st_mode))
    written = found.st_mtime_ns - _EARLIER * has_other_stamps
    os.utime(at, ns=(max(0, written), max(0, written)))


def _run(task: Task, where: _Where) -> tuple[int | None, bytes]:
    """Runs the command as Ninja does. Gives its status, and the begin of what it wrote."""
    variation = where.variation
    words = [b"/bin/sh", b"-c", where.text(task.text)]
    environment = {**os.environb, b"CCACHE_DISABLE": b"1", b"SCCACHE_RECACHE": b"1"}
    environment.pop(b"OLDPWD", None)
    if variation.date:
        words = [b"faketime", b"-f", _ANOTHER_DATE.encode(), *words]
    if variation.user:
        name = _ANOTHER_USER.encode()
        environment.update({b"USER": name, b"LOGNAME": name, b"HOME": b"/tmp" + _ELSEWHERE + b"-home"})
        os.makedirs(environment[b"HOME"], exist_ok=True)
    written, me = os.memfd_create("written"), os.getpid()

    def before() -> None:
        end_with_parent(me)
        if variation.user:
            become_another_user()

    process = subprocess.Popen(words, cwd=where.at(task.build), stdin=subprocess.DEVNULL, stdout=written,
                               stderr=written, env=environment, start_new_session=True, preexec_fn=before)
    status: int | None
    try:
        status = process.wait(timeout=task.seconds)
    except subprocess.TimeoutExpired:
        status = None
        os.killpg(process.pid, signal.SIGKILL)
        process.wait()
    found = os.pread(written, _MOST_SAID, 0)
    os.close(written)
    return status if status is None or status >= 0 else 128 - status, found


def become_another_user() -> None:
    """Has this process be the user `nobody` to itself: what was its own is now that user's. Raises Refused."""
    user, group = os.geteuid(), os.getegid()
    other = pwd.getpwnam(_ANOTHER_USER)
    if ctypes.CDLL(None, use_errno=True).unshare(_NEW_USER):
        raise Refused(f"it allows no user namespaces: {os.strerror(ctypes.get_errno())}")
    for name, text in (("setgroups", "deny"), ("uid_map", f"{other.pw_uid} {user} 1"),
                       ("gid_map", f"{other.pw_gid} {group} 1")):
        with open(f"/proc/self/{name}", "w", encoding="ascii") as file:
            file.write(text)


def _left(tops: Sequence[bytes], filled: dict[bytes, os.stat_result], where: _Where) -> Left:
    """What stands in the folders of the project that the command put there, or changed."""
    found: Left = {}
    for path in _files_below(tops, where):
        at, before = where.at(path), filled.get(path)
        now = os.lstat(at)
        if before is not None and (now.st_ino, now.st_size, now.st_mtime_ns, now.st_ctime_ns) == (
                before.st_ino, before.st_size, before.st_mtime_ns, before.st_ctime_ns):
            continue
        content = _content(at)
        if content is not None:
            found[path] = content
    return found


def _files_below(tops: Sequence[bytes], where: _Where) -> Iterator[bytes]:
    for top in tops:
        at = where.at(top)
        for base, folders, names in os.walk(at):
            links = [it for it in folders if os.path.islink(os.path.join(base, it))]
            for name in (*names, *links):
                yield top + os.path.join(base, name)[len(at) :]


def _content(path: bytes) -> File | Link | None:
    """What stands at a path, where that is a file or a link."""
    try:
        found = os.lstat(path)
        if stat.S_ISLNK(found.st_mode):
            return Link(os.readlink(path))
        if not stat.S_ISREG(found.st_mode):
            return None
        if not found.st_mode & stat.S_IRUSR:
            os.chmod(path, stat.S_IMODE(found.st_mode) | stat.S_IRUSR)
        with open(path, "rb", buffering=0) as file:
            return File(digest_of(file), found.st_size, bool(found.st_mode & stat.S_IXUSR))
    except OSError:
        return None


def _is_ignored(path: bytes, task: Task) -> bool:
    return path in task.ignored or path not in task.expected and _COMPILED in path.split(b"/")


def _compared(status: int | None, written: bytes, left: Left, task: Task, originals: _Originals,
              where: _Where) -> Ran:
    """What a command left, beside what it is expected to leave."""
    expected = {path: it for path, it in task.expected.items() if path not in task.ignored}
    differing = sorted(path for path in expected.keys() | left.keys()
                       if _moved(expected.get(path), where) != left.get(path))
    ran = Ran(status, differing, left=left, written=written, missing=expected.keys() - left.keys())
    for path in differing:
        if len(ran.excerpts) < _MOST_EXCERPTS and path in expected and path in left:
            excerpt = _excerpt(originals, path, expected[path], where)
            if excerpt:
                ran.excerpts[path] = excerpt
    return ran


def _moved(content: File | Link | None, where: _Where) -> File | Link | None:
    """A content as the room is to have it: a link leads to where the path stands there."""
    return Link(where.text(content.text)) if isinstance(content, Link) else content


def _excerpt(originals: _Originals, path: bytes, expected: File | Link, where: _Where) -> Excerpt | None:
    """Where a file begins to differ from the recorded one, where that one is still there."""
    if not isinstance(expected, File):
        return None
    try:
        with open(originals.opened(path), "rb") as old, open(where.at(path), "rb") as new:
            if digest_of(old) != expected.digest:
                return None
            old.seek(0)
            at = 0
            while True:
                one, other = old.read(_PART), new.read(_PART)
                if one != other:
                    break
                if not one:
                    return None
                at += len(one)
            inner = next((it for it, (a, b) in enumerate(zip(one, other)) if a != b), min(len(one), len(other)))
            return Excerpt(at + inner, one[inner : inner + _EXCERPT], other[inner : inner + _EXCERPT])
    except OSError:
        return None
