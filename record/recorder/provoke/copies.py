"""Work in a copy of folders that costs nothing, and that is thrown away.

A process of its own gets mounts of its own. Over each folder it lays an overlay whose upper layer is in memory, so all
paths are the real ones, and what is written is seen by that process and those below it alone. When they have ended,
nothing of it is left, whatever ended them. It needs no rights where user namespaces are allowed.
"""

from __future__ import annotations

import contextlib
import ctypes
import errno
import os
import pickle
import select
import signal
import sys
import time
from typing import Any, Callable, NoReturn

_NEW_MOUNTS, _NEW_USER = 0x00020000, 0x10000000  # CLONE_NEWNS, CLONE_NEWUSER
_BIND, _RECURSIVE, _PRIVATE = 0x1000, 0x4000, 1 << 18  # MS_BIND, MS_REC, MS_PRIVATE
_SIGNAL_AT_PARENTS_DEATH, _TAKE_ORPHANS = 1, 36  # PR_SET_PDEATHSIG, PR_SET_CHILD_SUBREAPER
_SIGNALS = (signal.SIGINT, signal.SIGTERM, signal.SIGHUP)
_POLL_SECONDS, _SECONDS_TO_END = 0.02, 3.0


class Refused(Exception):
    """Why this system refuses a copy."""


class Ended(BaseException):
    """The work was ended by a signal of this number."""

    def __init__(self, number: int) -> None:
        super().__init__(number)
        self.number = number


class Shield:
    """Signals that end the work, kept back while it is up. No call puts it up, so a signal comes before that or is
    kept."""

    def __init__(self) -> None:
        self.is_up = False
        self._kept: list[int] = []

    def take(self, number: int, _: Any) -> None:
        """Takes a signal, as a handler. Raises Ended where the shield is down."""
        if not self.is_up:
            raise Ended(number)
        self._kept.append(number)

    def lower(self) -> None:
        """From now on a signal ends the work. Raises Ended where one was kept."""
        self.is_up = False
        if self._kept:
            raise Ended(self._kept.pop())


SHIELD = Shield()
"""That of this process: its handler is to take the signals."""


def in_copy(folders: list[bytes], work: Callable[[], Any]) -> Any:
    """Does the work with a copy of each of the folders (real paths, none below another) in its place, and gives what it
    gives. Raises Refused where this system makes no such copy, and what the work raises."""
    def in_overlays() -> Any:
        _lay_over(folders)
        return work()

    return in_process(in_overlays)


def in_process(work: Callable[[], Any], at_end: Callable[[], None] = lambda: None,
               meanwhile: Callable[[], None] = lambda: None, before: Callable[[], None] = lambda: None) -> Any:
    """Does the work in a process of its own, and gives what it gives.

    When it has ended, or this process has, all that it started is ended too; then `at_end` is done. That is seen to by
    a process in between, to which processes come whose parent has ended. That process does `before` first, so that
    nothing ends this process between `before` and the process that sees to `at_end`. It does `meanwhile` again and
    again until the work has ended. Raises what `before` raises, and the work is not begun then.
    """
    reader, writer = os.pipe()
    watched, alive = os.pipe()
    sys.stdout.flush()
    sys.stderr.flush()
    SHIELD.is_up = True
    keeper = os.fork()
    if not keeper:
        os.close(reader)
        os.close(alive)
        _keep(watched, writer, work, at_end, meanwhile, before)
    try:
        os.close(writer)
        os.close(watched)
        SHIELD.lower()
        with os.fdopen(reader, "rb") as file:
            told = file.read()
    finally:
        SHIELD.is_up = True
        os.close(alive)
        os.waitpid(keeper, 0)
        SHIELD.lower()
    if not told:
        raise RuntimeError("the process that worked was ended")
    is_good, found = pickle.loads(told)
    if not is_good:
        raise found
    return found


def _keep(watched: int, writer: int, work: Callable[[], Any], at_end: Callable[[], None],
          meanwhile: Callable[[], None], before: Callable[[], None]) -> NoReturn:
    """What the process in between does."""
    try:
        os.setsid()
        for number in _SIGNALS:
            signal.signal(number, signal.SIG_IGN)
        _libc().prctl(_TAKE_ORPHANS, 1, 0, 0, 0)
        if _began(writer, before):
            _watch(watched, writer, work, meanwhile)
        at_end()
    finally:
        os._exit(0)


def _watch(watched: int, writer: int, work: Callable[[], Any], meanwhile: Callable[[], None]) -> None:
    """Has the work done, and ends all that it started once it has ended, or once nobody waits for it."""
    me, worker = os.getpid(), os.fork()
    if not worker:
        _work(me, writer, work)
    os.close(writer)
    is_alone, ends = False, _ends_of(worker)
    while not is_alone and not os.waitpid(worker, os.WNOHANG)[0]:
        meanwhile()
        is_alone = watched in select.select([watched, *ends], [], [], _POLL_SECONDS)[0]
    if is_alone:
        os.kill(worker, signal.SIGTERM)
        _wait_shortly(worker)
    _end_all()


def _began(writer: int, before: Callable[[], None]) -> bool:
    """Whether what comes before the work was done. Where it was not, the process that waits is told why."""
    try:
        before()
        return True
    except Exception as why:
        with contextlib.suppress(OSError):  # nobody may wait any more
            _tell(writer, (False, why))
        return False


def _tell(writer: int, found: tuple[bool, Any]) -> None:
    """Gives the process that waits what was found, or what was raised."""
    with os.fdopen(writer, "wb") as file:
        file.write(pickle.dumps(found))


def _ends_of(process: int) -> list[int]:
    """A descriptor that can be read once a process has ended; none where the system has no such thing."""
    try:
        return [os.pidfd_open(process)]
    except (AttributeError, OSError):
        return []


def _work(keeper: int, writer: int, work: Callable[[], Any]) -> NoReturn:
    """What the process that works does."""
    try:
        end_with_parent(keeper)
        for number in _SIGNALS:
            signal.signal(number, _raise)
        try:
            found: tuple[bool, Any] = True, work()
        except Exception as why:
            found = False, why
        _tell(writer, found)
    except Ended:
        pass
    finally:
        os._exit(0)


def _raise(number: int, _: Any) -> NoReturn:
    raise Ended(number)


def _wait_shortly(process: int) -> None:
    until = time.monotonic() + _SECONDS_TO_END
    while time.monotonic() < until and not os.waitpid(process, os.WNOHANG)[0]:
        time.sleep(_POLL_SECONDS)


def _end_all() -> None:
    """Ends all that this process is the parent of, and what comes to it by that."""
    me = os.getpid()
    while True:
        try:
            with open(f"/proc/{me}/task/{me}/children", encoding="ascii") as file:
                children = [int(it) for it in file.read().split()]
        except OSError:
            return
        if not children:
            return
        for it in children:
            try:
                os.kill(it, signal.SIGKILL)
                os.waitpid(it, 0)
            except (ProcessLookupError, PermissionError, ChildProcessError):
                pass


def end_with_parent(parent: int) -> None:
    """Has this process killed when its parent ends."""
    _libc().prctl(_SIGNAL_AT_PARENTS_DEATH, signal.SIGKILL, 0, 0, 0)
    if os.getppid() != parent:
        os._exit(1)


def _libc() -> Any:
    return ctypes.CDLL(None, use_errno=True)


def _call(what: str, result: int) -> None:
    if result:
        number = ctypes.get_errno()
        raise Refused(f"{what}: {os.strerror(number)}")


def _unshare() -> None:
    """Mounts of its own: by its own rights, else in a user namespace in which it is the same user."""
    libc, user, group = _libc(), os.geteuid(), os.getegid()
    if libc.unshare(_NEW_MOUNTS):
        if ctypes.get_errno() not in (errno.EPERM, errno.EACCES):
            _call("it makes no mounts of one's own", -1)
        _call("it allows no user namespaces", libc.unshare(_NEW_MOUNTS | _NEW_USER))
        try:
            maps = (("setgroups", "deny"), ("uid_map", f"{user} {user} 1"), ("gid_map", f"{group} {group} 1"))
            for name, text in maps:
                with open(f"/proc/self/{name}", "w", encoding="ascii") as file:
                    file.write(text)
        except OSError as why:
            raise Refused(f"it allows no user namespaces: {why.strerror}") from why


def _mount(what: str, source: bytes, target: bytes, kind: bytes | None, flags: int, data: bytes | None = None) -> None:
    _call(what, _libc().mount(source, target, kind, ctypes.c_ulong(flags), data))


def _lay_over(folders: list[bytes]) -> None:
    """Lays an overlay over each folder. What they are made of stands in memory, mounted below the first overlay."""
    _unshare()
    _mount("it does not part its mounts from others", b"none", b"/", None, _PRIVATE | _RECURSIVE)
    handles = [os.open(it, os.O_RDONLY | os.O_DIRECTORY) for it in folders]
    _mount("it mounts no memory", b"tmpfs", folders[0], b"tmpfs", 0, b"mode=0700")
    os.chdir(folders[0])
    for place, folder in enumerate(folders):
        names = [b"%s%d" % (it, place) for it in (b"lower", b"upper", b"work")]
        for it in names:
            os.mkdir(it)
        _mount("it does not mount a folder twice", b"/proc/self/fd/%d" % handles[place], names[0], None, _BIND)
        found = os.fstat(handles[place])
        os.chmod(names[1], found.st_mode & 0o7777)
        if os.geteuid() == 0:
            with contextlib.suppress(OSError):  # an owner that a user namespace does not know
                os.chown(names[1], found.st_uid, found.st_gid)
        _overlay(folder, *names)
    for handle in handles:
        os.close(handle)


def _overlay(folder: bytes, lower: bytes, upper: bytes, work: bytes) -> None:
    """Lays the overlay. Folders that stand below it can be renamed where the system's own user does it."""
    data = b"lowerdir=%b,upperdir=%b,workdir=%b" % (lower, upper, work)
    for more in (b",redirect_dir=on", b",userxattr"):
        try:
            return _mount("", b"overlay", folder, b"overlay", 0, data + more)
        except Refused:
            pass
    return _mount("it lays no overlay over a folder", b"overlay", folder, b"overlay", 0, data)
