"""Work in the folders themselves, for systems that refuse a copy: what stands there is moved aside, a copy of it is put
into its place, and at the end the copy is taken away and what stood there is moved back, with its bytes and stamps.

All that this needs stands in one folder of this user's, `.rebug-provoke` in the build folder: the state file (`state`),
what was moved aside of each folder (`0`, `1` and so on), and, while it is made or taken away, the copy. A marker beside
the state file says how far the work is. Without a marker things are being moved aside. With `working` all were moved,
and what stands in the folders is a copy. With `returning` the copy has left the folders. So whatever ends the work, it
can be known what is whose: `put_back` puts it back when all that the work started has ended, and where that was ended
too, the next call does.
"""

from __future__ import annotations

import contextlib
import fcntl
import os
import re
import stat
import subprocess
import time
from dataclasses import dataclass
from typing import Any, Callable, Iterator

from ..fields import shown
from ..held import HeldFolder
from .copies import SHIELD, in_process
from .places import move_to_free_name, opened, status_of, take_all_away
from .state import STATE, BadState, Identity, Look, Process, State, Worked

OWN = b".rebug-provoke"
_WORKING, _RETURNING, _ALIVE, _TRIAL = b"working", b"returning", b"alive", b"trial"
_COPY = b"copy-%d"
_ASIDE = re.compile(rb"[0-9]+")
_SECONDS_BETWEEN_SIGNS = 1.0
_NS_AFTER_LAST_SIGN = 3 * 10**9
"""What is changed so long after the last sign of life was not changed by the work."""
_HOLDER = os.O_PATH | os.O_NOFOLLOW | os.O_CLOEXEC


class Blocked(Exception):
    """Why the folders cannot be worked in, or what an earlier call left cannot be put back; and where things are."""


def in_place(build: bytes, folders: list[bytes], work: Callable[[], Any]) -> Any:
    """Does the work on copies in the places of the folders (real paths), and gives what it gives. What stood there is
    put back when all that the work started has ended, whatever comes. Raises Blocked, and what the work raises."""
    with _alone_in([build, *(it for it in folders if it != build)]):
        _put_back(build, is_later=True)
        asides: list[tuple[Aside, Callable[[], None]]] = []

        def begin() -> None:
            """Makes the folder of ours in the process that takes it away, so that a kill of this one leaves none."""
            aside = Aside.made(build, _worked(build, folders))
            asides.append((aside, aside.sign()))

        try:
            return in_process(lambda: asides[0][0].on_copies(work), lambda: _put_back(build, is_later=False),
                              lambda: asides[0][1](), begin)
        except (OSError, BadState) as why:
            raise Blocked(f"the folders cannot be worked in: {why}. What stood there is there") from why
        finally:
            SHIELD.is_up = True
            _put_back(build, is_later=False)
            SHIELD.lower()


def put_back(build: bytes) -> None:
    """Puts back what stood in the folders, where an earlier call on this build folder was ended with all that could do
    it. No other folder is looked at. Raises Blocked."""
    if os.path.lexists(os.path.join(build, OWN)):
        with _alone_in([build]):
            SHIELD.is_up = True
            _put_back(build, is_later=True)
            SHIELD.lower()


@contextlib.contextmanager
def _alone_in(folders: list[bytes]) -> Iterator[None]:
    """Nobody else works in these folders so, and the processes that are started here do until they have ended."""
    with contextlib.ExitStack() as held:
        for folder in folders:
            try:
                descriptor = os.open(folder, os.O_RDONLY | os.O_DIRECTORY | os.O_NOFOLLOW | os.O_CLOEXEC)
            except OSError as why:
                raise Blocked(f"{shown(folder)} cannot be opened: {why.strerror}. Nothing was changed") from why
            held.callback(os.close, descriptor)
            try:
                fcntl.flock(descriptor, fcntl.LOCK_EX | fcntl.LOCK_NB)
            except BlockingIOError:
                raise Blocked(f"another call works in {shown(folder)}. Nothing was changed") from None
            except OSError:  # a file system without locks
                pass
        yield


def _worked(build: bytes, folders: list[bytes]) -> list[tuple[bytes, tuple[bytes, ...]]]:
    """The folders to work in, that of the build first, each with the names in it that stay. The build folder stays
    where it is, and so does each folder on the way to it from another one."""
    found: list[tuple[bytes, tuple[bytes, ...]]] = [(build, (OWN,))]
    for top in folders:
        at = top
        while build.startswith(at + b"/"):
            name = build[len(at) + 1 :].split(b"/")[0]
            found.append((at, (name,)))
            at = at + b"/" + name
        if at == top and top != build:
            found.append((top, ()))
    return found


@dataclass
class Aside:
    """The folder of ours, and what stands there: each folder that is worked in, with the one that its names move to."""

    own: HeldFolder
    state: State
    alive: int

    @staticmethod
    def made(build: bytes, folders: list[tuple[bytes, tuple[bytes, ...]]]) -> Aside:
        """Makes the folder of ours, with the state file. Nothing is moved yet. Raises OSError and Blocked."""
        with opened(build) as held:
            worked = [_looked_at(path, stays, held) for path, stays in folders]
            os.mkdir(OWN, 0o700, dir_fd=held.descriptor)
            worked[0].look.give(held.descriptor)
            own = _own_folder(held)
            if own is None:
                raise OSError(f"somebody has taken {os.fsdecode(OWN)} away")
            asides = []
            for place in range(len(worked)):
                os.mkdir(b"%d" % place, 0o700, dir_fd=own.descriptor)
                with own.below(b"%d" % place) as aside:
                    asides.append(Identity.of(os.fstat(aside.descriptor)))
            alive = os.open(_ALIVE, os.O_WRONLY | os.O_CREAT | os.O_EXCL | os.O_CLOEXEC, 0o600, dir_fd=own.descriptor)
            state = State(os.geteuid(), Process.own(), tuple(asides), tuple(worked))
            state.write(own)
            return Aside(own, state, alive)

    def sign(self) -> Callable[[], None]:
        """What gives a sign of life where the last one is a second old."""
        last = [0.0]

        def signed() -> None:
            if time.monotonic() - last[0] >= _SECONDS_BETWEEN_SIGNS:
                last[0] = time.monotonic()
                with contextlib.suppress(OSError):
                    os.utime(self.alive)

        return signed

    def on_copies(self, work: Callable[[], Any]) -> Any:
        """Moves everything aside, puts copies into the places, and does the work."""
        with contextlib.ExitStack() as opened_ones:
            folders = [opened_ones.enter_context(it.opened()) for it in self.state.folders]
            asides = [opened_ones.enter_context(self.own.below(b"%d" % it)) for it in range(len(folders))]
            for it, folder, aside in zip(self.state.folders, folders, asides):
                _move_aside(it, folder, aside)
            self.own.create(_WORKING).close()
            self.own.settle()
            for place, (it, folder) in enumerate(zip(self.state.folders, folders)):
                self._copy(place, folder)
            for it, folder in zip(self.state.folders, folders):
                it.look.give(folder.descriptor)
            os.fchmod(self.own.descriptor, 0)  # a command of the build that empties its folder cannot reach it
        return work()

    def _copy(self, place: int, folder: HeldFolder) -> None:
        """Copies what was moved aside, beside it, and then moves the copies into the folder."""
        name = _COPY % place
        os.mkdir(name, 0o700, dir_fd=self.own.descriptor)
        words = [b"cp", b"-a", b"--reflink=auto", b"%d/." % place, name + b"/"]
        done = subprocess.run(words, stdin=subprocess.DEVNULL, stdout=subprocess.DEVNULL, stderr=subprocess.PIPE,
                              preexec_fn=lambda: os.fchdir(self.own.descriptor))
        if done.returncode:
            raise OSError(done.stderr.decode(errors="replace").strip().split("\n")[-1])
        with self.own.below(name) as copy:
            os.fchmod(copy.descriptor, 0o700)
            for it in copy.names():
                move_to_free_name(copy, it, folder)
        os.rmdir(name, dir_fd=self.own.descriptor)


def _looked_at(path: bytes, stays: tuple[bytes, ...], build: HeldFolder) -> Worked:
    """A folder as it is before anything is moved. Raises Blocked where its names cannot be moved into the build
    folder."""
    with opened(path) as held:
        found, device = os.fstat(held.descriptor), os.fstat(build.descriptor).st_dev
        if os.geteuid() not in (0, found.st_uid):
            raise Blocked(f"{shown(path)} belongs to the user {found.st_uid}, who alone can give it its stamps back. "
                          f"Nothing was changed")
        moved = {}
        for name in held.names():
            its = status_of(held, name)
            if name in stays or its is None:
                continue
            if stat.S_ISDIR(its.st_mode) and its.st_dev != device or found.st_dev != device:
                at = os.path.join(path, name) if found.st_dev == device else path
                raise Blocked(f"{shown(at)} stands on another file system than the build folder, so that it cannot be "
                              f"moved aside. Nothing was changed")
            moved[os.fsdecode(name)] = Identity.of(its)
        return Worked(os.fsdecode(path), Identity.of(found), Look.of(found), tuple(map(os.fsdecode, stays)), moved)


def _move_aside(it: Worked, folder: HeldFolder, aside: HeldFolder) -> None:
    """Moves the names of a folder aside, and sees that each is what was noted: by that it is put back."""
    done = []
    for name, identity in it.moved.items():
        os.rename(os.fsencode(name), os.fsencode(name), src_dir_fd=folder.descriptor, dst_dir_fd=aside.descriptor)
        done.append(os.fsencode(name))
        if _identity(aside, done[-1]) != identity:
            for back in done:
                move_to_free_name(aside, back, folder)
            raise OSError(f"{it.path}/{name} is another file once it was moved")


def _identity(folder: HeldFolder, name: bytes) -> Identity | None:
    found = status_of(folder, name)
    return None if found is None else Identity.of(found)


def _put_back(build: bytes, is_later: bool) -> None:
    """Puts everything back where something is aside. What was done is not done again. `is_later` where it was another
    call that moved it. Raises Blocked."""
    at = shown(os.path.join(build, OWN))
    try:
        with opened(build) as held:
            own = _own_folder(held)
            if own is None:
                return
            with own:
                state = State.read(own)
                if state is None:
                    _take_unused_away(held, own)
                else:
                    _Return(held, own, state).do(is_later)
    except BadState as why:
        raise Blocked(f"{at} stays as it is, and so does what it holds: {why}") from why
    except OSError as why:
        raise Blocked(f"what was moved aside cannot all be put back: {why}. The rest is in {at}, and the next call "
                      f"goes on") from why


def _own_folder(build: HeldFolder) -> HeldFolder | None:
    """The folder of ours in a build folder; None where none is there. Raises BadState for what is not ours."""
    try:
        holder = os.open(OWN, _HOLDER, dir_fd=build.descriptor)
    except FileNotFoundError:
        return None
    try:
        found = os.fstat(holder)
        if not stat.S_ISDIR(found.st_mode):
            raise BadState("it is no folder, so no call of rebug made it")
        if found.st_uid != os.geteuid():
            raise BadState(f"it is the folder of the user {found.st_uid}")
        if found.st_mode & (stat.S_IRWXG | stat.S_IRWXO):
            raise BadState("others may look into it, so no call of rebug made it")
        if found.st_dev != os.fstat(build.descriptor).st_dev:
            raise BadState("it stands on another file system")
        os.chmod(f"/proc/self/fd/{holder}", 0o700)
        return HeldFolder(os.open(f"/proc/self/fd/{holder}", os.O_RDONLY | os.O_DIRECTORY | os.O_CLOEXEC))
    finally:
        os.close(holder)


def _take_unused_away(build: HeldFolder, own: HeldFolder) -> None:
    """Takes away the folder of a call that was ended before it moved anything, or after it had put all back."""
    names = own.names()
    asides = [it for it in names if _ASIDE.fullmatch(it)]
    if {*names} - {*asides, STATE, _ALIVE} or any(own.names(it) for it in asides):
        raise BadState("it has no whole state file, and more than a call leaves there before it moves anything")
    look = Look.of(os.fstat(build.descriptor))
    for it in (STATE, _ALIVE):
        with contextlib.suppress(FileNotFoundError):
            own.unlink(it)
    for it in asides:
        os.rmdir(it, dir_fd=own.descriptor)
    os.rmdir(OWN, dir_fd=build.descriptor)
    look.give(build.descriptor)


class _Return:
    """Everything put back, by the state file."""

    def __init__(self, build: HeldFolder, own: HeldFolder, state: State) -> None:
        self.build, self.own, self.state = build, own, state

    def do(self, is_later: bool) -> None:
        """Does it. Raises BadState where something is not as the state file has it: that stays as it is."""
        if is_later and self.state.process.is_running():
            raise BadState(f"the process {self.state.process.number}, which moved it there, is still at work")
        with contextlib.ExitStack() as held:
            folders = [held.enter_context(it.opened()) for it in self.state.folders]
            if not os.path.samestat(os.fstat(folders[0].descriptor), os.fstat(self.build.descriptor)):
                raise BadState("its state file is about another build folder")
            asides = [held.enter_context(self._aside(it)) if self._is_aside(it) else None for it in range(len(folders))]
            pairs = list(zip(self.state.folders, folders, asides))
            for it, folder, aside in pairs:
                _look_for_moved(it, folder, aside)
            if self.own.status(_WORKING) is not None:
                if is_later:
                    self._look_for_changes(folders)
                self._take_copies_out(folders)
            for it, folder, aside in pairs:
                if aside is not None:
                    _move_all_back(it, aside, folder)
            for it, folder, _ in pairs:
                it.look.give(folder.descriptor)
            self._clean()
            pairs[0][0].look.give(self.build.descriptor)

    def _is_aside(self, place: int) -> bool:
        """Whether the folder for what was moved aside is there: it goes when all is back."""
        return self.own.status(b"%d" % place) is not None

    def _aside(self, place: int) -> HeldFolder:
        held = self.own.below(b"%d" % place)
        if Identity.of(os.fstat(held.descriptor)) != self.state.asides[place]:
            held.close()
            raise BadState(f"its folder {place} is another one than a call made")
        return held

    def _look_for_changes(self, folders: list[HeldFolder]) -> None:
        """What was changed after the last sign of life may be the user's. Raises BadState where something is."""
        alive = self.own.status(_ALIVE)
        latest = (alive.st_mtime_ns if alive is not None else 0) + _NS_AFTER_LAST_SIGN
        for it, folder in zip(self.state.folders, folders):
            for name in _of_the_work(it, folder):
                for at, found in ((name, status_of(folder, name)), *_below(folder, name)):
                    if found is not None and found.st_ctime_ns > latest:
                        raise BadState(f"{it.path}/{shown(at)} was changed after the call that moved it had been "
                                       f"ended. What stood in {it.path} is there, in a folder with a number: move it "
                                       f"back")

    def _take_copies_out(self, folders: list[HeldFolder]) -> None:
        """Moves what the work left in the folders into a folder of ours, where it is taken away at the end."""
        self.own.make(_TRIAL)
        with self.own.below(_TRIAL) as trial:
            count = len(trial.names())
            for it, folder in zip(self.state.folders, folders):
                for name in _of_the_work(it, folder):
                    os.rename(name, b"%d" % count, src_dir_fd=folder.descriptor, dst_dir_fd=trial.descriptor)
                    count += 1
        self.own.move(_WORKING, self.own, _RETURNING)
        self.own.settle()

    def _clean(self) -> None:
        """Takes the folder of ours away, the state file last."""
        for name in self.own.names():
            if name == _TRIAL or name.startswith(b"copy-"):
                with self.own.below(name) as held:
                    take_all_away(held)
            if name not in (STATE, _ALIVE, _WORKING, _RETURNING):
                os.rmdir(name, dir_fd=self.own.descriptor)
        for name in (_RETURNING, _ALIVE, STATE):
            with contextlib.suppress(FileNotFoundError):
                self.own.unlink(name)
        os.rmdir(OWN, dir_fd=self.build.descriptor)


def _look_for_moved(it: Worked, folder: HeldFolder, aside: HeldFolder | None) -> None:
    """Whether each thing that was moved is aside or in its place. Raises BadState."""
    for name, identity in it.moved.items():
        places = [held for held in (aside, folder) if held is not None]
        if not any(_identity(held, os.fsencode(name)) == identity for held in places):
            raise BadState(f"{it.path}/{name} is neither there nor in its place as it was moved")


def _of_the_work(it: Worked, folder: HeldFolder) -> list[bytes]:
    """The names in a folder whose things were all moved aside: none of what stood there, and of what stays."""
    return [name for name in folder.names() if os.fsdecode(name) not in it.stays
            and _identity(folder, name) != it.moved.get(os.fsdecode(name))]


def _below(folder: HeldFolder, name: bytes) -> Iterator[tuple[bytes, os.stat_result]]:
    """All that stands below a name, where that is a folder."""
    found = status_of(folder, name)
    if found is not None and stat.S_ISDIR(found.st_mode):
        yield from folder.everything(name)


def _move_all_back(it: Worked, aside: HeldFolder, folder: HeldFolder) -> None:
    """Moves everything back into its place. Raises BadState where somebody has put another thing there."""
    for name in aside.names():
        if os.fsdecode(name) not in it.moved:
            raise BadState(f"no call moved {shown(name)} to where it stands in there")
        try:
            move_to_free_name(aside, name, folder)
        except FileExistsError:
            raise BadState(f"{it.path}/{shown(name)} is in the place of what was moved: take it away, and the next "
                           f"call puts back what stood there") from None
