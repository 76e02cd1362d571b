"""The folder of a recording: made before Ninja runs, written beside what is there, and switched by one rename.

What is written stands in `.new` inside of the folder, so on the same file system. When all of it is on the disk, one
rename of `.new` to `.moving` decides: from then on the new recording is the one that counts. Its files are then moved
into their places, `replay` last, and `.moving` goes. Whatever ends the recorder in between, the next one goes on: it
takes `.new` away, and moves what is left in `.moving`. Readers that meet `.moving/replay` take each file from there, or
from its place where it has been moved. Files of the user's own in the folder stay as they are.

The folder may come from somebody else. So `.new` and `.moving` are taken for an earlier recorder's only where they have
nothing but files and folders under names that a recording can have, and no name is looked up through a link (`held`).
"""

from __future__ import annotations

import contextlib
import fcntl
import os
import shutil
import stat
import tempfile
from typing import Iterable, Iterator

from .fields import shown
from .held import HeldFolder, joined
from .signals import held_back

NEW, MOVING = b".new", b".moving"
_OLD = b".old"  # where earlier versions of the recorder put aside what they replaced
OWN_NAMES = (NEW, MOVING, _OLD)
_REPLAY = b"replay"
OPTIONAL = (b"observed", b"observed-log", b"filters", b"targets", b"contents", b"dyndep/notes")
"""Files that not every recording has: those of an earlier one go with it."""
_WITHOUT = b".without"  # in `.moving`: the names of such files that the new recording does not have


class BadFolder(Exception):
    """A sentence that says why nothing can be recorded into the folder."""


class NotInPlace(Exception):
    """The new recording counts, and a file of it could not be moved into its place: the system's reason."""


@contextlib.contextmanager
def whole(folder: str) -> Iterator[str]:
    """The folder of a recording as it is to be read: a copy of the one that counts, for as long as it is used, where
    the recorder was ended while it moved the files into their places; else the folder itself."""
    if not _is_moving(folder):
        yield folder
        return
    with tempfile.TemporaryDirectory(prefix="rebug-whole-") as copy:
        with HeldFolder.at(folder) as held, HeldFolder.at(copy) as target:
            with held.below(MOVING) as moving:
                _copy_files(moving, target, (_WITHOUT,))
                left_out = _left_out(moving)
            _copy_files(held, target, left_out)
        yield copy


def _is_moving(folder: str) -> bool:
    """Whether a recorder was ended while it moved the files. What a recorder leaves is no link."""
    try:
        with HeldFolder.at(folder) as held:
            found = held.status(joined(MOVING, _REPLAY))
    except OSError:  # no folder, or a link on the way
        return False
    return found is not None and stat.S_ISREG(found.st_mode)


def _left_out(moving: HeldFolder) -> list[bytes]:
    """The files of an earlier recording that the one in `.moving` does not have."""
    found = moving.status(_WITHOUT)
    if found is None or not stat.S_ISREG(found.st_mode):
        return []
    with moving.read(_WITHOUT) as file:
        noted = file.read(sum(map(len, OPTIONAL)) + len(OPTIONAL)).split(b"\n")
    return [it for it in OPTIONAL if it in noted]


def _copy_files(source: HeldFolder, target: HeldFolder, left_out: Iterable[bytes] = ()) -> None:
    """Copies the files that a recording can have, and that the target does not have."""
    for at, found in source.everything():
        if stat.S_ISREG(found.st_mode) and is_name(at) and at not in left_out and target.status(at) is None:
            with source.read(at) as file, target.create(at) as copy:
                shutil.copyfileobj(file, copy)


class OutFolder:
    """A folder that a recording can be written into. Used by `with`, which leaves nothing half written there."""

    def __init__(self, path: str) -> None:
        self.path, self.folder = path, os.fsencode(path)
        self._made: list[bytes] = []
        self._held: HeldFolder | None = None
        self._staging: HeldFolder | None = None

    def __enter__(self) -> OutFolder:
        try:
            self._make()
            self._held = HeldFolder.at(self.folder)
            self._lock()
            self._look()
            self._finish_or_remove()
            self._stage()
        except OSError as why:
            self._leave()
            raise self._bad(f" cannot be written: {why.strerror or why}") from why
        except BaseException:
            self._leave()
            raise
        return self

    def __exit__(self, *_: object) -> None:
        self._leave()

    @property
    def held(self) -> HeldFolder:
        """The folder itself."""
        assert self._held is not None
        return self._held

    @property
    def staging(self) -> HeldFolder:
        """The folder that the new recording is written to."""
        assert self._staging is not None
        return self._staging

    def _bad(self, text: str, name: bytes = b"") -> BadFolder:
        """A sentence about a name in the folder, or about the folder."""
        return BadFolder(f"{shown(os.path.join(self.folder, name) if name else self.folder)}{text}")

    def _make(self) -> None:
        """Makes the folder and those above it that are missing, and remembers which."""
        if os.path.exists(self.folder) and not os.path.isdir(self.folder):
            raise self._bad(" is a file, and the recording goes into a folder: name another")
        missing, at = [], os.path.abspath(self.folder)
        while not os.path.lexists(at):
            missing.append(at)
            at = os.path.dirname(at)
        for it in reversed(missing):
            os.mkdir(it)
            self._made.append(it)

    def _lock(self) -> None:
        try:
            fcntl.flock(self.held.descriptor, fcntl.LOCK_EX | fcntl.LOCK_NB)
        except BlockingIOError:
            raise BadFolder(f"another recording is being written into {self.path}") from None
        except OSError:  # a file system without locks
            pass

    def _look(self) -> None:
        """Whether the folder is one to record into, before anything in it is changed."""
        if self.held.status(_OLD):
            raise self._bad(" is not a part of a recording. An earlier version of the recorder put aside there what it "
                            "was replacing as it was killed: take it away, or move its files back", _OLD)
        for name in (NEW, MOVING):
            self._look_at_left(name)
        others = [it for it in self.held.names() if it not in OWN_NAMES]
        if others and not self.has_recording() and not self._is_being_moved():
            raise self._bad(" has files that are no recording: name another folder, or empty it")

    def _look_at_left(self, name: bytes) -> None:
        """Whether what stands under one of the recorder's own names is what an ended recorder leaves."""
        found = self.held.status(name)
        if found is None:
            return
        if not stat.S_ISDIR(found.st_mode):
            raise self._bad(f" is {_kind(found)}, and not what a recorder leaves: take it away", name)
        self._is_folder_to_write(name)
        with self.held.below(name) as left:
            for at, it in left.everything():
                if not (stat.S_ISDIR(it.st_mode) or stat.S_ISREG(it.st_mode)) or it.st_dev != found.st_dev:
                    raise self._bad(f"/{shown(at)} is {_kind(it)}, and not what a recorder leaves: take it away", name)
                if not is_name(at):
                    raise self._bad(f"/{shown(at)} is not a name in a recording: take it away", name)
                if stat.S_ISDIR(it.st_mode):
                    self._is_folder_to_write(joined(name, at))
        if name == MOVING:
            self.look_at_places(self._files_of(name))

    def _files_of(self, name: bytes) -> list[bytes]:
        """The files below a folder in the folder, by their names from it."""
        with self.held.below(name) as folder:
            return [at for at, found in folder.everything() if not stat.S_ISDIR(found.st_mode)]

    def look_at_places(self, names: Iterable[bytes]) -> None:
        """Whether files of these names can be moved into the folder, and no folder on the way to one is a link."""
        known: set[bytes] = set()
        for name in names:
            folders = name.split(b"/")[:-1]
            for count in range(len(folders) + 1):
                at = b"/".join(folders[:count])
                if at not in known and not self._is_folder_to_write(at):
                    break
                known.add(at)
            else:
                found = self.held.status(name)
                if found and stat.S_ISDIR(found.st_mode):
                    raise self._bad(" is a folder, and the recording has a file of this name", name)

    def _is_folder_to_write(self, at: bytes) -> bool:
        """False where nothing stands there, so that the folder is made."""
        found = self.held.status(at) if at else os.fstat(self.held.descriptor)
        if found is None:
            return False
        if not stat.S_ISDIR(found.st_mode):
            raise self._bad(f" is {_kind(found)}, and the recording has a folder of this name", at)
        with self.held.below(at) as folder:
            if not folder.may_write():
                raise self._bad(" cannot be written: Permission denied", at)
        return True

    def has_recording(self) -> bool:
        """Whether a recording stands there."""
        return self.held.status(_REPLAY) is not None

    def _is_being_moved(self) -> bool:
        """Whether a recorder was ended before the last file was in its place."""
        return self.held.status(MOVING) is not None and self.held.status(MOVING + b"/" + _REPLAY) is not None

    def _finish_or_remove(self) -> None:
        """Goes on where an earlier recorder was ended."""
        if self.held.status(MOVING):
            self._made = []
            self._move_into_place()
        if self.held.status(NEW):
            self.held.take_away(NEW)

    def _stage(self) -> None:
        """Makes the folder that the new recording is written to, and tries to write there."""
        self.held.make(NEW)
        self._staging = self.held.below(NEW)
        if self.staging.names():
            raise self._bad(" is being written by somebody else", NEW)
        with self.staging.create(b"trace") as file:
            file.write(b"rebug-trace 1\n")
        self.staging.unlink(b"trace")

    def switch(self) -> None:
        """Has what was written replace what is there.

        Up to the one rename an OSError or a BadFolder leaves the folder as it was. After it the new recording counts;
        NotInPlace says that some of its files wait in `.moving` for the next recorder.
        """
        self.look_at_places([at for at, found in self.staging.everything() if stat.S_ISREG(found.st_mode)])
        self._note_left_out()
        self.staging.settle_everything()
        self._decide()
        self._made = []
        try:
            self.held.settle()
            self._move_into_place()
        except OSError as why:
            raise NotInPlace(why.strerror or str(why)) from why

    def _note_left_out(self) -> None:
        """Notes which files of the earlier recording go with it, since the new one has none of their name."""
        is_file = lambda name: (found := self.held.status(name)) is not None and not stat.S_ISDIR(found.st_mode)
        left_out = [it for it in OPTIONAL if self.staging.status(it) is None and is_file(it)]
        if left_out:
            with self.staging.create(_WITHOUT) as file:
                file.write(b"\n".join(left_out))

    def _decide(self) -> None:
        """The rename, of the folder that was written to and of no other that was put into its place."""
        if not self._is_our_staging(NEW):
            raise self._bad(" was put into the place of the folder that the recorder wrote to", NEW)
        self.held.move(NEW, self.held, MOVING)
        if not self._is_our_staging(MOVING):
            self.held.move(MOVING, self.held, NEW)
            raise self._bad(" was put into the place of the folder that the recorder wrote to", NEW)

    def _is_our_staging(self, name: bytes) -> bool:
        found = self.held.status(name)
        return found is not None and os.path.samestat(found, os.fstat(self.staging.descriptor))

    def _move_into_place(self) -> None:
        """Moves what is left in `.moving`, a folder that is not there yet as a whole, and `replay` last."""
        with self.held.below(MOVING) as moving:
            for name in _left_out(moving):
                with contextlib.suppress(FileNotFoundError):
                    self.held.unlink(name)
            for at, found in moving.everything():
                is_there = stat.S_ISDIR(found.st_mode) and self.held.status(at) is not None
                if at not in (_REPLAY, _WITHOUT) and not is_there:
                    moving.move(at, self.held, at)
            if moving.status(_REPLAY):
                moving.move(_REPLAY, self.held, _REPLAY)
        self.held.take_away(MOVING)

    def _leave(self) -> None:
        """Takes away what was not switched, and the folders that were made for nothing."""
        with held_back():
            if self._staging is not None:
                with contextlib.suppress(OSError):
                    if self._is_our_staging(NEW):
                        self.held.take_away(NEW)
                self._staging.close()
                self._staging = None
            if self._held is not None:
                self._held.close()
                self._held = None
            for it in reversed(self._made):
                with contextlib.suppress(OSError):
                    os.rmdir(it)


def is_name(path: bytes) -> bool:
    """Whether a relative, canonical path can be a file's or a folder's in a recording."""
    try:
        path.decode()
    except UnicodeDecodeError:
        return False
    return path.split(b"/", 1)[0] not in OWN_NAMES


def _kind(found: os.stat_result) -> str:
    mode = found.st_mode
    kinds = ((stat.S_ISLNK, "a link"), (stat.S_ISDIR, "a folder of another file system"), (stat.S_ISREG, "a file"),
             (stat.S_ISFIFO, "a pipe"), (stat.S_ISSOCK, "a socket"))
    return next((text for test, text in kinds if test(mode)), "a device")
