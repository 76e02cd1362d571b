"""Takes paths name by name for an observer that does not do so itself, by what the calls and the disk show.

A call tells what it makes, takes away or renames, and what it made is known from then on. All else is asked of the disk
when the log is read, which can be later than the call. So a link that the disk showed, and that a command changes
afterwards, makes each command that came through it one whose paths are not certain.
"""

from __future__ import annotations

import os
import stat
from collections import defaultdict
from typing import TYPE_CHECKING

from .flags import Flag
from .places import Places
from .ways import Numbered, Standing, Way

if TYPE_CHECKING:
    from .processes import Command, Process

_MOST_LINKS = 40
_FIRST_BYTES = 4096
_PROC = b"/proc"


class Resolver:
    """Ways of absolute paths. `is_late`: what the disk shows may be younger than a call."""

    def __init__(self, places: Places, is_late: bool = False) -> None:
        self.places, self.is_late = places, is_late
        self._states: dict[bytes, tuple[Standing, bytes]] = {}
        self._told: set[bytes] = set()
        self._ways: dict[bytes, Numbered] = {}
        self._users: defaultdict[bytes, dict[Command, None]] = defaultdict(dict)
        self._programs: dict[bytes, tuple[bytes, bool]] = {}

    def way(self, path: bytes) -> Numbered:
        """How an absolute path, as a process used it, leads to its entry."""
        found = self._ways.get(path)
        if found is None:
            found = self._ways[path] = self.places.numbered(self._way(path))
        return found

    def note_user(self, found: Numbered, process: Process) -> None:
        """A process came this way."""
        if self.is_late and process.command is not None and not found.is_bare:
            for name, _ in (*found.way.links, *found.way.ends):
                self._users[name][process.command] = None

    def absent(self, path: bytes) -> Numbered:
        """The way of a path at whose end nothing was, whatever the disk shows now."""
        found = self.way(path)
        for _, state in ((found.place, found.standing), (found.end, found.end_standing)):
            if state is Standing.LINK:
                self._states.pop(self.places.paths[found.place], None)
                self._ways.clear()
        way = found.way
        return self.places.numbered(Way(way.entry, Standing.MISSING, links=way.links, asked=way.asked))

    def _way(self, path: bytes) -> Way:
        links: list[tuple[bytes, bytes]] = []
        asked: list[tuple[bytes, Standing]] = []
        entry, is_broken = self._walk(b"", path, links, asked, True)
        on_the_way = len(links)
        standing, text = (Standing.MISSING, b"") if is_broken else self.state(entry)
        end, end_standing = None, standing
        last = entry
        while standing is Standing.LINK and end_standing is Standing.LINK and len(links) <= _MOST_LINKS:
            links.append((last, text))
            start = b"" if text.startswith(b"/") else last.rpartition(b"/")[0]
            end, is_cut = self._walk(start, text, links, asked, True)
            end_standing, text = (Standing.MISSING, b"") if is_cut else self.state(end)
            last = end
        inode = text if end_standing is Standing.FILE else b""
        of_files = tuple(it for it in links[:on_the_way] if not _is_of_kernel(it[0]))
        return Way(entry, standing, end, end_standing, inode=inode, process=_process_of(path), is_broken=is_broken,
                   links=of_files, ends=tuple(links[on_the_way:]), asked=tuple(asked))

    def _walk(self, real: bytes, path: bytes, links: list[tuple[bytes, bytes]], asked: list[tuple[bytes, Standing]],
              keeps_last: bool) -> tuple[bytes, bool]:
        """The entry to which a path leads from a folder, and whether the way breaks off before it."""
        names = [it for it in path.split(b"/") if it not in (b"", b".")]
        is_broken = False
        for at, name in enumerate(names):
            if name == b"..":
                if real:
                    asked.append((real, Standing.MISSING if is_broken else Standing.FOLDER))
                real = real.rpartition(b"/")[0]
                continue
            before, real = real, real + b"/" + name
            if is_broken or keeps_last and at == len(names) - 1 and not path.endswith(b"/"):
                continue
            standing, text = self.state(real)
            if standing is Standing.LINK and len(links) <= _MOST_LINKS:
                links.append((real, text))
                real, is_broken = self._walk(b"" if text.startswith(b"/") else before, text, links, asked, False)
            elif standing is Standing.MISSING:
                is_broken = True
            elif standing in (Standing.FILE, Standing.DEVICE) and at < len(names) - 1:
                asked.append((real, standing))
                is_broken = True
        return real, is_broken

    def state(self, real: bytes) -> tuple[Standing, bytes]:
        """What stands at an entry, and a link's text, or what names a file of several names."""
        found = self._states.get(real)
        if found is None:
            found = self._states[real] = _state(real)
        return found

    def is_folder(self, place: int, other: int) -> bool:
        """Whether a folder was renamed, after that."""
        return any(_state(self.places.paths[it])[0] is Standing.FOLDER for it in (place, other))

    # what calls change

    def wrote(self, place: int) -> None:
        """A file is there."""
        if self.is_late or self._states:
            real = self.places.paths[place]
            if self._states.get(real, (Standing.MISSING, b""))[0] is Standing.MISSING:
                self._set(place, Standing.FILE, b"")

    def made(self, place: int) -> None:
        """A folder was made."""
        self._set(place, Standing.FOLDER, b"")

    def linked(self, place: int, text: bytes | None) -> None:
        """A link was made, or another name of a file. The disk is asked for a text that is empty."""
        if text == b"":
            self._forget(self.places.paths[place])
            return
        self._set(place, Standing.FILE if text is None else Standing.LINK, text or b"")

    def gone(self, place: int) -> None:
        """An entry was taken away."""
        self._set(place, Standing.MISSING, b"")

    def renamed(self, place: int, other: int) -> None:
        """An entry got another name."""
        if not self._states and not self.is_late:
            return
        found = self._states.get(self.places.paths[place])
        self.gone(place)
        if found is not None and found[0] is not Standing.MISSING:
            self._set(other, *found)
        else:
            self._forget(self.places.paths[other])
        self._states = {it: state for it, state in self._states.items() if it in self._told}
        self._ways.clear()

    def _set(self, place: int, standing: Standing, text: bytes) -> None:
        if not self._states and not self.is_late:
            return
        real = self.places.paths[place]
        self._forget(real)
        self._states[real] = standing, text
        self._told.add(real)

    def _forget(self, real: bytes) -> None:
        before = self._states.pop(real, None)
        if before is not None and before[0] is Standing.LINK and real not in self._told and self.is_late:
            for command in self._users.pop(real, ()):
                command.flag(Flag.UNRESOLVED, b"readlink", b"", real)
        self._programs.pop(real, None)
        self._ways.clear()

    def program(self, real: bytes) -> tuple[bytes, bool]:
        """The interpreter that a program's file names (empty where it names none), and whether the program has
        rights of another user that it does not get while it is observed."""
        found = self._programs.get(real)
        if found is None:
            found = self._programs[real] = _program(real)
        return found


def _process_of(path: bytes) -> int:
    """The process in whose folder in /proc a path leads, as it was used; 0 for none, and for the process itself."""
    number = path[len(_PROC) + 1 :].partition(b"/")[0] if path.startswith(_PROC + b"/") else b""
    return int(number) if number.isdigit() else 0


def _is_of_kernel(real: bytes) -> bool:
    """Whether an entry is one of procfs or sysfs, which is hidden, also where it is a link (`/proc/self`)."""
    return real.startswith((b"/proc/", b"/sys/")) or real in (b"/proc", b"/sys")


def _state(real: bytes) -> tuple[Standing, bytes]:
    try:
        it = os.lstat(real or b"/")
        if stat.S_ISLNK(it.st_mode):
            return Standing.LINK, os.readlink(real)
    except (OSError, ValueError):
        return Standing.MISSING, b""
    if _is_of_kernel(real):
        return Standing.OF_KERNEL, b""
    if stat.S_ISCHR(it.st_mode) or stat.S_ISBLK(it.st_mode):
        return Standing.DEVICE, b""
    if stat.S_ISDIR(it.st_mode):
        return Standing.FOLDER, b""
    return Standing.FILE, b"%x:%x" % (it.st_dev, it.st_ino) if it.st_nlink > 1 else b""


def _program(real: bytes) -> tuple[bytes, bool]:
    try:
        descriptor = os.open(real, os.O_RDONLY | os.O_NONBLOCK | os.O_CLOEXEC | os.O_NOCTTY)
    except (OSError, ValueError):
        return b"", False
    try:
        status = os.fstat(descriptor)
        if not stat.S_ISREG(status.st_mode):
            return b"", False
        is_other_user = bool(status.st_mode & (stat.S_ISUID | stat.S_ISGID)) and os.geteuid() != 0
        text = os.pread(descriptor, _FIRST_BYTES, 0)
    except OSError:
        return b"", False
    finally:
        os.close(descriptor)
    if text.startswith(b"#!"):
        words = text[2:].split(b"\n")[0].split()
        return (words[0] if words else b""), is_other_user
    return _of_elf(text), is_other_user


def _of_elf(text: bytes) -> bytes:
    """The program that loads a file of 64-bit ELF."""
    if text[:5] != b"\x7fELF\x02" or len(text) < 64:
        return b""
    number = lambda at, size: int.from_bytes(text[at : at + size], "little")  # noqa: E731
    table, size, count = number(32, 8), number(54, 2), number(56, 2)
    for at in range(table, min(table + size * count, len(text)), max(size, 56)):
        if number(at, 4) == 3:
            begin, length = number(at + 8, 8), number(at + 32, 8)
            return text[begin : begin + length].rstrip(b"\0")
    return b""
