"""Follows the processes of a build: which command each is a part of, its folder and its descriptors, and by these the
paths of its calls.

A process is part of the command whose shell it, or one of those that it comes from, became: the first program of a
process outside of every command, where that is `/bin/sh -c TEXT` and TEXT is a command of the manifest.
"""

from __future__ import annotations

import re
from collections.abc import Container
from dataclasses import dataclass, field

from ..fields import canonical
from .calls import CLONE_FILES, CLONE_FS, CLONE_NAMESPACES, CLONE_THREAD, CURRENT, NOT_ASKED, Call
from .flags import Cause, Flag, Flags
from .footprints import Footprint, Packed
from .imports import Imports
from .places import Places
from .servers import Address

Moved = tuple[bytes, bool, bytes | None]

_OF_PROCESS = (b"/proc/self/", b"/proc/thread-self/", b"/dev/fd/", b"/dev/std")
_OF_ANOTHER = re.compile(rb"/proc/(\d+)/(?:cwd|fd/(\d+))(?=/|$)")
_NOT_KNOWN = b""
_STANDARD = {b"/dev/stdin": 0, b"/dev/stdout": 1, b"/dev/stderr": 2}


def path_is_own(path: bytes) -> bool:
    """Whether a path leads through the process's own descriptors or folder."""
    return path.startswith(_OF_PROCESS)


@dataclass(slots=True)
class Folders:
    """Where relative paths begin, and the root of absolute ones (empty: the system's). Threads have it in common."""

    current: bytes | None
    root: bytes = b""


@dataclass(eq=False, slots=True)
class Command:
    """A command that Ninja started. `start` and `end` are its places among all starts and ends, from 1 for ends.

    `footprint` is there while a process of it runs, `packed` afterwards. `status` is that of its shell, None where
    that was not seen to end. `members` are the numbers of its processes. `standard_input` is what it reads there,
    where that is something. `addresses` are those of its sockets. `locks` are by the entry, with call and program.
    """

    text: bytes
    start: int
    footprint: Footprint | None
    packed: Packed | None = None
    status: int | None = None
    end: int = 0
    alive: int = 1
    processes: int = 1
    members: set[int] = field(default_factory=set)
    standard_input: bytes = b""
    whole: Flags = field(default_factory=Flags)
    addresses: list[Address] = field(default_factory=list)
    locks: dict[int, tuple[bytes, bytes]] = field(default_factory=dict)
    wanted_trace: bool = False
    lost_rights: bool = False

    @property
    def flags(self) -> set[Flag]:
        """Why it was not observed whole."""
        return self.whole.words

    def flag(self, flag: Flag, call: bytes = b"", program: bytes = b"", text: bytes = b"") -> None:
        """It was not observed whole."""
        self.whole.note(Cause(flag, call, program, text))

    def pack(self) -> None:
        """Its last process has ended, or nothing more of it is seen."""
        if self.footprint is not None:
            self.packed, self.footprint = self.footprint.pack(self.locks), None


@dataclass(eq=False, slots=True)
class Process:
    """A process or a thread. Descriptors that were closed stay noted until their number is given again.

    `program` is the name of the program that it runs. `imports` is there while that is Python. `asks` are looks of a
    program that may make the folder that it asks for, by the entry; `tried` are the folders that it tried to make.
    `moved` has what stands below a folder that it renames: real paths, whether each is a folder, and texts of links.
    `misses` is where a vain question is noted, where that needs nothing else.
    """

    number: int
    folders: Folders
    descriptors: dict[int, bytes]
    command: Command | None
    start: int
    programs: int = 0
    is_shell: bool = False
    imports: Imports | None = None
    program: bytes = b""
    is_searching: bool = False
    is_ensuring: bool = False
    may_ensure: bool = False
    is_elsewhere: bool = False
    asks: dict[int, int] = field(default_factory=dict)
    tried: list[int] = field(default_factory=list)
    moved: list[Moved] = field(default_factory=list)
    misses: dict[int, int] | None = None

    @property
    def footprint(self) -> Footprint | None:
        """That of the process's command, while it has one."""
        return self.command.footprint if self.command is not None else None

    def note(self, descriptor: int, path: bytes | None) -> None:
        """The descriptor was given for this path, or for no file."""
        if path is not None and descriptor != NOT_ASKED:
            self.descriptors[descriptor] = path
        else:
            self.descriptors.pop(descriptor, None)

    def received(self, descriptor: int) -> None:
        """Another process passed the descriptor, and nobody says for which file."""
        self.descriptors[descriptor] = _NOT_KNOWN

    def is_received(self, folder: int | bytes) -> bool:
        """Whether a path begins at such a descriptor."""
        return isinstance(folder, int) and self.descriptors.get(folder) == _NOT_KNOWN

    def flag(self, flag: Flag, call: bytes = b"", text: bytes = b"") -> None:
        """The process's command is not observed whole."""
        if self.command is not None:
            self.command.flag(flag, call, self.program, text)

    def path(self, path: bytes, folder: int | bytes) -> bytes | None:
        """The absolute path, as it was used; None where it begins at a descriptor of which nothing is known."""
        if path[:1] == b"/":
            if path_is_own(path):
                return self._own_path(path)
            return self.folders.root + path if self.folders.root else path
        if folder == CURRENT:
            base = self.folders.current
        else:
            base = folder if isinstance(folder, bytes) else self.descriptors.get(folder)
        if not base:
            return None
        return base + b"/" + path if path else base

    def _own_path(self, path: bytes) -> bytes | None:
        """A path through the process's own descriptors or folder, as the system shows them."""
        if path in _STANDARD:
            return self.descriptors.get(_STANDARD[path])
        words = path.split(b"/")
        at = 3 if words[1] == b"dev" else 4
        if words[at - 1] == b"fd" or at == 3:
            base = self.descriptors.get(int(words[at])) if len(words) > at and words[at].isdigit() else None
            return base and b"/".join([base, *words[at + 1 :]])
        if words[3] == b"cwd":
            return self.folders.current and b"/".join([self.folders.current, *words[4:]])
        return path


class Processes:
    """The processes of a build. `commands` are its commands in the order in which their first programs ran."""

    def __init__(self, texts: Container[bytes], folder: bytes, places: Places, present: dict[int, bool]) -> None:
        self.commands: list[Command] = []
        self.is_over = False
        self.count = 0
        self._texts, self._folder, self._places, self._present = texts, folder, places, present
        self._root, self._ends, self._mounted = 0, 0, b""
        self.running: dict[int, Process] = {}
        self._early: dict[int, tuple[list[Call], list[Command]]] = {}

    def of(self, number: int, call: Call) -> Process | None:
        """The process of an event; None where no SPAWN has told of it yet, and the event waits until one does."""
        process = self.running.get(number)
        if process is not None:
            return process
        if not self.count:
            self._root, self.count = number, 1
            process = self.running[number] = Process(number, Folders(self._folder), {}, None, 0)
            return process
        held = self._early.get(number)
        if held is None:
            held = self._early[number] = [], [it for it in self.commands if it.alive]
        held[0].append(call)
        return None

    def of_another(self, path: bytes) -> bytes | None:
        """A path through another process's descriptors or folder, as the system shows them; the same path where it is
        none, and None where that process is none of the build's, or nothing is known of its descriptor."""
        found = _OF_ANOTHER.match(path)
        if found is None:
            return path
        process = self.running.get(int(found[1]))
        base = None if process is None else process.folders.current if found[2] is None else \
            process.descriptors.get(int(found[2]))
        return base + path[found.end() :] if base else None

    def spawned(self, parent: Process, call: Call) -> tuple[Process, list[Call]]:
        """A process began; with the calls of it that came too early."""
        self.count += 1
        folders = parent.folders if call.flags & CLONE_FS else Folders(parent.folders.current, parent.folders.root)
        descriptors = parent.descriptors if call.flags & CLONE_FILES else dict(parent.descriptors)
        child = Process(call.result, folders, descriptors, parent.command, self.count, program=parent.program,
                        is_searching=parent.is_searching, is_ensuring=parent.is_ensuring, may_ensure=parent.may_ensure,
                        is_elsewhere=parent.is_elsewhere, misses=None if parent.may_ensure else parent.misses)
        if call.flags & CLONE_THREAD:
            child.imports, child.asks, child.tried = parent.imports, parent.asks, parent.tried
        elif parent.imports is not None:
            child.imports = Imports()
        self.running[child.number] = child
        if child.command is not None:
            child.command.alive += 1
            child.command.processes += 1
            child.command.members.add(child.number)
        if call.flags & CLONE_NAMESPACES:
            child.flag(Flag.NAMESPACE, b"clone")
            child.is_elsewhere = True
        return child, self._early.pop(child.number, ([], []))[0]

    def runs(self, process: Process, call: Call, program: bytes) -> Process:
        """A program was put in the place of a process: a command begins where it is the first one of it. A thread that
        is not the first one goes on as the first one, whose place it takes."""
        if call.result > 0:
            process = self._takes_place(process, call.result)
        process.programs += 1
        process.program, process.asks, process.tried = program, {}, []
        is_first = process.programs == 1 and process.number != self._root and process.command is None
        if is_first and call.result >= 0 and call.command is not None and call.command in self._texts:
            process.command = Command(call.command, process.start, Footprint(self._places, self._present),
                                      members={process.number}, standard_input=call.text)
            process.is_shell = True
            if self._mounted:
                process.command.flag(Flag.NAMESPACE, self._mounted)
            self.commands.append(process.command)
        return process

    def _takes_place(self, thread: Process, number: int) -> Process:
        """The thread goes on under the number of its process."""
        first = self.running.pop(number, None)
        self.running.pop(thread.number, None)
        if first is not None and first is not thread:
            thread.is_shell, thread.programs = first.is_shell, first.programs
            thread.start = first.start
            if first.command is not None:
                first.command.alive -= 1
        thread.number = number
        thread.folders = Folders(thread.folders.current, thread.folders.root)
        thread.descriptors = dict(thread.descriptors)
        self.running[number] = thread
        return thread

    def mounted(self, call: bytes) -> None:
        """A file system was mounted where every process sees it: from now on paths may lead elsewhere."""
        self._mounted = call
        for command in self.commands:
            if command.alive:
                command.flag(Flag.NAMESPACE, call)

    def gone(self, number: int, status: int | None) -> None:
        """A process ended."""
        process = self.running.pop(number, None)
        if number == self._root:
            self.is_over = True
        if process is None or process.command is None:
            return
        command = process.command
        command.alive -= 1
        if process.is_shell:
            self._ends += 1
            command.status, command.end = status, self._ends
        if not command.alive:
            command.pack()

    def finish(self) -> None:
        """The log is over, or Ninja has ended: what still runs is cut off, and so is what may have begun unseen."""
        unknown = {it for _, commands in self._early.values() for it in commands}
        for command in self.commands:
            if command.alive or command in unknown:
                names = sorted({it.program for it in self.running.values() if it.command is command})
                for name in names or [b""]:
                    command.flag(Flag.CUT, b"", name)
            command.pack()

    def unshared(self, process: Process, call: Call) -> None:
        """A process has its folder or its descriptors for itself from now on."""
        if call.flags & (CLONE_FS | CLONE_NAMESPACES):
            process.folders = Folders(process.folders.current, process.folders.root)
        if call.flags & CLONE_FILES:
            process.descriptors = dict(process.descriptors)
        if call.flags & CLONE_NAMESPACES:
            process.flag(Flag.NAMESPACE, call.name or b"unshare")
            process.is_elsewhere = True

    def removed(self, real: bytes) -> None:
        """A file has this real path no longer: who has it open has a file that this path does not name."""
        name = real.rpartition(b"/")[2]
        for process in self.running.values():
            for number, path in list(process.descriptors.items()):
                if path.endswith(name) and canonical(path) == real:
                    del process.descriptors[number]

    def renamed(self, old: bytes, new: bytes) -> None:
        """A folder or file has another real path: processes that stand in it, or have it open, go with it."""

        def moved(path: bytes) -> bytes:
            real = canonical(path)
            return new + real[len(old) :] if real == old or real.startswith(old + b"/") else path

        for process in self.running.values():
            if process.folders.current is not None:
                process.folders.current = moved(process.folders.current)
            for number, path in process.descriptors.items():
                process.descriptors[number] = moved(path)
