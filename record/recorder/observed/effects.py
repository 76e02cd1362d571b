"""What calls do: to the footprints of commands, and to what is known of processes and entries."""

from __future__ import annotations

import errno
import os
from collections import Counter
from collections.abc import Callable, Container, Iterable, Iterator

from .calls import Call, Event, Kind
from .flags import Flag
from .footprints import FOLDER, MISSING, MODE, NEEDED, READ, STATUS, THERE, WANTED, Footprint, Opening
from .imports import Imports
from .places import Places
from .processes import Command, Moved, Process, Processes, path_is_own
from .programs import MAY_ENSURE, SEARCHING, ensures, is_python
from .resolving import Resolver
from .servers import Address, Bound
from .ways import HIDDEN, Numbered, Standing

_NOT_THERE = (-errno.ENOENT, -errno.ENOTDIR)
_THERE = tuple(-it for it in (errno.EACCES, errno.EPERM, errno.EEXIST, errno.EISDIR, errno.ELOOP, errno.ENXIO,
                              errno.ETXTBSY, errno.ENOEXEC, errno.EROFS, errno.ENOTDIR, errno.ENOTEMPTY, errno.EINVAL,
                              errno.EXDEV, errno.EMLINK, errno.EOPNOTSUPP, errno.ENODATA))
_CHANGES = os.O_ACCMODE | os.O_CREAT | os.O_TRUNC
_MOST_MOVED = 10_000
_MOUNTS = (b"mount", b"umount2", b"move_mount")


class Build:
    """What the commands of one build do, from the events of an observer.

    `present` says of entries that the manifest's edges make whether they were there when the build began. `opening`
    says the same of each entry that a command or Ninja changed. `ninja` is the footprint of Ninja itself.
    """

    def __init__(self, texts: Container[bytes], folder: bytes, places: Places, present: dict[int, bool],
                 is_late: bool = False) -> None:
        self.places, self.present = places, present
        self.opening: dict[int, bool] = dict(present)
        self.ninja = Footprint(places, present)
        self.processes = Processes(texts, folder, places, present)
        self.resolver = Resolver(places, is_late)
        self._changes: Counter[int] = Counter()
        self._bound = Bound()
        self._running = self.processes.running
        named = {it: getattr(self, f"_on_{it.name.lower()}") for it in Kind}
        self._handlers: list[Callable[[Process, Call], None]] = [named[Kind(max(it, 1))] for it in range(len(Kind) + 1)]

    @property
    def commands(self) -> list[Command]:
        return self.processes.commands

    def take(self, event: Event) -> bool:
        """One event; false once Ninja has ended."""
        number, call = event
        process = self._running.get(number) or self.processes.of(number, call)
        if process is not None:
            self._handlers[call.kind](process, call)
        return not self.processes.is_over

    def take_all(self, events: Iterable[Event]) -> bool:
        """The events until Ninja has ended; whether it has. Most calls of a build ask in vain for what an equal call
        asked for before: for these it does at once what `take` does."""
        running, handlers, processes = self._running, self._handlers, self.processes
        for number, call in events:
            process = running.get(number) or processes.of(number, call)
            if process is None:
                continue
            place, misses = call.memo, process.misses
            if place is None or misses is None:
                handlers[call.kind](process, call)
                if processes.is_over:
                    return True
                continue
            command = process.command
            footprint = command.footprint if command is not None else None
            if footprint is None:
                continue
            if place in footprint.settled:
                footprint.see(place, MISSING)
            else:
                misses[place] = misses.get(place, 0) | MISSING
        return False

    # processes

    def _on_looked(self, process: Process, call: Call) -> None:
        """What the observer saw at the beginning or the end of a command is nothing that the command did."""

    def _on_spawn(self, parent: Process, call: Call) -> None:
        if call.result > 0:
            child, early = self.processes.spawned(parent, call)
            for it in early:
                self._handlers[it.kind](child, it)

    def _on_exec(self, process: Process, call: Call) -> None:
        footprint, way = process.footprint, self._way(process, call)
        if call.result < 0:
            if footprint is not None and way is not None:
                self._failed(process, footprint, way, call)
            return
        self._decide(process)
        process = self.processes.runs(process, call, self._name(process, call))
        footprint, name = process.footprint, process.program
        process.is_searching = SEARCHING.fullmatch(name) is not None
        process.is_ensuring = ensures(name, call.text)
        process.may_ensure = MAY_ENSURE.fullmatch(name) is not None
        process.imports = Imports() if is_python(name) else None
        self._set_misses(process)
        if footprint is None or way is None or process.command is None:
            return
        place, _ = footprint.look(way, READ, True)
        if call.way is None:
            self._load_late(process, footprint, place)

    def _set_misses(self, process: Process) -> None:
        """Where vain questions of the process are noted."""
        footprint = process.footprint
        if footprint is None or process.may_ensure or process.imports is not None:
            process.misses = None
        elif process.is_searching or process.is_ensuring:
            process.misses = footprint.asked_by(process.program, process.is_searching).places
        else:
            process.misses = footprint.looks

    def _name(self, process: Process, call: Call) -> bytes:
        """The name of a program that is run."""
        return (call.path or call.text.split(b"\0")[0]).rpartition(b"/")[2]

    def _load_late(self, process: Process, footprint: Footprint, place: int) -> None:
        """What a program's file says of its interpreter, where the observer does not tell what is loaded."""
        for _ in range(4):
            interpreter, loses_rights = self.resolver.program(self.places.paths[place])
            if loses_rights and process.command is not None:
                process.command.lost_rights = True
                process.flag(Flag.UNRESOLVED, b"execve")
            if not interpreter:
                return
            way = self.resolver.way(process.path(interpreter, -100) or interpreter)
            self._loaded(process, footprint, way)
            place = way.end

    def _loaded(self, process: Process, footprint: Footprint, way: Numbered) -> None:
        footprint.look(way, READ, True)
        name = way.way.entry.rpartition(b"/")[2]
        if is_python(name):
            process.program, process.imports = name, process.imports or Imports()
            process.may_ensure = True
            self._set_misses(process)
        elif not name.startswith(b"ld-") and not name.startswith(b"ld."):
            process.program = name
            process.may_ensure = MAY_ENSURE.fullmatch(name) is not None
            self._set_misses(process)

    def _on_load(self, process: Process, call: Call) -> None:
        footprint, way = process.footprint, self._way(process, call)
        if footprint is not None and way is not None:
            self._loaded(process, footprint, way)

    def _on_exit(self, process: Process, call: Call) -> None:
        self._decide(process)
        self.processes.gone(process.number, call.result)

    def _on_chdir(self, process: Process, call: Call) -> None:
        footprint, way = process.footprint, self._way(process, call)
        if call.result >= 0 and call.way is None:
            process.folders.current = process.path(call.path, call.folder)
        if footprint is None or way is None or (call.way is None and not call.path):
            return
        self._look(process, footprint, way, call, NEEDED)

    def _on_unshare(self, process: Process, call: Call) -> None:
        if call.result >= 0:
            self.processes.unshared(process, call)

    def _on_dup(self, process: Process, call: Call) -> None:
        if call.result >= 0:
            folder = call.folder
            process.note(call.result, process.descriptors.get(folder) if isinstance(folder, int) else folder)

    def _on_no_file(self, process: Process, call: Call) -> None:
        process.note(call.result, None)

    def _on_received(self, process: Process, call: Call) -> None:
        for it in call.text.split():
            process.received(int(it))

    # looks

    def _on_open(self, process: Process, call: Call) -> None:
        flags, footprint = call.flags, process.footprint
        is_unnamed = flags & os.O_TMPFILE == os.O_TMPFILE
        if call.way is None and call.result >= 0:
            process.note(call.result, None if is_unnamed else process.path(call.path, call.folder))
        changes = flags & _CHANGES and not flags & os.O_PATH
        if footprint is None and not changes:
            return  # Ninja's own
        way = self._way(process, call)
        if way is None:
            return
        if call.result < 0:
            if footprint is not None:
                self._failed(process, footprint, way, call)
        elif is_unnamed:
            if footprint is not None:
                footprint.look(way, FOLDER, True)
        elif changes:
            self._open_to_change(process, footprint or self.ninja, way, call)
        elif footprint is not None:
            bit = STATUS if flags & (os.O_DIRECTORY | os.O_PATH) else READ
            self._look(process, footprint, way, call, bit)
            if process.imports is not None:
                self._opened_by_python(process, footprint, way, bool(flags & os.O_DIRECTORY))

    def _opened_by_python(self, process: Process, footprint: Footprint, way: Numbered, is_folder: bool) -> None:
        imports = process.imports
        if imports is not None:
            imports.opened(way.end, self._changes[way.end] if is_folder else 0)

    def _open_to_change(self, process: Process, footprint: Footprint, way: Numbered, call: Call) -> None:
        flags = call.flags
        self._note_opening(way)
        if flags & os.O_EXCL and flags & os.O_CREAT:
            place, standing = footprint.walked(way, False)
            self._made(process, footprint, place, call)
            footprint.write(place, is_made=True)
            return
        place, standing = footprint.walked(way, True)
        if standing in HIDDEN:
            footprint.hidden.add(self.places.paths[place])
            return
        self._late(process, call, place)
        was_there = footprint.was_there(place)
        if call.way is not None and standing in (Standing.FILE, Standing.MISSING) and was_there is None:
            was_there = self.present[place] = standing is Standing.FILE
        if not was_there and flags & os.O_CREAT:
            self._made(process, footprint, place, call)
        self.resolver.wrote(place)
        is_emptied = bool(flags & os.O_TRUNC)
        if flags & os.O_CREAT:
            how = Opening(bool(was_there), bool(flags & (os.O_ACCMODE | os.O_TRUNC)), is_emptied)
            footprint.open_or_make(way, place, process.program, how)
            return
        footprint.write_through(way, not is_emptied)
        if is_emptied:
            footprint.write(place)
        else:
            footprint.edit(place)

    def _made(self, process: Process, footprint: Footprint, place: int, call: Call) -> None:
        """The call makes an entry: it asks for the folder, whose names are others from then on."""
        folder = self.places.folders[place]
        footprint.see(folder, NEEDED)
        self._changes[folder] += 1
        self._late(process, call, place)

    def _late(self, process: Process, call: Call, place: int) -> None:
        if process.command is not None and process.command.end:
            process.flag(Flag.LATE, call.name, self.places.paths[place])

    def _note_opening(self, way: Numbered) -> None:
        """Whether an entry was there when the build began: what stood there before its first change."""
        if self.resolver.is_late:
            return
        for place, standing in ((way.place, way.standing), (way.end, way.end_standing)):
            if place not in self.opening and standing is not Standing.UNASKED:
                self.opening[place] = standing is not Standing.MISSING

    def _on_stat(self, process: Process, call: Call) -> None:
        footprint = process.footprint
        if footprint is None:
            return
        way = self._way(process, call)
        if way is not None:
            self._look(process, footprint, way, call, STATUS)

    def _on_mode(self, process: Process, call: Call) -> None:
        footprint = process.footprint
        way = self._way(process, call) if footprint is not None else None
        if footprint is not None and way is not None:
            self._look(process, footprint, way, call, THERE if call.flags & 1 else MODE)

    def _on_readlink(self, process: Process, call: Call) -> None:
        footprint = process.footprint
        way = self._way(process, call) if footprint is not None else None
        if footprint is not None and way is not None:
            self._look(process, footprint, way, call, THERE)

    def _look(self, process: Process, footprint: Footprint, way: Numbered, call: Call, bit: int) -> None:
        """A call that asks for an entry, and changes nothing."""
        if way.way.process:
            self._of_process(process, way, call)
        follows = not call.flags & os.O_NOFOLLOW
        if call.result < 0:
            self._failed(process, footprint, way, call)
            return
        standing = way.end_standing if follows else way.standing
        is_folder = standing is Standing.FOLDER
        if process.imports is not None:
            self._asked_by_python(process, footprint, way.end if follows else way.place, is_folder)
        if standing is Standing.UNASKED and call.kind is Kind.OPEN and call.flags & os.O_DIRECTORY:
            bit = FOLDER
        if is_folder and (process.is_searching or process.is_ensuring or process.may_ensure):
            self._ask_by_program(process, footprint, way, follows, FOLDER)
            return
        footprint.look(way, bit, follows)

    def _ask_by_program(self, process: Process, footprint: Footprint, way: Numbered, follows: bool, bit: int) -> None:
        place, _ = footprint.walked(way, follows)
        if place in footprint.settled:
            footprint.see(place, bit)
            return
        if process.may_ensure and not process.is_ensuring:
            process.asks[place] = process.asks.get(place, 0) | bit
            return
        footprint.ask_by(process.program, process.is_searching, place, bit)

    def _asked_by_python(self, process: Process, footprint: Footprint, place: int, is_folder: bool) -> None:
        imports = process.imports
        if imports is None:
            return
        decided = imports.decide(place, self.places.folders[place], is_folder)
        if decided is not None:
            footprint.listed(*decided)
        imports.stat(place)

    def _decide(self, process: Process) -> None:
        """What a process asked for is over: a listing that no import followed was its own, and folders that it asked
        for and did not make are looks."""
        footprint = process.footprint
        if footprint is None:
            return
        if process.imports is not None and process.imports.pending is not None:
            footprint.listed(process.imports.pending, False)
            process.imports.pending = None
        if process.asks:
            self._give_asks(process, footprint)

    def _give_asks(self, process: Process, footprint: Footprint) -> None:
        tried: set[int] = set()
        for place in process.tried:
            while place not in tried:
                tried.add(place)
                place = self.places.folders[place]
        for place, bits in process.asks.items():
            if place in tried:
                footprint.ask_by(process.program, False, place, bits)
            elif place in footprint.settled:
                footprint.looks[place] = footprint.looks.get(place, 0) | bits
            else:
                footprint.see(place, bits)
        process.asks = {}

    def _on_list(self, process: Process, call: Call) -> None:
        footprint = process.footprint
        way = self._way(process, call) if footprint is not None else None
        if footprint is None or way is None or call.result < 0:
            return
        if way.end_standing in HIDDEN:
            footprint.hidden.add(self.places.paths[way.end])
            if self.places.paths[way.end] == b"/proc":
                process.flag(Flag.PROC, call.name, b"/proc")
            return
        if process.imports is None or not process.imports.lists(way.end):
            footprint.listed(way.end, False)

    def _of_process(self, process: Process, way: Numbered, call: Call) -> None:
        """What /proc shows of a process: of another command, or of none, it is nothing that a command leaves."""
        other = self._running.get(way.way.process)
        if other is None or other.command is not process.command:
            process.flag(Flag.PROC, call.name, way.way.entry)

    def _way(self, process: Process, call: Call) -> Numbered | None:
        """How the path of a call leads to its entry."""
        if call.way is not None:
            way = call.way.numbered or self.places.numbered(call.way)
            if call.result == -errno.ENOENT and way.is_bare and way.standing is Standing.MISSING and \
                    call.kind in (Kind.OPEN, Kind.STAT, Kind.MODE, Kind.READLINK) and not call.flags & os.O_CREAT:
                call.memo = way.place
            return way
        path = process.path(call.path, call.folder)
        if path is not None and path.startswith(b"/proc/"):
            path = self.processes.of_another(path)
        if path is None:
            if call.path and not path_is_own(call.path) or process.is_received(call.folder):
                process.flag(Flag.UNRESOLVED, call.name)
            return None
        way = self.resolver.way(path)
        if self.resolver.is_late and call.result == -errno.ENOENT and way.end_standing is not Standing.MISSING:
            return self.resolver.absent(path)  # what the disk shows came later
        self.resolver.note_user(way, process)
        return way

    def _other_way(self, process: Process, call: Call) -> Numbered | None:
        if call.other_way is not None:
            return self.places.numbered(call.other_way)
        path = process.path(call.other, call.other_folder) if call.other else None
        return None if path is None else self.resolver.way(path)

    def _failed(self, process: Process, footprint: Footprint, way: Numbered, call: Call) -> None:
        """What a failed call on a path says of it."""
        follows = not call.flags & os.O_NOFOLLOW
        if process.imports is not None:
            self._asked_by_python(process, footprint, way.place, False)
        is_there = call.result == -errno.ENOTDIR and (way.end_standing is Standing.FILE if follows
                                                     else way.standing is Standing.FILE) or \
            call.result == -errno.ENOTDIR and call.kind is Kind.OPEN and call.flags & os.O_DIRECTORY and call.way is None
        if call.result in _NOT_THERE and not is_there:
            if call.flags & os.O_CREAT and call.kind is Kind.OPEN or call.kind in (Kind.MKDIR, Kind.MKNOD, Kind.BIND):
                footprint.miss(way, follows)
                footprint.see(self.places.folders[way.place], WANTED)
            elif process.is_searching or process.is_ensuring or process.may_ensure:
                if way.end_standing in HIDDEN or way.standing is Standing.LINK:
                    footprint.miss(way, follows)
                else:
                    self._ask_by_program(process, footprint, way, follows, MISSING)
            else:
                footprint.miss(way, follows)
        elif call.result in _THERE:
            is_refused = call.result in (-errno.EACCES, -errno.EPERM)
            footprint.look(way, MODE if is_refused and not call.flags & 1 else THERE, follows)

    # changes

    def _changed(self, process: Process, call: Call) -> tuple[Footprint, Numbered] | None:
        """The footprint of a call that changed an entry, and its way; None where it failed, which is noted."""
        footprint = process.footprint
        if call.result < 0:
            if footprint is not None:
                way = self._way(process, call)
                if way is not None:
                    self._failed(process, footprint, way, call)
            return None
        way = self._way(process, call)
        if way is None:
            return None
        self._note_opening(way)
        self._changes[self.places.folders[way.place]] += 1
        return footprint or self.ninja, way

    def _on_unlink(self, process: Process, call: Call) -> None:
        found = self._changed(process, call)
        if found is not None:
            footprint, way = found
            place, standing = footprint.walked(way, False)
            self._late(process, call, place)
            self._gone(place, way, call)
            footprint.remove(place, standing is Standing.LINK)

    def _gone(self, place: int, way: Numbered, call: Call) -> None:
        """A file or a link is no longer at an entry."""
        self.resolver.gone(place)
        self.places.parted(place, bool(_inode_of(way)))
        if call.way is None:
            self.processes.removed(self.places.paths[place])

    def _on_rmdir(self, process: Process, call: Call) -> None:
        footprint = process.footprint
        if call.result in (-errno.ENOTEMPTY, -errno.EEXIST) and footprint is not None:
            way = self._way(process, call)
            if way is not None:
                footprint.look(way, NEEDED, False)
                footprint.listed(way.place, False)
            return
        found = self._changed(process, call)
        if found is not None:
            footprint, way = found
            place, _ = footprint.walked(way, False)
            footprint.see(place, NEEDED)
            footprint.listed(place, False)
            self._late(process, call, place)
            self.resolver.gone(place)
            footprint.remove(place)
            footprint.touched[place].is_folder = True

    def _on_mkdir(self, process: Process, call: Call) -> None:
        footprint, way = process.footprint, self._way(process, call)
        if way is None:
            return
        process.tried.append(way.place)
        is_found = call.result == -errno.EEXIST
        if is_found and way.standing is Standing.FOLDER or is_found and call.way is None:
            self._note_opening(way)
            if footprint is not None:
                place, _ = footprint.walked(way, False)
                if self._is_strict(process):
                    footprint.see(place, NEEDED)
                footprint.find_folder(place)
            return
        found = self._changed(process, call)
        if found is None:
            return
        footprint, way = found
        place, _ = footprint.walked(way, False)
        if self._is_strict(process) and process.command is not None:
            footprint.see(place, WANTED)
        self._made(process, footprint, place, call)
        self.resolver.made(place)
        footprint.make_folder(place)

    def _is_strict(self, process: Process) -> bool:
        """Whether a process that makes a folder learns whether one was there."""
        return not (process.is_ensuring or process.may_ensure)

    def _on_mknod(self, process: Process, call: Call) -> None:
        found = self._changed(process, call)
        if found is not None:
            footprint, way = found
            place, _ = footprint.walked(way, False)
            self._made(process, footprint, place, call)
            footprint.write(place, is_made=True)

    def _on_bind(self, process: Process, call: Call) -> None:
        way = None
        if call.path:
            self._on_mknod(process, call)
            way = self._way(process, call)
        if call.result >= 0 or call.result == -errno.EADDRINUSE:
            self._note_address(process, call, way)

    def _on_truncate(self, process: Process, call: Call) -> None:
        self._edit(process, call, not call.flags & os.O_NOFOLLOW)

    def _on_meta(self, process: Process, call: Call) -> None:
        self._edit(process, call, not call.flags & os.O_NOFOLLOW)

    def _edit(self, process: Process, call: Call, follows: bool) -> None:
        found = self._changed(process, call)
        if found is None:
            return
        footprint, way = found
        place, standing = footprint.walked(way, follows)
        if standing in HIDDEN:
            footprint.hidden.add(self.places.paths[place])
        elif standing is Standing.FOLDER:
            if place not in footprint.settled:
                footprint.see(place, FOLDER)
        else:
            self._late(process, call, place)
            footprint.write_through(way, True)
            footprint.edit(place)

    def _on_symlink(self, process: Process, call: Call) -> None:
        self._make_entry(process, call, call.text)

    def _on_link(self, process: Process, call: Call) -> None:
        footprint = process.footprint
        if call.path and footprint is not None:
            way = self._way(process, call)
            if way is not None and way.standing in HIDDEN and way.end_standing is Standing.MISSING:
                pass  # a file without a name gets one
            elif way is not None and call.result >= 0:
                place, _ = footprint.look(way, READ, not call.flags & os.O_NOFOLLOW)
                other = self._other_way(process, call)
                if other is not None and other.place != place:
                    is_new = not self.opening.get(other.place, other.place in self.present)
                    self.places.join(place, other.place, is_new)
            elif way is not None and call.result in _NOT_THERE and way.standing is Standing.MISSING:
                self._failed(process, footprint, way, call)
        self._make_entry(process, call, None)

    def _make_entry(self, process: Process, call: Call, text: bytes | None) -> None:
        """A link was made where nothing was, or something stands there already."""
        footprint, way = process.footprint, self._other_way(process, call)
        if way is None:
            return
        if call.result == -errno.EEXIST:
            if footprint is not None:
                footprint.look(way, THERE, False)
        elif call.result >= 0:
            footprint = footprint or self.ninja
            self._note_opening(way)
            place, _ = footprint.walked(way, False)
            self._made(process, footprint, place, call)
            self.resolver.linked(place, text)
            footprint.write(place, is_made=True, text=text)
        elif call.result in _NOT_THERE and footprint is not None:
            footprint.see(self.places.folders[way.place], WANTED)

    def _on_rename(self, process: Process, call: Call) -> None:
        found, other_way = self._changed(process, call), self._other_way(process, call)
        if found is None or other_way is None:
            return
        footprint, way = found
        self._note_opening(other_way)
        place, standing = footprint.walked(way, False)
        other, _ = footprint.walked(other_way, False)
        if place == other:
            return
        if self.places.are_one(way, other_way):  # two names of one file: the call does nothing
            footprint.see(place, THERE)
            footprint.see(other, THERE)
            return
        self._made(process, footprint, other, call)
        own = footprint.touched.get(place)
        if standing is Standing.FOLDER or own is not None and own.is_folder or \
                call.way is None and self.resolver.is_folder(place, other):
            self.resolver.renamed(place, other)
            below = _below(self.places.paths[other]) if call.way is None else process.moved
            self._rename_folder(process, footprint, place, other, below)
            process.moved = []
            return
        self._moved(place, other, way)
        text = own.text if own is not None else _text_at(way) if standing is Standing.LINK else None
        if standing is Standing.LINK:
            footprint.look(way, READ, False)
        else:
            footprint.see(place, READ)
        footprint.remove(place, standing is Standing.LINK)
        if footprint.walked(other_way, False)[1] is Standing.LINK:
            footprint.note_link(other)
        footprint.write(other, text=text)
        self.resolver.renamed(place, other)
        if call.way is None:
            self.processes.removed(self.places.paths[other])
            self.processes.renamed(self.places.paths[place], self.places.paths[other])

    def _moved(self, place: int, other: int, way: Numbered | None = None) -> None:
        """A file got another name; `way` led to it."""
        is_new = not self.opening.get(other, other in self.present)
        self.places.moved(place, other, _inode_of(way) if way is not None else b"", is_new)

    def _on_moved(self, process: Process, call: Call) -> None:
        way = self._way(process, call)
        if way is not None:
            text = _text_at(way) if way.standing is Standing.LINK else None
            process.moved.append((self.places.paths[way.place], way.standing is Standing.FOLDER, text))

    def _rename_folder(self, process: Process, footprint: Footprint, place: int, other: int,
                       its: Iterable[Moved]) -> None:
        """Each file in the folder is taken away and made: those of the command, and those that stand below it now."""
        paths = self.places.paths
        old, new = paths[place] + b"/", paths[other] + b"/"
        self.processes.renamed(paths[place], paths[other])
        footprint.see(place, FOLDER)
        footprint.see(other, WANTED)
        for it in footprint.below(old):
            mine = footprint.touched[it]
            is_folder, text = mine.is_folder, mine.text
            footprint.remove(it)
            moved = self.places.number(new + paths[it][len(old) :])
            self._moved(it, moved)
            _make(footprint, moved, is_folder, text)
        for count, (real, is_folder, text) in enumerate(its):
            it = self.places.number(real)
            if count >= _MOST_MOVED:
                process.flag(Flag.UNRESOLVED, b"rename", paths[other])
                break
            if it not in footprint.touched:
                before = self.places.number(old + real[len(new) :])
                footprint.see(before, FOLDER if is_folder else READ)
                self._moved(before, it)
                footprint.remove(before)
                footprint.touched[before].is_folder = is_folder
                _make(footprint, it, is_folder, text)
        footprint.remove(place)
        footprint.touched[place].is_folder = True
        footprint.make_folder(other, is_moved=True)

    def _on_exchange(self, process: Process, call: Call) -> None:
        found, other_way = self._changed(process, call), self._other_way(process, call)
        if found is None or other_way is None:
            return
        footprint, way = found
        for its in (way, other_way):
            place, standing = footprint.walked(its, False)
            self._note_opening(its)
            if standing is Standing.FOLDER:
                process.flag(Flag.UNRESOLVED, call.name, self.places.paths[place])
            self._gone(place, its, call)
            footprint.see(place, READ)
            footprint.write(place)
            if Standing.LINK in (way.standing, other_way.standing):
                footprint.note_link(place)

    # what stands for a part of what is read and written

    def _on_socket(self, process: Process, call: Call) -> None:
        way, footprint = self._way(process, call) if call.path else None, process.footprint
        if way is not None and footprint is not None:
            if call.result in _NOT_THERE:
                self._failed(process, footprint, way, call)
                return
            footprint.look(way, THERE, True)
        self._note_address(process, call, way)

    def _note_address(self, process: Process, call: Call, way: Numbered | None) -> None:
        if process.command is not None and call.text:
            place = None if way is None else way.end
            text = call.text if place is None else self.places.paths[place]
            is_answered = call.result >= 0 or call.result == -errno.EINPROGRESS
            address = Address(call.kind is Kind.BIND, text, call.name, process.program, place, is_answered)
            self._bound.used(process.command, address)

    def _on_ipc(self, process: Process, call: Call) -> None:
        if call.result >= 0 or call.result in (-errno.ENOENT, -errno.EEXIST):
            process.flag(Flag.IPC, call.name, call.text)

    def _on_lock(self, process: Process, call: Call) -> None:
        way = self._way(process, call)
        if process.command is not None and way is not None and way.end_standing is not Standing.OF_KERNEL:
            process.command.locks[way.end] = call.name, process.program

    def _on_signal(self, process: Process, call: Call) -> None:
        command = process.command
        if command is None or call.result < 0:
            return
        number = abs(int(call.text or b"0"))
        if number <= 1 or number not in command.members:
            process.flag(Flag.UNKNOWN, call.name, call.text)

    def _flags_path(self, process: Process, call: Call, flag: Flag) -> None:
        if call.result >= 0:
            process.flag(flag, call.name, call.way.entry if call.way is not None else call.text)

    def _on_attributes(self, process: Process, call: Call) -> None:
        self._flags_path(process, call, Flag.ATTRIBUTES)

    def _on_notified(self, process: Process, call: Call) -> None:
        self._flags_path(process, call, Flag.NOTIFIED)

    def _on_uring(self, process: Process, call: Call) -> None:
        self._flags_path(process, call, Flag.URING)

    def _on_unresolved(self, process: Process, call: Call) -> None:
        self._flags_path(process, call, Flag.UNRESOLVED)

    def _on_deep(self, process: Process, call: Call) -> None:
        self._flags_path(process, call, Flag.DEEP)

    def _on_unknown(self, process: Process, call: Call) -> None:
        self._flags_path(process, call, Flag.UNKNOWN)

    def _on_namespace(self, process: Process, call: Call) -> None:
        if call.result < 0:
            return
        process.flag(Flag.NAMESPACE, call.name)
        if call.name in _MOUNTS and not process.is_elsewhere:
            self.processes.mounted(call.name)
        process.is_elsewhere = True
        root = process.path(call.path, call.folder) if call.path else None
        if root is not None:
            process.folders.root = self.places.paths[self.resolver.way(root).end]

    def _on_trace(self, process: Process, call: Call) -> None:
        if call.result < 0 and process.command is not None:
            process.command.wanted_trace = True


def _make(footprint: Footprint, place: int, is_folder: bool, text: bytes | None) -> None:
    """The command made a file, a link or a folder there."""
    if is_folder:
        footprint.make_folder(place, is_moved=True)
    else:
        footprint.write(place, text=text)


def _inode_of(way: Numbered) -> bytes:
    """What names the file at the last name of a way, where it has several names."""
    return way.way.inode if way.standing is Standing.FILE else b""


def _text_at(way: Numbered) -> bytes | None:
    """The text of the link at the last name of a way."""
    return way.ends[0][1] if way.ends else None


def _below(folder: bytes) -> Iterator[Moved]:
    """The real paths below a folder, as the disk shows them, whether each is a folder, and the text of each link."""
    todo = [folder]
    while todo:
        above = todo.pop()
        try:
            with os.scandir(above) as entries:
                found = [(it.path, it.is_dir(follow_symlinks=False), os.readlink(it.path) if it.is_symlink() else None)
                         for it in entries]
        except OSError:
            continue
        yield from found
        todo += [path for path, is_folder, _ in found if is_folder]
