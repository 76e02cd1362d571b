"""A recording's observation from before Ninja starts until its file is written.

The observer writes its log into a pipe, and a thread reads it as it comes, so it is kept nowhere. Where processes live
on after Ninja, their observer does too: what it still writes is read by a process that is left behind, since an
observer whose log cannot be written would end, and break the commands that it observes.
"""

from __future__ import annotations

import contextlib
import io
import os
import select
import subprocess
import threading
import time
from collections.abc import Iterator
from typing import Any, BinaryIO

from ..fields import shown
from ..folders import OPTIONAL
from ..held import HeldFolder
from ..contents.contents import FILE as CONTENTS, Contents, Names as OfBuild
from ..other_names import in_order, outputs_in_order
from .before import Preparing
from .caches import Caches, known_folders
from .calls import Observer
from .effects import Build
from .filters import NINJA_LOGS, default_filters
from .footprints import Packed
from .log_pipe import BUFFER, LogPipe
from .matching import match, text_of
from .naming import Names, source_folders
from .places import Places
from .processes import Command
from .servers import servers
from .shares import Changes, flag_what_two_share
from .version_2 import Blocks, Head, Version2
from .writing import Observed

VERSION = int(os.environ.get("REBUG_OBSERVED_VERSION", "2"))
"""The version of the file that is written. The environment's variable is for tests alone."""

OBSERVED, LOG, FILTERS = OPTIONAL[:3]
"""The names of the files in a recording: what was observed, the observer's log where that is kept, and the places of
which no observed conflict is to be told."""

_NAMED = 5
_LOG_ENDS_WITHIN = 0.5
_POLL_MILLISECONDS = 50


class Unobserved:
    """Stands in for an observation where a build is not observed."""

    def __enter__(self) -> Unobserved:
        return self

    def __exit__(self, *_: Any) -> None:
        pass

    def words(self, ninja: list[Any]) -> list[Any]:
        """The words that run Ninja."""
        return ninja

    def end(self) -> None:
        """There is nothing to wait for."""

    def write(self, recording: Any, after: Any, folder: HeldFolder) -> None:
        """There is nothing to write."""


class Observation:
    """Observes one run of Ninja. Used by `with`, which leaves no file behind. `makes_folders_of_depfiles`: as this
    Ninja does."""

    def __init__(self, observer: Observer, build: bytes, manifest: Any, keep_log: BinaryIO | None = None,
                 with_contents: bool = False, makes_folders_of_depfiles: bool = False) -> None:
        self.observer, self.manifest, self.folder = observer, manifest, os.path.realpath(build)
        self.places = Places()
        self._preparing = Preparing(self.places, self.folder, makes_folders_of_depfiles)
        self._preparing.begin(manifest.edges)
        self._missing: set[int] = set()
        self.texts = {text_of(it) for it in manifest.edges if not it.phony}
        self.build = Build(self.texts, self.folder, self.places, self._present(), observer.is_late)
        self.contents = Contents(self.build.processes, self.places) if with_contents else None
        self.notes: list[str] = []
        self.seconds = 0.0
        self._pipe = LogPipe()
        self._reader = self._pipe.reader
        self._ninjas: Packed | None = None
        self._copy = keep_log
        self._thread = threading.Thread(target=self._read, daemon=True)

    def __enter__(self) -> Observation:
        self._thread.start()
        return self

    def __exit__(self, *_: Any) -> None:
        self._pipe.close()
        if self._copy is not None:
            with contextlib.suppress(OSError):
                self._copy.close()

    def _present(self) -> dict[int, bool]:
        """Of the places that edges make, whether they are there."""
        found = {}
        for edge in self.manifest.edges:
            for path in edge.outputs if not edge.phony else ():
                real = os.path.join(self.folder, path)
                place = self.places.of(real)
                found[place] = os.path.lexists(real)
            for path in self._preparing.made_for(edge) if not edge.phony else ():
                self._note_missing(self.places.of(os.path.join(self.folder, path)))
        return found

    def _note_missing(self, place: int) -> None:
        """The folders above a file that are missing: Ninja is to make them."""
        folders, paths = self.places.folders, self.places.paths
        above = folders[place]
        while above not in self._missing and not os.path.lexists(paths[above] or b"/"):
            self._missing.add(above)
            above = folders[above]

    def words(self, ninja: list[Any]) -> list[bytes]:
        """The words that run Ninja observed."""
        return self.observer.words(self._pipe.path, [os.fsencode(it) for it in ninja])

    def end(self) -> None:
        """Waits until all that was written of Ninja's run is read."""
        self._pipe.end()
        self._thread.join()

    def _read(self) -> None:
        log = self._pipe.log(self._copy)
        try:
            events = self.observer.events(io.BufferedReader(log, BUFFER))
            if not self.build.take_all(events if self.contents is None else self.contents.events(events)):
                self.notes.append("the observer ended before Ninja did: what came after that was not observed")
        except Exception as why:  # the build goes on; what was seen until then is told
            self.notes.append(f"a fault of the recorder while it read what was observed, {type(why).__name__}: {why}")
        self.build.processes.finish()
        self.seconds = time.thread_time()
        if log.fault:
            self.notes.append(f"the observer's log could not be kept whole: {log.fault}")
        self._leave_log()

    def _leave_log(self) -> None:
        """Lets the observer of what lives on after Ninja write on. Mostly nothing does, and the log ends at once."""
        poll, until = select.poll(), time.monotonic() + _LOG_ENDS_WITHIN
        poll.register(self._reader, select.POLLIN)
        while time.monotonic() < until:
            events = poll.poll(_POLL_MILLISECONDS)
            if events and not os.read(self._reader, BUFFER):
                os.close(self._reader)
                return
        with contextlib.suppress(OSError):
            subprocess.Popen(["/bin/sh", "-c", "exec cat >/dev/null"], stdin=self._reader, stdout=subprocess.DEVNULL,
                             stderr=subprocess.DEVNULL, start_new_session=True, cwd="/")
        os.close(self._reader)

    def write(self, recording: Any, after: Any, folder: HeldFolder) -> None:
        """Writes the file into the folder of the recording, whose notes and remarks say what is not whole."""
        edges = self.manifest.edges
        pairs, left = match(self.build.commands, edges, recording.runs)
        outputs = outputs_in_order(self.manifest)
        sources = source_folders(self.folder, self.manifest)
        names = Names(self.places, self.folder, sources, in_order(after.stamps), outputs)
        changes = self._changes(pairs, names)
        flag_what_two_share([it for _, it in pairs], changes)
        observed = Observed(pairs, self.places, names)
        with folder.create(OBSERVED) as file:
            if self.contents is not None:
                named = self._write_contents(folder, file, self._version_2(pairs, names, changes), sources)
            elif VERSION == 1:
                named = observed.write(file, self.observer.name)
            else:
                named = self._version_2(pairs, names, changes).write(file)
        logs = observed.inner_logs()
        with folder.create(FILTERS) as file:
            file.write(default_filters(self.folder, sources, named, logs=logs))
        recording.notes += [*self.notes, *_of_inner_ninjas(logs), *self._notes(pairs, recording.runs)]
        recording.remarks.append(f"{len(pairs)} commands were observed, with {self.build.processes.count:,} processes; "
                                 f"reading that took {self.seconds:.2f} s of processor time")
        if self.contents is not None:
            recording.remarks.append(self.contents.remark())
        recording.notes += _of_servers(pairs, names, self.places)
        if left:
            recording.remarks.append(f"{len(left)} commands were observed of which no edge could be told")

    def _write_contents(self, folder: HeldFolder, file: BinaryIO, told: Version2, sources: list[bytes]) -> list[bytes]:
        """Writes `observed`, and `contents` beside it, which goes with it alone; gives the paths that `observed` names."""
        assert self.contents is not None
        text = io.BytesIO()
        named = told.write(text)
        file.write(text.getbuffer())
        digest = text.getvalue().rpartition(b" ")[2].strip()
        with folder.create(CONTENTS) as other:
            self.contents.write(other, told, self._ninja(), OfBuild(self.folder, sources, digest))
        return named

    def _changes(self, pairs: list[tuple[Any, Command]], names: Names) -> Changes:
        """What the commands, and Ninja, change, and what the manifest declares."""
        packed = [it.packed for it in self.build.commands if it.packed is not None]
        others = [path for edge in self.manifest.edges if not edge.phony for path in (edge.rspfile, edge.depfile) if path]
        declared = {*names.outputs, *(self.places.of(os.path.join(self.folder, it)) for it in others)}
        declared |= self._missing
        return Changes([self._ninja(), *packed], self.places, declared, self.build.opening)

    def _ninja(self) -> Packed:
        """What Ninja itself changed."""
        if self._ninjas is None:
            self._ninjas = self.build.ninja.pack()
        return self._ninjas

    def _version_2(self, pairs: list[tuple[Any, Command]], names: Names, changes: Changes) -> Version2:
        """The text of version 2."""
        blocks = Blocks(changes, names, self.places, Caches(self.places, known_folders()))
        own_files = tuple(self.places.of(self.folder + b"/" + it) for it in (b".ninja_log", b".ninja_deps"))
        head = Head(self.observer.name, self.observer.release, self.observer.machine, self.build.opening, own_files)
        return Version2(pairs, self._ninja(), blocks, head, self._preparing)

    def _notes(self, pairs: list[tuple[Any, Command]], runs: list[Any]) -> Iterator[str]:
        """What the user is told: what was not observed whole, and what the commands could not do."""
        seen = {edge.number for edge, _ in pairs}
        unseen = [it.edge.name for it in runs if it.edge.number not in seen]
        if unseen:
            yield f"{len(unseen)} commands ran and were not observed: {_some(unseen)}"
        words = [(edge.name, sorted(it.whole.words_in(VERSION))) for edge, it in pairs]
        flagged = [name + b" (" + " ".join(its).encode() + b")" for name, its in words if its]
        if flagged:
            yield f"{len(flagged)} of {len(pairs)} commands were not observed whole: {_some(flagged)}"
        traced = [edge.name for edge, it in pairs if it.wanted_trace]
        if traced:
            yield (f"{len(traced)} commands asked to trace a process, which none can while it is observed: "
                   f"{_some(traced)}. A leak sanitizer fails so; LSAN_OPTIONS=detect_leaks=0 in the environment turns "
                   f"it off")
        weak = [edge.name for edge, it in pairs if it.lost_rights]
        if weak:
            yield (f"{len(weak)} commands ran a program with the rights of another user, which it does not get while "
                   f"it is observed: {_some(weak)}")
        if self.observer.unread:
            yield f"{self.observer.unread} records of the observer were not understood"


def _of_inner_ninjas(logs: dict[bytes, list[Any]]) -> Iterator[str]:
    """What the user is told of each Ninja that commands of the build run, by its log."""
    for log, edges in logs.items():
        if log.endswith(NINJA_LOGS[0]):
            runs = "1 command runs" if len(edges) == 1 else f"{len(edges)} commands run"
            yield (f"{runs} a Ninja that writes {shown(log)}: {_some([it.name for it in edges])}. What its commands do "
                   f"is taken to be done by these, and no finding is about its logs")


def _of_servers(pairs: list[tuple[Any, Command]], names: Names, places: Places) -> Iterator[str]:
    """What the user is told of each server: its address, who started it, and who spoke to it."""
    found = list(servers([it for _, it in pairs]))
    for it in found[:_NAMED]:
        known = places.known(it.address) if it.address.startswith(b"/") else None
        address = shown(it.address if known is None else names.of(known))
        starters = _some([pairs[number][0].name for number in sorted(it.starters)])
        users = [pairs[number][0].name for number in sorted(it.users)]
        whose = f"that {starters} started" if starters else "that no command of this build started"
        many = "1 command" if len(users) == 1 else f"{len(users)} commands"
        yield (f"{many} spoke to a server {whose}, at {address}: {_some(users)}. What that server reads and writes for "
               f"them is not seen to be theirs")
    if len(found) > _NAMED:
        yield f"and to {len(found) - _NAMED} more servers"


def _some(names: list[bytes]) -> str:
    more = f" and {len(names) - _NAMED} more" if len(names) > _NAMED else ""
    return ", ".join(shown(it) for it in names[:_NAMED]) + more
