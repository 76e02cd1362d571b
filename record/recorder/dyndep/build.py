"""The dyndep files of one recorded build: which of them Ninja loaded, and the manifest and the opening by them."""

from __future__ import annotations

import os
import time
from dataclasses import dataclass, field, replace
from typing import Any, Iterable, Optional

from ..disk import Snapshot, built_records, deps_records, stamp_of, stand_in
from ..fields import canonical, shown
from ..logs import BuildLog, LogEntry, new_entries, open_build_log
from ..manifest import Edge, Manifest
from ..ninja import Ninja
from ..rules import IDLE, Build
from ..said import Failed
from .contents import Contents, contents_of, told_paths
from .kept import Kept
from .looking import Look, Looked
from .orders import Orders, decided
from .reading import BadDyndep, Unresolvable
from .resolving import Resolving, files_of

_NANOSECONDS = 1_000_000
_NAMED = 3
# Ninja's own reasons for a stop, in the words that follow "build stopped: "; any other one is that of a load.
_NO_LOADS = (b"subcommand", b"cannot make progress", b"interrupted", b"stuck")
_TOLERATES_MISSING_INPUTS = (1, 12)


@dataclass
class Late:
    """How the opening differs from what was there before the build, since Ninja looked at it later."""

    built: dict[bytes, Optional[tuple[int, bytes]]] = field(default_factory=dict)
    stamps: dict[bytes, int] = field(default_factory=dict)


@dataclass
class Resolved:
    """What is recorded: the resolved manifest, what is kept beside it, how the opening differs, and notes."""

    manifest: Manifest
    kept: Kept
    late: Late
    notes: list[str]


class _Ended:
    """What ran in this build, as far as the log, Ninja's output and its children show."""

    def __init__(self, folder: bytes, manifest: Manifest, ninja: Ninja, before: Snapshot, ran: Any) -> None:
        self.ran, self.folder, self.before = ran, folder, before
        log = ninja.as_read(open_build_log(os.path.join(folder, manifest.log_folder(), b".ninja_log")))
        self.entries: dict[bytes, LogEntry] = {canonical(it.output): it for it in new_entries(before.log, log)}
        self.failed = {it.edge.number for it in ran.failed}
        self.commands = {it.words[2] if it.words[1:2] == [b"-c"] and len(it.words) == 3 else b" ".join(it.words)
                         for it in ran.children}

    def well(self, edge: Edge) -> bool:
        """Whether the log has the edge as run."""
        return any(it in self.entries for it in edge.outputs)

    def is_seen(self, edge: Edge) -> bool:
        """Whether its command was seen running."""
        return edge.ninja_command.split(b";rspfile=")[0] in self.commands

    def has_run(self, edge: Edge) -> bool:
        """Whether its command began, as far as that is known."""
        return self.well(edge) or edge.number in self.failed or bool(self.ran.interrupted) and self.is_seen(edge)

    def has_changed(self, edge: Edge) -> bool:
        """Whether an output of it has another stamp than before."""
        return any(self.before.stamps.get(it, 0) != stamp_of(self.folder, it) for it in edge.outputs)


class Dyndeps:
    """The dyndep files of a manifest in a build folder, from before the build on."""

    def __init__(self, folder: bytes, manifest: Manifest) -> None:
        self.folder, self.manifest = folder, manifest
        self.resolving = Resolving(manifest)
        self.contents = contents_of(folder, self.resolving.files)
        self.outputs, self.inputs = told_paths(self.contents)

    @staticmethod
    def of(folder: bytes, manifest: Manifest) -> Optional[Dyndeps]:
        """Those of a build folder; None where the manifest names none."""
        return Dyndeps(folder, manifest) if files_of(manifest) else None

    def more_paths(self) -> set[bytes]:
        """The paths that the files say something of now."""
        return self.outputs | self.inputs

    def by_present_files(self) -> Manifest:
        """The manifest by all files that can be loaded, whether Ninja loaded them or not."""
        self._load_present(Kept(self.manifest))
        return self.resolving.finish()

    def by_logs(self, entries: Iterable[LogEntry]) -> tuple[Manifest, Kept]:
        """The manifest by all files that can be loaded, as far as the lines of a log do not show that a file said
        something else when the command ran."""
        kept = Kept(self.manifest)
        kept.notes.append("Ninja's logs do not say which dyndep files were loaded: each that can be loaded counts as "
                          "loaded, with what it has now")
        self._load_present(kept)
        self._leave_out_unlogged(kept, entries)
        self._unload_circles(kept)
        return self.resolving.finish(), kept

    def _load_present(self, kept: Kept) -> None:
        for path in self.resolving.files:
            try:
                self.resolving.load(path, self.contents[path])
                kept.loaded[path] = self.contents[path] or b"", False
            except (BadDyndep, Unresolvable) as why:
                kept.not_load(path, str(why))

    def _leave_out_unlogged(self, kept: Kept, entries: Iterable[LogEntry]) -> None:
        """Ninja logs all outputs of a command that ran, also those that a file says which it had loaded. So what the
        log lacks was not said then, unless the file was made again since, and the command was not."""
        wanted = {path for it in self.resolving.told for path in self.resolving.manifest.edges[it].outputs}
        wanted.update(self.resolving.files)
        named = ((canonical(it.output), place) for place, it in enumerate(entries))
        last = {path: place for path, place in named if path in wanted}
        for number, told in list(self.resolving.told.items()):
            edge, own = self.resolving.manifest.edges[number], self.manifest.edges[number]
            file = self.resolving.file_of[number]
            ran = max((last.get(it, -1) for it in own.outputs), default=-1)
            unlogged = {it for it in told.outputs if it not in last} if ran > last.get(file, -1) else set[bytes]()
            if unlogged:
                self.resolving.leave_out(number, set(), unlogged)
                kept.left_out += [(number, path, True) for path in sorted(unlogged)]
                kept.notes.append(f"Ninja's log has {shown(edge.name)} as made, and not {shown(min(unlogged))}, which "
                                  f"the dyndep file {shown(file)} now says it makes: the file was written again since, "
                                  f"and the recording leaves that output out")

    def _unload_circles(self, kept: Kept) -> None:
        """Takes away what files say by which edges need themselves: with these files Ninja ran none of the edges."""
        while True:
            build = Build(self.resolving.manifest)
            circle = _circle(build, build.in_order(build.edges)[1])
            files = {self.resolving.file_of[it]: it for it in circle if it in self.resolving.told}
            if not files:
                return
            for path, number in files.items():
                self.resolving.unload(path)
                del kept.loaded[path]
                kept.not_load(path, f"{shown(build.edges[number].name)} would need itself")

    def resolved(self, ninja: Ninja, targets: list[bytes], before: Snapshot, ran: Any, status: int,
                 anyway: bool) -> Resolved:
        """The manifest by the files that Ninja loaded in this build. Raises Unresolvable where nothing can be
        recorded."""
        after = contents_of(self.folder, self.resolving.files)
        ended = _Ended(self.folder, self.manifest, ninja, before, ran)
        notes = self._note_failed_load(ended, status)
        self.outputs |= told_paths(after)[0]
        build = self._build(ninja, before)
        has_loaded = self._recorder(ninja, before, build)
        look = Look(self.resolving, build, self._content(after, ended), self.outputs, has_loaded)
        look.at_targets(targets)
        if look.found.failed is None:
            look.at_end_of(self._made_now(look.found, ended, status))
        self._look_for_written_again(look.found, ended, before, ninja)
        found, late = self._orders(look, ended, ninja, anyway), self._late(look, before, build)
        missing, more = self._leave_out_missing(ninja, late)
        notes += found.notes + more + self._late_notes(look, late, before)
        kept = Kept(self.manifest, {path: (content, path in look.found.late) for path, content in
                                    self.resolving.loaded.items()}, self._not_loaded(look.found),
                    found.left_out + missing)
        manifest = self.resolving.finish()
        left = Build(manifest).in_order(manifest.edges)[1]
        if left:
            raise Unresolvable(f"by what dyndep files say {shown(left[0].name)} needs itself, or stands on edges that "
                               f"do, and rebug takes no such manifest (41)")
        ran.failed = [replace(it, edge=manifest.edges[it.edge.number]) for it in ran.failed]
        kept.notes = notes
        return Resolved(manifest, kept, late, notes)

    # The look.

    def _build(self, ninja: Ninja, before: Snapshot) -> Build:
        manifest = self.resolving.manifest
        return Build(manifest, 1, before.stamps, built_records(manifest, before.log, ninja.hash_in(before.log),
                                                               before.changed), deps_records(manifest, before))

    def _recorder(self, ninja: Ninja, before: Snapshot, build: Build) -> Any:
        """Gives outputs the log's records of them, once a load says what makes them."""
        entries = {canonical(it.output): it for it in before.log.entries if canonical(it.output) in self.outputs}
        hash_of = ninja.hash_in(before.log)

        def has_loaded(file: bytes) -> None:
            for number in self.resolving.files[file]:
                edge = self.resolving.manifest.edges[number]
                for path in self.resolving.told[number].outputs:
                    if path in entries:
                        entry = entries[path]
                        is_same = hash_of(edge.ninja_command) == entry.hash if hash_of else path not in before.changed
                        build.built[path] = entry.stamp, edge.command if is_same else stand_in(entry.hash)

        return has_loaded

    def _content(self, after: Contents, ended: _Ended) -> Any:
        """What a file had when Ninja loaded it."""
        def content(file: bytes) -> Optional[bytes]:
            maker = self.resolving.manifest.producer.get(file)
            return after[file] if maker is not None and ended.well(maker) else self.contents[file]

        return content

    def _made_now(self, looked: Looked, ended: _Ended, status: int) -> list[bytes]:
        """The files that were loaded while the build ran, those that were made in it by the time of that."""
        known: list[tuple[float, bytes]] = []
        for file, users in self.resolving.files.items():
            maker = self.resolving.manifest.producer.get(file)
            if maker is None or not self.resolving.is_pending(file):
                continue
            ends = [ended.entries[it].end for it in maker.outputs if it in ended.entries]
            mark = looked.marks.get(maker.number)
            has_user_run = any(ended.has_run(self.resolving.manifest.edges[it]) for it in users)
            if ends:
                known.append((max(ends), file))
            elif maker.number not in ended.failed and (has_user_run or not status and mark not in (None, IDLE)):
                known.append((float("inf"), file))
        return [file for _, file in sorted(known, key=lambda it: it[0])]

    # What cannot be recorded.

    def _note_failed_load(self, ended: _Ended, status: int) -> list[str]:
        """Where a load ended the build, the log lacks the command that made the file, and those that ran then."""
        stopped = ended.ran.said.stopped if ended.ran.said else b""
        if not status or not stopped or stopped.startswith(_NO_LOADS):
            return []
        notes = []
        makers = {it.number: it for it in map(self.manifest.producer.get, self.resolving.files) if it is not None}
        for edge in makers.values():
            if not ended.has_run(edge) and (ended.is_seen(edge) or ended.has_changed(edge)):
                ended.ran.failed.append(Failed(edge, None, None, time.time_ns()))
                ended.failed.add(edge.number)
                notes.append(f"Ninja could not load what {shown(edge.name)} wrote, and stopped: {shown(stopped)}. Its "
                             f"log does not have that command, so it stands as failed")
        if any(not it.phony and ended.is_seen(it) and not ended.has_run(it) for it in self.manifest.edges):
            ended.ran.load_stopped = True
        return notes

    def _look_for_written_again(self, looked: Looked, ended: _Ended, before: Snapshot, ninja: Ninja) -> None:
        """What a file said at its load is not known where it was written again later."""
        producer = self.resolving.manifest.producer
        for path in ended.entries:
            edge = producer.get(path)
            if edge is None and (path in self.outputs or looked.late):
                raise Unresolvable(f"Ninja's log has {shown(path)} as made now, and no loaded dyndep file says so: a "
                                   f"file was written again after Ninja had loaded it")
            if edge is not None and not edge.phony and edge.number in self.resolving.told:
                missing = [it for it in edge.outputs if it not in ended.entries]
                if missing:
                    raise Unresolvable(f"Ninja's log does not have {shown(missing[0])} as made now, and has "
                                       f"{shown(path)}: a dyndep file was written again after Ninja had loaded it")
        for path in looked.late:
            maker = producer.get(path)
            entry = ended.entries.get(path)
            if maker is None or entry is None or not ninja.stamps_are_of_outputs or maker.restat:
                continue
            if stamp_of(self.folder, path) > entry.stamp:
                raise Unresolvable(f"{shown(path)} was written again after Ninja had loaded it, so what it said then "
                                   f"is not known")

    def _orders(self, look: Look, ended: _Ended, ninja: Ninja, anyway: bool) -> Orders:
        """Leaves out what Ninja did not know. Raises Unresolvable where an order that it does not keep mattered."""
        edges = self.resolving.manifest.edges
        found = decided(look.found, self.resolving, [ended.has_run(it) for it in edges], ninja)
        if found.unordered and not anyway:
            raise Unresolvable("; ".join(found.unordered[:_NAMED]) + ". That is a race of the manifest's own, and "
                               "rebug would take the order for certain (--anyway records it without that order)")
        found.leave_out(self.resolving)
        return found

    def _leave_out_missing(self, ninja: Ninja, late: Late) -> tuple[list[tuple[int, bytes, bool]], list[str]]:
        """Ninja from 1.12 on takes an input that nothing makes and that is not there, where a dyndep file alone says
        it: the edge then runs each time. Gives what is left out, and notes."""
        left_out: list[tuple[int, bytes, bool]] = []
        notes: list[str] = []
        if ninja.version < _TOLERATES_MISSING_INPUTS:
            return left_out, notes
        known: Optional[dict[bytes, None]] = None
        for number, told in list(self.resolving.told.items()):
            missing = {it for it in told.inputs if it not in self.resolving.manifest.producer
                       and not stamp_of(self.folder, it)}
            known = self.manifest.known_paths() if missing and known is None else known
            missing = {it for it in missing if it not in (known or ())}
            if missing:
                edge = self.resolving.manifest.edges[number]
                self.resolving.leave_out(number, missing, set())
                left_out += [(number, path, False) for path in sorted(missing)]
                late.built.update(dict.fromkeys(edge.outputs))
                notes.append(f"{shown(edge.name)} has the input {shown(min(missing))} by its dyndep file, which is not "
                             f"there and which nothing makes: Ninja runs it each time, and the recording leaves the "
                             f"input out")
        return left_out, notes

    # The opening.

    def _late(self, look: Look, before: Snapshot, build: Build) -> Late:
        """Records of outputs that Ninja planned before it knew of their `restat`, and stamps of sources that it looked
        at only once a file was loaded. Of an output that only the file says, Ninja knew the `restat` with the output."""
        late = Late()
        for number in self._restat_told_late(look.found):
            edge = self.manifest.edges[number]  # without what the file says: its outputs and inputs were not known yet
            newest = build.newest(edge)
            for path in edge.outputs:
                record = build.built.get(path)
                if record and build.stamps.get(path, 0) < newest <= record[0]:
                    late.built[path] = build.stamps.get(path, 0), record[1]
        for path in look.sources_looked_at_late():
            stamp = stamp_of(self.folder, path)
            if before.stamps.get(path, 0) != stamp:
                late.stamps[path] = stamp
        return late

    def _restat_told_late(self, looked: Looked) -> list[int]:
        """The edges that Ninja looked at before it loaded the file that says their `restat`."""
        return [number for number in looked.seen_before if self.resolving.told[number].restat
                and not self.manifest.edges[number].restat]

    def _late_notes(self, look: Look, late: Late, before: Snapshot) -> list[str]:
        notes = []
        if any(late.built.values()):
            names = ", ".join(map(shown, list(late.built)[:_NAMED]))
            notes.append(f"{names}: restat is said by a dyndep file that had to be made first, so Ninja planned the "
                         f"command by the file's own stamp. The opening has that stamp as the log's")
        changed = [path for path in sorted(late.stamps) if path in before.stamps]
        if changed:
            notes.append(f"{', '.join(map(shown, changed[:_NAMED]))}: changed while the build ran and before Ninja "
                         f"looked at it, since only a dyndep file led to it. The opening has the stamp that Ninja "
                         f"found")
        ran = [self.resolving.manifest.edges[it] for it in look.found.late_edges]
        led_to = [shown(it.name) for it in ran if not it.phony]
        if led_to:
            notes.append(f"only a dyndep file that was made in this build led to {', '.join(led_to[:_NAMED])}"
                         f"{' and more' if led_to[_NAMED:] else ''}, so Ninja ran what makes the file first in any "
                         f"case. The recording does not have that order: a race between the two is one in another "
                         f"build alone, in which the file is up to date")
        return notes

    def _not_loaded(self, looked: Looked) -> dict[bytes, str]:
        found = {path: "" for path in self.resolving.files if path not in self.resolving.loaded}
        if looked.failed is not None:
            found[looked.failed[0]] = looked.failed[1]
        return found


def _circle(build: Build, left: list[Edge]) -> list[int]:
    """Of the edges that need themselves, or stand on edges that do, those that others of them need."""
    found = {it.number: it for it in left}
    while True:
        used = {maker.number for it in found.values() for maker in build.producers(it)}
        if used.issuperset(found):
            return list(found)
        found = {number: it for number, it in found.items() if number in used}


def log_outputs(log: BuildLog) -> set[bytes]:
    """The outputs that a log has: among them are those that dyndep files said in earlier builds."""
    return {canonical(it.output) for it in log.entries}
