"""A recording of a build that has ended, from Ninja's logs alone: nothing is run.

The build log has a line for each output of a command that ended well: start and end in milliseconds since its Ninja
began, and a stamp. It says nothing of which Ninja wrote a line, but times count anew with each Ninja, so the lines of
one run can be told apart. The last run is recorded, with the runs before it that belong to the same build (`ninja` and
then `ninja test`): each ended before the next began, no command of them ran again later, none waits for a command that
did, and what uses their outputs ran behind them. Of an edge that ran in several builds the logs have the last deps
list alone, so no earlier build can be recorded.

No log says what was there before. So each output of a command that ran is taken to have been missing, as in a build
from nothing, unless `restat` left it alone. What earlier builds made, and the last one did not, stands in the opening.
"""

from __future__ import annotations

import functools
import os
import shlex
import statistics
from dataclasses import dataclass, field, replace
from typing import Iterable, Iterator, Optional

from .depslog import Listing
from .dyndep.build import Dyndeps
from .disk import Snapshot, deps_records, take_snapshot
from .fields import canonical, line, shown
from .files import WRITTEN, names_of_files, write_recording
from .generator.recorded import TARGETS, write_targets
from .folders import OutFolder
from .logs import BuildLog, LogEntry, open_build_log
from .manifest import Edge, Manifest
from .ninja import HASHES, Ninja
from .recording import Recording, record
from .running import Ran
from .session import Failure, OneBuild
from .words import MOST_JOBS

_NANOSECONDS = 1_000_000
# By how much the beginning of a run that a stamp tells may be late, in nanoseconds: the disk's clock is coarse, and a
# busy machine slow.
_LATE = 1_000 * _NANOSECONDS
# How seldom the clock of a file system may tick: a stamp may be so much earlier than the write.
_TICK = 10 * _NANOSECONDS
_NAMED = 5
# The first Ninja that writes a log of this version; docs/NINJA.md has the table.
_NINJAS = {5: (1, 11), 6: (1, 12), 7: (1, 13)}
_LACKS = ("Ninja's logs have no command that failed or was interrupted, nothing that commands wrote, and nothing of "
          "what was there before: the recording is of the commands that ended well, as of a build from nothing")


@dataclass
class LoggedRun:
    """The lines that one run of Ninja appended to the build log.

    `told` has when Ninja began (nanoseconds of the disk's clock), by each line whose stamp tells it; `latest` is the
    greatest of them. `near` has what the stamps of `restat` lines tell: these may be of a file that was left alone, or
    written late. `ends` has the end of each edge, and of a phony edge the last end of those that it stands for.
    """

    stamps_are_of_outputs: bool
    entries: list[LogEntry] = field(default_factory=list)
    told: list[int] = field(default_factory=list)
    near: list[int] = field(default_factory=list)
    latest: Optional[int] = None
    known: dict[bytes, tuple[int, int]] = field(default_factory=dict)
    ends: dict[int, int] = field(default_factory=dict)

    @property
    def last_end(self) -> int:
        return self.entries[-1].end

    @property
    def begin(self) -> Optional[int]:
        """When Ninja began. A stamp of outputs is not later than the end of its command; one of the moment at which a
        command began is as early as the clock is coarse, so the middle one of all counts."""
        if not self.told and not self.near:
            return None
        if self.stamps_are_of_outputs:
            return max(self.told + self.near)
        return statistics.median_low(self.told) if self.told else min(self.near)

    def is_followed_by(self, later: LoggedRun) -> bool:
        """Whether the stamps of both say that this run had ended when the later one began."""
        if self.begin is None or later.begin is None:
            return False
        return self.begin + self.last_end * _NANOSECONDS <= later.begin + _LATE


class _Splitter:
    """Takes the lines of a log one by one, and parts the runs of Ninja that wrote them."""

    def __init__(self, manifest: Manifest, ninja: Ninja) -> None:
        self.manifest, self.ninja = manifest, ninja
        self.found: list[LoggedRun] = []
        self.phony_users: dict[int, list[Edge]] = {}
        for edge in manifest.edges:
            for maker in _makers(manifest, edge) if edge.phony else ():
                self.phony_users.setdefault(maker.number, []).append(edge)

    def take(self, entry: LogEntry) -> None:
        edge = _edge(self.manifest, entry)
        told = self.told_beginning(entry, edge)
        is_near = edge.restat
        if not self.found or self.is_of_a_later_run(entry, edge, None if is_near else told):
            self.found.append(LoggedRun(self.ninja.stamps_are_of_outputs))
        run = self.found[-1]
        run.entries.append(entry)
        run.known[entry.output] = entry.start, entry.end
        if told is not None and is_near:
            run.near.append(told)
        elif told is not None:
            run.told.append(told)
            run.latest = told if run.latest is None else max(run.latest, told)
        self.note_end(run, edge, entry.end)

    def told_beginning(self, entry: LogEntry, edge: Edge) -> Optional[int]:
        """When the Ninja of this line began, as far as its stamp tells that."""
        if not entry.stamp or edge.generator and not self.ninja.stamps_are_of_outputs:
            return None
        return entry.stamp - (entry.end if self.ninja.stamps_are_of_outputs else entry.start) * _NANOSECONDS

    def is_of_a_later_run(self, entry: LogEntry, edge: Edge, told: Optional[int]) -> bool:
        """Whether a line is not of the last run: times count anew, its output is there already, it began before
        something ended that it waits for, or its Ninja began when the last one had ended."""
        run, times = self.found[-1], (entry.start, entry.end)
        if entry.end < run.last_end or run.known.get(entry.output, times) != times:
            return True
        if any(run.ends.get(maker.number, 0) > entry.start for maker in _makers(self.manifest, edge)):
            return True
        if told is None or run.latest is None:
            return False
        return told > run.latest + run.last_end * _NANOSECONDS + _LATE

    def note_end(self, run: LoggedRun, edge: Edge, end: int) -> None:
        """The end of an edge is one of the phony edges that stand for it."""
        todo = [edge]
        while todo:
            it = todo.pop()
            if run.ends.get(it.number, -1) < end:
                run.ends[it.number] = end
                todo += self.phony_users.get(it.number, ())


def _makers(manifest: Manifest, edge: Edge) -> list[Edge]:
    """The edges that make the inputs of an edge."""
    return [it for it in map(manifest.producer.get, edge.inputs) if it is not None]


def runs_of(entries: Iterable[LogEntry], manifest: Manifest, ninja: Ninja) -> list[LoggedRun]:
    """The runs of Ninja whose lines these are, in the order of the log."""
    it = _Splitter(manifest, ninja)
    for entry in entries:
        it.take(entry)
    return it.found


@dataclass(frozen=True)
class LoggedBuild:
    """The last build of a log: its lines, with times since its first Ninja began; when that was, where a stamp tells
    it; and the lines of earlier builds, without those of edges that ran again."""

    ran: list[LogEntry]
    begin: Optional[int]
    earlier: list[LogEntry]


class _Again:
    """The edges that some runs have, and those that wait for them."""

    def __init__(self, manifest: Manifest) -> None:
        self.manifest, self.marked = manifest, set[int]()
        self.users: dict[int, list[int]] = {}
        for edge in manifest.edges:
            for maker in {it.number for it in _makers(manifest, edge)}:
                self.users.setdefault(maker, []).append(edge.number)

    def add(self, run: LoggedRun) -> None:
        todo = [_edge(self.manifest, it).number for it in run.entries]
        while todo:
            number = todo.pop()
            if number not in self.marked:
                self.marked.add(number)
                todo += self.users.get(number, ())

    def has_one_of(self, run: LoggedRun) -> bool:
        return any(_edge(self.manifest, it).number in self.marked for it in run.entries)


class _Used:
    """Which commands have to run again where some ran: those that have an output of these as an input, by the manifest
    or by what they listed, also by way of phony edges. Where one did not, the lines are of another build, or Ninja wrote
    the log anew and their order is lost, as it does where CMake has written the manifest anew."""

    def __init__(self, manifest: Manifest, runs: list[LoggedRun], after: Optional[Snapshot]) -> None:
        self.manifest, self.after = manifest, after
        self.logged = {_edge(manifest, it).number for run in runs for it in run.entries}
        self.ran = set[int]()

    @functools.cached_property
    def users(self) -> dict[int, list[Edge]]:
        """The edges that have an output of an edge as an input, by the number of that edge."""
        found: dict[int, list[Edge]] = {}
        records = deps_records(self.manifest, self.after) if self.after else {}
        for edge in self.manifest.edges:
            inputs = [*edge.explicit, *edge.implicit]
            if edge.name in records:
                listed = records[edge.name][1]
                inputs += listed.paths() if isinstance(listed, Listing) else listed
            for maker in {it.number for it in map(self.manifest.producer.get, inputs) if it}:
                found.setdefault(maker, []).append(edge)
        return found

    def end_with(self, run: LoggedRun) -> None:
        """Takes the last run."""
        self.ran.update(_edge(self.manifest, it).number for it in run.entries)

    def add(self, run: LoggedRun) -> bool:
        """Takes a run before those that were added. Whether no command of earlier lines had to run again."""
        todo = [_edge(self.manifest, it).number for it in run.entries]
        self.ran.update(todo)
        seen = set(todo)
        while todo:
            for user in self.users.get(todo.pop(), ()):
                if user.number in self.logged and user.number not in self.ran:
                    return False
                if user.phony and user.number not in seen:
                    seen.add(user.number)
                    todo.append(user.number)
        return True


def last_build(runs: list[LoggedRun], manifest: Manifest, after: Optional[Snapshot] = None) -> LoggedBuild:
    """The last run, with those before it that belong to the same build. A snapshot has what commands listed."""
    chosen, again, used = runs[-1:], _Again(manifest), _Used(manifest, runs, after)
    again.add(chosen[0])
    used.end_with(chosen[0])
    for run in reversed(runs[:-1]):
        if not run.is_followed_by(chosen[0]) or again.has_one_of(run) or not used.add(run):
            break
        chosen.insert(0, run)
        again.add(run)
    names = {_edge(manifest, it).name for run in chosen for it in run.entries}
    before = (it for run in runs[: len(runs) - len(chosen)] for it in run.entries)
    earlier = [it for it in before if _edge(manifest, it).name not in names]
    return LoggedBuild(list(_in_one_time(chosen)), chosen[0].begin, earlier)


def _edge(manifest: Manifest, entry: LogEntry) -> Edge:
    """The edge of a line; lines of no edge are left out before."""
    return manifest.producer[canonical(entry.output)]


def _in_one_time(runs: list[LoggedRun]) -> Iterator[LogEntry]:
    """The lines of runs that followed one another, with times since the first one began."""
    first, over = runs[0].begin or 0, 0
    for run in runs:
        later = max(over, ((run.begin or 0) - first) // _NANOSECONDS)
        yield from (replace(it, start=it.start + later, end=it.end + later) for it in run.entries)
        over = later + run.last_end


class FromLogs(OneBuild):
    """Records the build that the logs of a build folder tell."""

    stops = "nothing was recorded"

    def run(self) -> int:
        """The whole of it; gives the exit status."""
        with OutFolder(self.options.out) as out:
            manifest = self.manifest()
            self.look_at_limits(manifest)
            out.look_at_places([*names_of_files(manifest).values(), *WRITTEN, TARGETS])
            dyndeps, kept = Dyndeps.of(self.build, manifest), None
            if dyndeps:  # by what they say now: the logs do not have it
                manifest, kept = dyndeps.by_logs(open_build_log(self.log_of(manifest)).entries)
            found = self.found(manifest)
            if kept is not None:
                found.dyndep, found.notes = kept, kept.notes + found.notes
            write_recording(found, out.staging, self.options.lanes, self.launcher, at=out.folder)
            write_targets(self.build, manifest, out.staging)
            self.signals.is_switching = True
            out.switch()
        self.tell_notes(found)
        return 128 + self.signals.held[0] if self.signals.held else 0

    def log_of(self, manifest: Manifest) -> bytes:
        """The path of the build log."""
        return os.path.join(self.build, manifest.log_folder(), b".ninja_log")

    def found(self, manifest: Manifest) -> Recording:
        """The recording that the logs give."""
        log = open_build_log(self.log_of(manifest))
        where = shlex.join([os.path.join(self.options.build, os.fsdecode(manifest.log_folder()), ".ninja_log")])
        ninja = _ninja_of(log, where)
        entries = _without_makers_of_manifest(ninja.as_read(log).entries, manifest)
        if not entries:
            raise Failure(f"{where} has no command of this manifest: there is no build to record")
        after = take_snapshot(self.build, manifest, ninja)
        logged = last_build(runs_of(entries, manifest, ninja), manifest, after)
        before, begin = _snapshots(manifest, ninja, logged, after)
        self.words.targets = self.words.targets or _targets(manifest, logged.ran)
        is_as_run = self.options.jobs_as_run or self.options.lanes
        jobs = self.words.jobs or _side_by_side(logged.ran) if is_as_run else None
        found = record(ninja, self.build, manifest, self.words, jobs, before, after, Ran(0, begin))
        found.about_ninja = [line("logs", str(log.version)), line("words", *map(os.fsencode, self.words.all))]
        found.notes[:0] = [_LACKS, *_notes(manifest, ninja, self.words.targets, logged)]
        return found


def _ninja_of(log: BuildLog, where: str) -> Ninja:
    """A Ninja that writes such logs, as far as reading them goes."""
    if not log.version:
        raise Failure(f"{where} is not there, or is no build log of Ninja's: --from-logs wants the logs of a build")
    version = max(log.version, min(HASHES))
    if version not in _NINJAS:
        raise Failure(f"{where} is a log of version {log.version}, and the recorder knows those up to {max(_NINJAS)}")
    return Ninja("", _NINJAS[version])


def _without_makers_of_manifest(entries: Iterable[LogEntry], manifest: Manifest) -> list[LogEntry]:
    """The lines of the manifest's edges. What makes the manifest ran before, and its times count from elsewhere."""
    maker = manifest.producer.get(canonical(manifest.files[0][0]))
    found = []
    for it in entries:
        edge = manifest.producer.get(canonical(it.output))
        if edge is not None and not edge.phony and edge is not maker:
            found.append(it)
    return found


def _snapshots(manifest: Manifest, ninja: Ninja, logged: LoggedBuild, after: Snapshot) -> tuple[Snapshot, int]:
    """What is taken to have been there before the build, and when the build began, by what is there after it.

    A file that is gone gets the stamp that the log tells of it; a source that is gone gets 1, since the build had it.
    """
    edges = {edge.name: edge for edge in (_edge(manifest, it) for it in logged.ran)}
    begin = logged.begin
    if begin is None:
        newest = max(after.stamps.get(path, 0) for edge in edges.values() for path in edge.outputs)
        begin = (newest or after.taken) - logged.ran[-1].end * _NANOSECONDS
    told = {canonical(it.output): it.stamp for it in logged.earlier}
    for it in logged.ran:
        ended = begin + it.end * _NANOSECONDS
        told[canonical(it.output)] = it.stamp if ninja.stamps_are_of_outputs and it.stamp else ended
    told.update((name, stamp) for name, (stamp, _) in after.deps.items())
    for path, stamp in after.stamps.items():
        if not stamp:
            after.stamps[path] = told.get(path, 0 if path in manifest.producer else 1)
    after.log = BuildLog(ninja.log_version, [*logged.earlier, *logged.ran])
    stamps = dict(after.stamps)
    for edge in edges.values():
        for path in edge.outputs:
            is_older = 0 < after.stamps.get(path, 0) < begin - _TICK
            was_left_alone = edge.restat and not edge.generator and is_older
            stamps[path] = after.stamps[path] if was_left_alone else 0
    before = Snapshot(stamps, BuildLog(ninja.log_version, logged.earlier),
                      {name: it for name, it in after.deps.items() if name not in edges},
                      {name: it for name, it in after.without_deps_log.items() if name not in edges}, taken=after.taken)
    return before, begin


def _reached(manifest: Manifest, paths: Iterable[bytes]) -> dict[int, Edge]:
    """The edges that these paths need, with those of validations."""
    found: dict[int, Edge] = {}
    todo = list(paths)
    while todo:
        edge = manifest.producer.get(todo.pop())
        if edge is not None and edge.number not in found:
            found[edge.number] = edge
            todo += [*edge.inputs, *edge.validations]
    return found


def _targets(manifest: Manifest, ran: list[LogEntry]) -> list[bytes]:
    """What the build is taken to have been asked for: nothing, which means the manifest's default targets, where they
    need all commands that ran; else these, and the commands that ran and that neither they nor another one need."""
    defaults = manifest.defaults()
    reached = _reached(manifest, defaults)
    left = {}
    for edge in (_edge(manifest, it) for it in ran):
        if edge.number not in reached:
            left[edge.number] = edge
    if not left:
        return []
    inner = _reached(manifest, (path for edge in left.values() for path in [*edge.inputs, *edge.validations]))
    return [*defaults, *(edge.name for number, edge in sorted(left.items()) if number not in inner)]


def _side_by_side(ran: list[LogEntry]) -> int:
    """How many commands ran at one time, at most."""
    spans = {(it.start, it.end, canonical(it.output)) for it in ran}
    changes = sorted([(start, 1) for start, _, _ in spans] + [(end, -1) for _, end, _ in spans])
    most = now = 0
    for _, change in changes:
        now += change
        most = max(most, now)
    return min(MOST_JOBS, max(1, most))


def _named(edges: list[Edge]) -> str:
    more = f" and {len(edges) - _NAMED} more" if len(edges) > _NAMED else ""
    return ", ".join(shown(edge.name) for edge in edges[:_NAMED]) + more


def _counted(count: int) -> str:
    return f"{count} command{'' if count == 1 else 's'}"


def _notes(manifest: Manifest, ninja: Ninja, targets: list[bytes], logged: LoggedBuild) -> list[str]:
    """What is to be known of this recording: earlier builds, other commands, and commands that no log has."""
    notes = []
    earlier = {_edge(manifest, it).name for it in logged.earlier}
    if earlier:
        notes.append(f"the log has {_counted(len(earlier))} of earlier builds that did not run in the last one: the "
                     f"recording begins with what they made")
    hash_of = ninja.hash_in(BuildLog(ninja.log_version, []))
    ran = {edge.name: (edge, it.hash) for edge, it in ((_edge(manifest, it), it) for it in logged.ran)}
    others = [edge for edge, value in ran.values() if hash_of and hash_of(edge.ninja_command) != value]
    if others:
        notes.append(f"the manifest was written anew since that build: {_counted(len(others))} ran with other words "
                     f"than it has: {_named(others)}")
    needed = _reached(manifest, targets or manifest.defaults())
    lacking = [edge for _, edge in sorted(needed.items())
               if not edge.phony and edge.name not in earlier and edge.name not in ran]
    if lacking:
        were = "was" if len(lacking) == 1 else "were"
        notes.append(f"no log has {_counted(len(lacking))} that the targets need, which failed, {were} not reached, or "
                     f"{were} not asked for (name the targets after --): {_named(lacking)}")
    return notes
