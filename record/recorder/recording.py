"""From what was there before and after a run of Ninja to the events of a trace."""

from __future__ import annotations

import bisect
import math
import os
import statistics
from dataclasses import dataclass, field, replace
from itertools import accumulate

from .dyndep.kept import Kept
from .disk import built_records, deps_records, stamp_of
from .events import WORDS, name_of
from .fields import canonical, line, shown
from .limits import place_of
from .listed import DepsRecord
from .logs import BuildLog, new_entries
from .manifest import Manifest
from .ninja import differing
from .openings import stamps_of_what_was_built
from .other_names import other_names
from .outputs import of_finished
from .rules import Build
from .sequence import EdgeRun, Sequence, sequence
from .words import MOST_JOBS

_NANOSECONDS = 1_000_000
_NAMED_EDGES = 10
# Ninja's clock starts with its process, on a busy machine late; a stamp that asks for a later beginning was not set by
# the clock.
_LONGEST_BEGINNING = 3_000 * _NANOSECONDS
# A stamp that is so much later than the end of its command, by a beginning that a coarse clock told, came after it.
_LATEST_STAMP = 20 * _NANOSECONDS


@dataclass
class Recording:
    """Everything that is written of one build. `runs` are the commands that ran, `names` has other names of outputs,
    `about_ninja` the lines of the file `ninja`, `remarks` are notes that ask for nothing."""

    manifest: Manifest
    jobs: int
    targets: list[bytes]
    stamps: dict[bytes, int]
    built: dict[bytes, tuple[int, bytes]]
    deps: dict[bytes, DepsRecord]
    found: Sequence = field(default_factory=Sequence)
    runs: list[EdgeRun] = field(default_factory=list)
    names: dict[bytes, bytes] = field(default_factory=dict)
    dyndep: Kept | None = None
    about_ninja: list[bytes] = field(default_factory=list)
    notes: list[str] = field(default_factory=list)
    remarks: list[str] = field(default_factory=list)


def record(ninja, folder, manifest, words, jobs, before, after, ran, late=None):
    """Works out the opening and the events. Notes say what could not be known, and what rebug will refuse.

    `jobs` is how many commands Ninja may run side by side where the jobs are to be those that ran, else None. `late`
    has what the opening has otherwise, since Ninja looked at it only once a dyndep file was loaded.
    """
    if before.log.version != after.log.version:  # a later Ninja than is known here has thrown its log away
        before = replace(before, log=BuildLog(after.log.version, []))
    built = _built(ninja, manifest, before, after)
    stamps = dict(before.stamps)
    if late is not None:
        built = {path: it for path, it in {**built, **late.built}.items() if it is not None}
        stamps.update(late.stamps)
    it = Recording(manifest, jobs or 1, targets_of(manifest, words.targets), stamps, built,
                   deps_records(manifest, before))
    if ninja.hash_in(after.log) is None:
        it.notes.append(f"this Ninja's log (version {after.log.version}) has hashes that the recorder does not know: "
                        f"which commands are not those of the log was asked of Ninja, and seen of those that ran")
    it.names = other_names(folder, manifest, after.stamps)
    _note_what_is_outside(it)
    it.stamps.update(stamps_of_what_was_built(it, before, ninja))
    runs, begin = _runs(it, ninja, before, after, ran)
    if ran.said:
        of_finished(ran.said, runs)
    it.runs = runs
    it.about_ninja = _about_ninja(ninja, words, ran, runs)
    touches = _touches(it, before, after, runs, begin, ran.begin, folder)
    build = Build(manifest, it.jobs, it.stamps, it.built, it.deps)
    it.found = sequence(build, it.targets, runs, touches, words.failures, ran.interrupted, as_run=jobs is not None,
                        longest_way_first=ninja.starts_longest_way_first, side_by_side=jobs or words.jobs or None)
    it.jobs = min(MOST_JOBS, max(it.jobs if jobs else len(runs), it.found.jobs, 1))
    _note_order(it, runs)
    if ran.interrupted and not any(run.word == "abort" for run in runs):
        it.notes.append("the build was interrupted, and no command was seen running then: the trace has the "
                        "interrupt alone")
    if runs or not ran.status:
        _note_refusals(it, build)
    return it


def _about_ninja(ninja, words, ran, runs):
    """What ran the build: docs/FORMATS.md."""
    found = [line("version", ninja.told), line("words", *map(os.fsencode, words.all)), line("status", str(ran.status)),
             line("format", ran.status_format)]
    if ran.jobserver is not None:
        found.append(line("jobserver", ran.jobserver))
    return found + [line("failed", run.edge.name, str(run.code)) for run in runs if run.code is not None]


def _built(ninja, manifest, before, after):
    """The built records before the run. A command that ended well is in both logs, and so known to be another one."""
    hash_of, changed = ninja.hash_in(before.log), before.changed
    if not hash_of:
        changed = changed | differing(*(it.log.last(manifest.producer) for it in (before, after)))
    return built_records(manifest, before.log, hash_of, changed)


def targets_of(manifest, targets):
    """The targets as paths; `SOURCE^` names the first output of the first edge that has SOURCE as an input."""
    found = []
    for text in targets:
        if text.endswith(b"^"):
            source = canonical(text[:-1])
            users = [edge for edge in manifest.edges if source in edge.inputs]
            found.append(users[0].name if users else source)
        else:
            found.append(canonical(text))
    return found


def _note_what_is_outside(it):
    edges = it.manifest.edges
    _note_edges(it, [edge for edge in edges if edge.deps == b"msvc"], "deps = msvc: the list is taken from Ninja's "
                                                                      "deps log")
    _note_edges(it, [edge for edge in edges if edge.ninja_command != edge.command],
                "another command in Ninja than in rebug, since a variable of the file has the name of one of the "
                "rule's")


def _note_edges(it, edges, what):
    """Names the edges, the first ones one by one."""
    for edge in edges[:_NAMED_EDGES]:
        it.remarks.append(f"{place_of(edge)} has {what}")
    if edges[_NAMED_EDGES:]:
        it.remarks.append(f"and {len(edges) - _NAMED_EDGES} more edges have that")


def _runs(it, ninja, before, after, ran):
    """The commands that ran, and when Ninja began (nanoseconds of the disk's clock)."""
    manifest, entries = it.manifest, new_entries(before.log, after.log)
    entries = _without_inner_ninja(it, _without_manifest_edges(it, entries), ran)
    told_begin, earliest = _told_beginning(ninja, manifest, entries, ran)
    begin = ran.begin if told_begin is None else told_begin
    runs: dict[int, EdgeRun] = {}
    for entry in entries:
        edge = manifest.producer.get(canonical(entry.output))
        if edge is None or edge.phony:
            it.notes.append(f"Ninja's log has {shown(entry.output)}, which no edge of the manifest makes: left out")
            continue
        if edge.number in runs and (runs[edge.number].start, runs[edge.number].end) != (entry.start, entry.end):
            it.notes.append(f"{shown(edge.name)} ended twice in Ninja's log: its last end counts")
            del runs[edge.number]
        if edge.number not in runs:
            run = _finished(it, ninja, edge, entry, after)
            _look_at_later_changes(it, run, None if ninja.stamps_are_of_outputs else told_begin, after)
            runs[edge.number] = _left_alone(it, run, before, after)
    seen = _seen_commands(ran, begin if earliest is None else earliest)
    _add_failed(it, runs, after, ran, begin, seen)
    if ran.interrupted:
        _add_interrupted(it, runs, before, after, seen)
    return list(runs.values()), begin


def _without_manifest_edges(it, entries):
    """Drops what Ninja ran to bring the manifest up to date: its times count from another beginning."""
    maker = it.manifest.producer.get(canonical(it.manifest.files[0][0]))
    places = [at for at, entry in enumerate(entries) if maker is not None and canonical(entry.output) in maker.outputs]
    if not places:
        return entries
    it.remarks.append(f"Ninja ran {shown(maker.name)} first, to bring the manifest up to date: that is no part of "
                    f"the trace")
    return entries[places[-1] + 1 :]


def _without_inner_ninja(it, entries, ran):
    """Drops what a Ninja ran that is a command of the build and works in the same folder: it writes into the same log,
    by a clock of its own, and its commands are a part of what that command does."""
    edges = {edge.number: edge for edge in (it.manifest.producer.get(canonical(entry.output)) for entry in entries)
             if edge is not None and not edge.phony}
    inner = ran.said.of_inner_ninja(edges) if ran.said else {}
    if inner:
        names = ", ".join(shown(edge.name) for edge in list(inner.values())[:3])
        more = f" and {len(inner) - 3} more" if len(inner) > 3 else ""
        it.notes.append(f"Ninja's log has commands that this Ninja did not show: {names}{more}. They are taken for "
                        f"those of a Ninja that a command of the build runs in the same folder, and are a part of that "
                        f"command")
    outputs = {output for edge in inner.values() for output in edge.outputs}
    return [entry for entry in entries if canonical(entry.output) not in outputs]


def _told_beginning(ninja, manifest, entries, ran):
    """When Ninja began, in nanoseconds of the disk's clock: its log has times that count from there, and stamps. None
    where the log does not tell it. And the earliest moment that it can have been by that.

    Where the stamp is of the outputs, it is not later than the end. Where it is of the moment at which the command
    began, it is as early as the clock is coarse, and sometimes late, so the middle one of all counts.
    """
    times = []
    for entry in entries:
        edge = manifest.producer.get(canonical(entry.output))
        if edge is None or edge.restat:
            continue
        if ninja.stamps_are_of_outputs:
            times.append(entry.stamp - (entry.end + 1) * _NANOSECONDS)
        elif not edge.generator:
            times.append(entry.stamp - entry.start * _NANOSECONDS)
    near = [it for it in times if abs(it - ran.begin) < _LONGEST_BEGINNING]
    if not near:
        return None, None
    found = (max(near), max(near)) if ninja.stamps_are_of_outputs else (statistics.median_low(near), min(near))
    return max(ran.begin, found[0]), max(ran.begin, found[1])


def _finished(it, ninja, edge, entry, after):
    """A command that ended well.

    A log whose stamps are of the outputs has the greatest of them as the command ended; a later one came later. Others
    have the time of its start, which says nothing of the outputs; but of a generator the greater one of both.
    """
    stamps = [after.stamps.get(path, 0) for path in edge.outputs]
    if not edge.restat and (ninja.stamps_are_of_outputs or edge.generator):
        stamps = [min(stamp, entry.stamp) if entry.stamp else stamp for stamp in stamps]
        if len(stamps) == 1 and ninja.stamps_are_of_outputs:
            stamps = [entry.stamp]
    listing = None
    if edge.depfile and not edge.deps:
        listing = after.without_deps_log.get(edge.name) or None
        if listing is None:
            it.notes.append(f"{shown(edge.name)}: its depfile {shown(edge.depfile)} is not there: Ninja will run "
                            f"it again, rebug will not")
    elif edge.keeps_deps:
        listing = after.deps.get(edge.name, (0, []))[1]
    return EdgeRun(edge, "finish", entry.start, entry.end, stamps, listing)


def _look_at_later_changes(it, run, begin, after):
    """Gives outputs that changed again after their command the stamp that they had at its end, as far as that is known.

    The deps log has it of first outputs. Where the build log has no stamps of outputs it is the time of the end: a
    stamp that is later came after it, unless the end is the less certain one of the two, or the command itself set a
    stamp that is still to come. Of `restat` the stamp may be that of a much earlier command.
    """
    if run.edge.deps and run.edge.name in after.deps:
        run.stamps[0] = after.deps[run.edge.name][0]
    if begin is None or run.edge.restat or run.edge.generator:
        return
    end = begin + run.end * _NANOSECONDS
    for place, stamp in enumerate(run.stamps):
        if end + _LATEST_STAMP < stamp <= after.taken:
            run.stamps[place] = end
            it.remarks.append(f"{shown(run.edge.outputs[place])} changed again after its command, and no log has its "
                              f"stamp at the end of that: it is taken to be the time of the end")


def _left_alone(it, run, before, after):
    """The run, where restat left outputs alone whose opening has the log's stamp: such an output keeps that stamp, so
    that it has not changed, and gets the file's right after, since that is what its users are compared with."""
    for place, path in enumerate(run.edge.outputs if run.edge.restat else ()):
        stamp = before.stamps.get(path, 0)
        if it.stamps.get(path, 0) != stamp and after.stamps.get(path, 0) == stamp:
            run.stamps[place] = it.stamps[path]
            run.touched.append((path, stamp))
    return run


def _add_failed(it, runs, after, ran, begin, seen):
    if ran.said and ran.said.stopped.startswith(b"subcommand") and not ran.failed:
        it.notes.append("Ninja says that a command failed, and its output does not tell which: the trace has none")
    for failed in ran.failed:
        edge = failed.edge
        if edge.number in runs:
            continue
        _add_unlogged(it, runs, edge, "fail", failed.milliseconds(begin), after, seen, failed.began)
        runs[edge.number].code, runs[edge.number].written = failed.code, failed.written


def _add_interrupted(it, runs, before, after, seen):
    """The edges that were running: they were seen, or their outputs are not as they were."""
    end = max([run.end for run in runs.values()], default=0) + 1
    for edge in it.manifest.edges:
        if edge.phony or edge.number in runs:
            continue
        is_other = any(before.stamps.get(path, 0) != after.stamps.get(path, 0) for path in edge.outputs)
        if is_other or _seen_at(edge, seen) is not None:
            _add_unlogged(it, runs, edge, "abort", end, after, seen)


def _add_unlogged(it, runs, edge, word, end, after, seen, began=None):
    """A command that Ninja's log does not have. It starts when Ninja said so, or when it was seen, else as late as can
    be."""
    start = _seen_at(edge, seen) if began is None else began
    stamps = [after.stamps.get(path, 0) for path in edge.outputs]
    found = runs[edge.number] = EdgeRun(edge, word, end, end, stamps, is_start_known=start is not None)
    if start is not None:
        found.start = min(end, max(start, _last_end_below(it.manifest, runs, edge)))


def _last_end_below(manifest, runs, edge):
    """When the last of the commands ended that the edge stands on, seen through phony edges."""
    todo, known, last = [edge], set(), 0
    while todo:
        for path in todo.pop().inputs:
            maker = manifest.producer.get(path)
            if maker is None or maker.number in known:
                continue
            known.add(maker.number)
            if maker.number in runs:
                last = max(last, runs[maker.number].end)
            else:
                todo.append(maker)
    return last


def _seen_commands(ran, begin):
    """When each command was first seen running, in milliseconds. A shell may have put the command in its own place.

    No command is seen before it began, so `begin` is the earliest moment at which Ninja can have begun.
    """
    seen: dict[bytes, int] = {}
    for child in ran.children:
        is_shell = child.words[1:2] == [b"-c"] and len(child.words) == 3
        command = child.words[2] if is_shell else b" ".join(child.words)
        seen.setdefault(command, max(0, (child.seen - begin) // _NANOSECONDS))
    return seen


def _seen_at(edge, seen):
    return seen.get(edge.ninja_command.split(b";rspfile=")[0])


def _touches(it, before, after, runs, begin, ran_begin, folder):
    """What changed and was no output of a command that ran, or changed again after its end: (time, path, stamp)."""
    last, ends = dict(before.stamps), dict[bytes, int]()
    for path, stamp in after.stamps.items():
        if path not in last:
            is_older = 0 < stamp < ran_begin
            last[path] = stamp if is_older else 0
            if is_older:
                it.stamps[path] = stamp
    for run in runs:
        last.update(zip(run.edge.outputs, run.stamps))
        last.update(run.touched)
        ends.update(dict.fromkeys(run.edge.outputs, run.end))
    touches = []
    latest = _LatestTimes(runs, begin)
    for path in last:
        stamp = after.stamps[path] if path in after.stamps else stamp_of(folder, path)
        if stamp != last[path]:
            time = min((stamp - begin) // _NANOSECONDS, latest.of(stamp)) if stamp >= begin else None
            if time is not None and path in ends:  # the disk's clock is coarse, and its maker had ended
                time = max(time, ends[path] + 1)
            touches.append((time, path, stamp))
    return touches


class _LatestTimes:
    """When a change came at the latest, in milliseconds since Ninja began: a command whose outputs are as new had not
    ended. The disk's clock ticks seldom, and the beginning that it tells may be early by a tick, so that a change would
    else stand behind the end of the very command that made it."""

    def __init__(self, runs, begin):
        found = [(max(run.stamps), run.end) for run in runs if run.word == "finish" and run.stamps]
        # a command may have set a stamp that is still to come
        found = [(stamp, end) for stamp, end in found if stamp <= begin + end * _NANOSECONDS + _LATEST_STAMP]
        found.sort()
        self.stamps = [stamp for stamp, _ in found]
        self.ends = [*accumulate((end for _, end in reversed(found)), min)]

    def of(self, stamp):
        """The first end of a command whose outputs are not older than this stamp."""
        newer = len(self.stamps) - bisect.bisect_left(self.stamps, stamp)
        return self.ends[newer - 1] if newer else math.inf


def _note_order(it, runs):
    if it.found.tied:
        names = ", ".join(shown(edge.name) for edge in it.found.tied[:3])
        it.remarks.append(f"{len(it.found.tied)} starts fell into the millisecond of another command's end, and are "
                          f"taken to be after it: {names}")
    guessed = [run for run in runs if run.word != "finish"]
    if guessed:
        seen = sum(run.is_start_known for run in guessed)
        names = ", ".join(f"{shown(run.edge.name)} ({run.word}{'' if run.code is None else f', status {run.code}'})"
                          for run in guessed[:5])
        it.remarks.append(f"Ninja's log has no commands that did not end well: {names}. {seen} of {len(guessed)} "
                          f"start where they were first seen running, the others right before their end")


def _note_refusals(it, build):
    for event, refusal in it.found.refused[:1]:
        words = " ".join([WORDS[type(event)], *([shown(name_of(event))] if name_of(event) else [])])
        path = _refused_path(it, build, event, refusal)
        it.notes.append(f"rebug's rules differ here from what Ninja did: they refuse '{words}' "
                        f"({' '.join(map(str, refusal))}){f', for {shown(path)}' if path else ''}; "
                        f"{len(it.found.refused)} in all. --check says more")


def _refused_path(it, build, event, refusal):
    """The path that a refusal is about, where it is not the one that the event names."""
    number, *rest = refusal
    edges = it.manifest.edges
    if number == 51:
        return (it.targets or it.manifest.defaults())[rest[0]]
    if number == 52:
        return edges[rest[1]].inputs[rest[0]]
    if number in (50, 53, 72, 74):
        return edges[rest[0]].name
    if number == 68:
        return build.inputs(it.manifest.producer[name_of(event)])[rest[0]]
    return None
