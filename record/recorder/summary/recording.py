"""A recording as a summary has it: the commands of its manifest, when they ran, and which failed."""

from __future__ import annotations

import hashlib
import os
import re
from bisect import bisect_right
from collections.abc import Iterator
from dataclasses import dataclass, field

from ..fields import canonical, shown
from ..manifest import Manifest
from ..regular import NoFile, read_regular
from ..rerun.entries import File
from ..rerun.lines import BadRecording, Fields
from ..rerun.preparing import manifest_of
from ..rerun.recorded import read_recording
from ..stable import manifest_name
from ..times import Time, moments
from .packed import Run

_DIGEST_BYTES = 6
_MOST_ERROR = 200
_ESCAPES = {"s": " ", "t": "\t", "n": "\n", "r": "\r", "\\": "\\", "0": ""}


@dataclass
class Build:
    """A recorded build. `waits` has by each node the nodes that it waits for: the commands come first, and phony edges
    behind them. `runs` has when commands ran, `failed` the numbers of those that failed with the first line of what
    they wrote. `processor` has of commands how long their processes used a processor, in milliseconds, where the
    recording has that. `when` is when it ended, in seconds since 1970, as its outputs' stamps show. `is_from_nothing`
    where Ninja's log was empty before. `left` has a digest of what each command left, where the recording has
    contents."""

    names: list[str]
    places: list[tuple[str, int]]
    waits: list[list[int]]
    manifest: str
    runs: list[Run]
    failed: dict[int, str]
    ninja: str
    jobs: int
    when: int
    is_from_nothing: bool
    left: dict[int, bytes] = field(default_factory=dict)
    processor: dict[int, int] = field(default_factory=dict)


def read_build(folder: bytes) -> Build:
    """The build of a recording. Raises BadRecording and NoBuild."""
    manifest = manifest_of(folder)
    edges = [it for it in manifest.edges if not it.phony]
    number = {it.number: at for at, it in enumerate(edges)}
    trace = _Trace(_read(folder, b"trace"), _read(folder, b"times"), manifest)
    about = {name: rest for name, _, rest in (it.partition(b" ") for it in _read(folder, b"ninja").splitlines())}
    runs = [Run(number[edge], begin, end) for edge, (begin, end) in trace.runs.items()]
    waits, jobs = _waits(manifest, number), _jobs(about.get(b"words", b""))
    unsure = {number[it] for it in trace.unsure if not manifest.edges[it].pool}
    runs = settled(runs, unsure, waits, jobs)
    texts = dict(_errors(_read(folder, b"output", is_needed=False), manifest))
    failed = {number[it]: texts.get(it, "") for it in trace.failed}
    return Build([shown(it.name) for it in edges], [(shown(it.file), it.line) for it in edges],
                 waits, manifest_name(manifest), runs, failed,
                 shown(about.get(b"version", b"")), jobs, trace.when, not trace.has_log,
                 dict(_left(folder, manifest, number)), {number[it]: its for it, its in trace.processor.items()})


def _waits(manifest: Manifest, number: dict[int, int]) -> list[list[int]]:
    """By each node the nodes that it waits for: the commands come first, and phony edges behind them."""
    nodes = dict(number)
    for it in manifest.edges:
        nodes.setdefault(it.number, len(nodes))
    found: list[list[int]] = [[] for _ in nodes]
    for it in manifest.edges:
        makers = {manifest.producer[path].number for path in it.inputs if path in manifest.producer} - {it.number}
        found[nodes[it.number]] = sorted(nodes[maker] for maker in makers)
    return found


def settled(runs: list[Run], unsure: set[int], waits: list[list[int]], jobs: int) -> list[Run]:
    """The runs, each with the moment at which Ninja could begin it: the build's begin, or the end of another run.

    Ninja's log has no begin of a command that failed or was stopped (`unsure`), and a recorder sees such a command
    some time after it began. Ninja begins a command as soon as all that it waits for has ended and a job is free. So
    the moment is the first one from which on one of the jobs was not taken by others, until the command was seen."""
    ends = sorted(it.ended for it in runs if it.ended is not None)
    end_of = {it.command: it.ended for it in runs}
    found = []
    for it in runs:
        began = _last(ends, it.began)
        if it.command in unsure and jobs:
            ready = max((end_of.get(maker) or 0 for maker in _makers(waits, it.command, end_of)), default=0)
            began = max(ready, _free_from(it, runs, jobs))
        found.append(Run(it.command, min(began, it.began), it.ended))
    return found


def _last(moments: list[int], moment: int) -> int:
    """The last of some moments that is not later than another one; 0 where none is."""
    at = bisect_right(moments, moment)
    return moments[at - 1] if at else 0


def _makers(waits: list[list[int]], command: int, commands: dict[int, int | None]) -> set[int]:
    """The commands that one waits for, also through phony edges."""
    found: set[int] = set()
    seen, todo = {command}, [command]
    while todo:
        for it in waits[todo.pop()]:
            if it in commands:
                found.add(it)
            elif it not in seen:
                seen.add(it)
                todo.append(it)
    return found


def _free_from(it: Run, runs: list[Run], jobs: int) -> int:
    """The first moment from which on, until a run was seen, others took fewer than all jobs."""
    others = [run for run in runs if run is not it]
    begins = sorted(run.began for run in others)
    ends = sorted(run.ended for run in others if run.ended is not None)
    found = it.began
    for moment in sorted({0, *begins, *ends}, reverse=True):
        if moment > it.began:
            continue
        if bisect_right(begins, moment) - bisect_right(ends, moment) >= jobs:
            break
        found = moment
    return found


class _Trace:
    """The events of a trace with their times, as far as a summary has them."""

    def __init__(self, trace: bytes, times: bytes, manifest: Manifest) -> None:
        self.runs: dict[int, tuple[int, int | None]] = {}
        self.processor: dict[int, int] = {}
        self.failed: list[int] = []
        self.unsure: set[int] = set()
        self.when, self.has_log = 0, False
        self._manifest, self._lines = manifest, Fields("trace")
        known = dict(moments(times))
        lane, place = b"", 0
        for at, line in enumerate(trace.split(b"\n")):
            words = line.split(b" ")
            if words[0] == b"lane" and len(words) == 2:
                lane, place = words[1], 0
            elif not lane:
                self.has_log |= words[0] == b"built"
            elif words[0]:
                place += 1
                self._take(at, words, known.get(b"%s:%d" % (lane, place)))

    def _take(self, at: int, words: list[bytes], its: Time | None) -> None:
        if words[0] not in (b"start", b"finish", b"fail", b"abort") or len(words) < 2:
            return
        edge = self._manifest.producer.get(canonical(self._lines.text(at, words[1])))
        if edge is None or edge.phony:
            raise self._lines.fault(at, "a command that the manifest does not have")
        if its is None:
            return
        moment = its.moment
        if its.processor is not None:
            self.processor[edge.number] = its.processor
        if words[0] == b"start":
            self.runs.setdefault(edge.number, (moment, None))
            return
        begin = self.runs.get(edge.number, (moment, None))[0]
        if words[0] != b"finish":
            self.unsure.add(edge.number)
        if words[0] != b"abort":
            self.runs[edge.number] = (begin, max(begin, moment))
        if words[0] == b"fail":
            self.failed.append(edge.number)
        stamps = words[2].split(b",") if len(words) > 2 else []
        self.when = max([self.when, *(int(it) // 10**9 for it in stamps if it.isdigit() and len(it) < 20)])


def _errors(output: bytes, manifest: Manifest) -> Iterator[tuple[int, str]]:
    """The first line of what each failed command wrote that says something, by the number of its edge."""
    lines = Fields("output")
    for at, line in enumerate(output.split(b"\n")):
        words = line.split(b" ")
        if words[0] == b"failed" and len(words) == 5:
            edge = manifest.producer.get(canonical(lines.text(at, words[1])))
            written = [it for it in lines.text(at, words[4]).split(b"\n") if it.strip()]
            if edge is not None and written:
                yield edge.number, shown(written[0][:_MOST_ERROR])


def _left(folder: bytes, manifest: Manifest, number: dict[int, int]) -> Iterator[tuple[int, bytes]]:
    """A digest of what each command left, where that is known: of paths from the build folder, and contents."""
    if not os.path.isfile(os.path.join(folder, b"contents")):
        return
    found = read_recording(folder)
    for command in found.commands:
        edge = manifest.producer.get(canonical(command.output))
        if edge is None or command.unsettled or command.output in found.failed:
            continue
        its = sorted((os.path.relpath(path, found.build), it) for path, it in command.left.items())
        text = b"\0".join(path + b"\0" + (it.digest + b"x" * it.is_executable if isinstance(it, File) else b"link")
                          for path, it in its)
        yield number[edge.number], hashlib.sha256(text).digest()[:_DIGEST_BYTES]


def _read(folder: bytes, name: bytes, is_needed: bool = True) -> bytes:
    try:
        return read_regular(os.path.join(folder, name))
    except FileNotFoundError as why:
        if not is_needed:
            return b""
        raise BadRecording(f"{os.fsdecode(folder)} is no recording: it has no file {os.fsdecode(name)}") from why
    except NoFile as why:
        raise BadRecording(f"{os.fsdecode(name)}: {why.strerror}") from why
    except OSError as why:
        raise BadRecording(f"cannot read {os.fsdecode(os.path.join(folder, name))}: {why.strerror}") from why


def _jobs(words: bytes) -> int:
    """The number behind -j in Ninja's words; 0 where none is there."""
    found = re.search(rb"(?:^|\s)-j\s*([0-9]{1,4})(?:\s|$)", words)
    return int(found[1]) if found else 0
