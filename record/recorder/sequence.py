"""Puts what a run of Ninja did into one order that the manifest allows, as rebug's events.

The build log has its lines in the order of the ends, each with the start and end in milliseconds. Where a start and an
end fall into one millisecond, the end is taken first: every producer has then ended, and as many jobs as can be are
free, so there is no order that the manifest allows and this one breaks.
"""

from __future__ import annotations

import heapq
from dataclasses import dataclass, field
from typing import Collection, Iterable, Optional

from .events import Abort, Clean, Event, Fail, Finish, Interrupt, Listed, Pass, Plan, Start, Touch
from .manifest import Edge
from .rules import SETTLED, THROUGH, WANTED, Build, Refusal
from .said import Written
from .words import MOST_JOBS

_PHONY_EDGES = 100


@dataclass(eq=False)
class EdgeRun:
    """A command that ran. Times are milliseconds since Ninja began; `word` is finish, fail or abort.

    `code` is the exit status of one that failed, where Ninja tells it, and `written` what it wrote, where that is known
    and kept. `touched` has (path, stamp) of the outputs that get another stamp right after the end.
    """

    edge: Edge
    word: str
    start: int
    end: int
    stamps: list[int]
    listing: Optional[Listed] = None
    is_start_known: bool = True
    code: Optional[int] = None
    written: Optional[Written] = None
    touched: list[tuple[bytes, int]] = field(default_factory=list)

    def ended(self) -> Event:
        """Its end."""
        if self.word == "finish":
            return Finish(self.edge.name, self.stamps, self.listing)
        return Fail(self.edge.name, self.stamps) if self.word == "fail" else Abort(self.edge.name, self.stamps)


@dataclass
class Sequence:
    """The events in order, those that rebug's rules refuse with the refusal, and starts that could stand elsewhere.

    `times` has the milliseconds of each event since Ninja began, None where they are not known.
    """

    events: list[Event] = field(default_factory=list)
    times: list[Optional[int]] = field(default_factory=list)
    refused: list[tuple[Event, Refusal]] = field(default_factory=list)
    tied: list[Edge] = field(default_factory=list)
    jobs: int = 0


class _Places:
    """Jobs, or the slots of a pool. Which of the free ones an edge takes no log says, so one is taken that adds least.

    An edge that takes a place depends on the edge that held it last. So it takes one that was never held, while there
    are such; else the one that is free for the longest time. Where few places are wanted (`below`), it first looks for
    one of an edge that it stands on in any case.
    """

    def __init__(self, count: int) -> None:
        self.used, self.count = 0, count
        self.free: list[int] = []
        self.holder: dict[int, int] = {}

    def take(self, edge: Edge, below: Collection[int] = ()) -> int:
        known = [it for it in self.free if self.holder[it] in below] if below else []
        if known:
            place = known[-1]
            self.free.remove(place)
        elif self.used < self.count or not self.free:
            place = self.used
            self.used += 1
        else:
            place = self.free.pop(0)
        self.holder[place] = edge.number
        return place

    def give_back(self, place: int) -> None:
        self.free.append(place)

    def is_full(self) -> bool:
        return self.used >= self.count and not self.free


class Sequencer:
    """Hands events to the rules one by one, with the passes and cleans that become possible after each."""

    def __init__(self, build: Build, failures: int, most_jobs: int, as_run: bool,
                 longest_way_first: bool = False, side_by_side: Optional[int] = None) -> None:
        self.longest_way_first, self.side_by_side = longest_way_first, side_by_side
        self.ways: Optional[dict[int, int]] = None
        self.build, self.edges, self.producer = build, build.edges, build.producer
        self.failures_left, self.found, self.as_run = failures, Sequence(), as_run
        self.now: Optional[int] = 0
        self.targets: list[bytes] = []
        self.jobs = _Places(most_jobs)
        self.pools: dict[bytes, _Places] = {}
        self.waiting: dict[int, EdgeRun] = {}
        self.held: dict[int, tuple[int, Optional[int]]] = {}
        self.waits: dict[int, int] = {}
        self.users: dict[int, list[int]] = {}
        self.ready: list[int] = []
        self.will_run: set[int] = set()

    def put(self, event: Event) -> bool:
        """Adds an event, and does it where it is not refused; whether that is so."""
        self.found.events.append(event)
        self.found.times.append(self.now)
        refusal = self.build.refusal(event)
        if refusal:
            self.found.refused.append((event, refusal))
        else:
            self.build.do(event)
        return not refusal

    def plan(self, targets: list[bytes]) -> None:
        self.targets = targets
        if not self.put(Plan(targets)):
            return
        marks = self.build.marks
        for edge in self.edges:
            if marks[edge.number] in (WANTED, THROUGH):
                waits = {it.number for it in self.build.producers(edge) if marks[it.number] not in SETTLED}
                self.waits[edge.number] = len(waits)
                for it in waits:
                    self.users.setdefault(it, []).append(edge.number)
                if not waits:
                    heapq.heappush(self.ready, edge.number)
        self.go_on()

    def go_on(self) -> None:
        """Passes and cleans what can be; a Ninja that has met its last allowed failure goes no further."""
        while self.ready and self.failures_left > 0:
            edge = self.edges[heapq.heappop(self.ready)]
            if edge.phony or self.build.marks[edge.number] == THROUGH:
                event: Event = Pass(edge.name)
            elif edge.number not in self.will_run and not self.build.reasons(edge):
                event = Clean(edge.name)
            else:
                continue
            if self.put(event):
                self.settled(edge)

    def settled(self, edge: Edge) -> None:
        for user in self.users.get(edge.number, ()):
            self.waits[user] -= 1
            if not self.waits[user]:
                heapq.heappush(self.ready, user)

    def start(self, run: EdgeRun) -> None:
        """Starts a command. One that did not end well has a start by the clock, which may be milliseconds early. So it
        waits while its pool is full, or Ninja's jobs are, as it did in Ninja."""
        if run.word != "finish" and not self.has_room(run.edge):
            self.waiting[run.edge.number] = run
        else:
            self.start_now(run)

    def has_room(self, edge: Edge) -> bool:
        """Whether Ninja could start the edge by the number of commands that run."""
        pool = self.pool(edge)
        return (self.side_by_side is None or len(self.held) < self.side_by_side) and not (pool and pool.is_full())

    def start_now(self, run: EdgeRun) -> None:
        edge, pool = run.edge, self.pool(run.edge)
        below = self.below(edge) if self.as_run else set()
        job, slot = self.jobs.take(edge, below), None if pool is None else pool.take(edge, below)
        self.held[edge.number] = job, slot
        self.put(Start(edge.name, job, slot))

    def pool(self, edge: Edge) -> Optional[_Places]:
        """The slots of the edge's pool, where that has a depth."""
        depth = self.build.manifest.depth(edge)
        return self.pools.setdefault(edge.pool, _Places(depth)) if depth else None

    def start_waiting(self, always: bool = False) -> None:
        """Starts those that wait, as far as there is room for them, or all."""
        for run in list(self.waiting.values()):
            if always or self.has_room(run.edge):
                self.start_now(self.waiting.pop(run.edge.number))

    def end(self, run: EdgeRun) -> None:
        edge = run.edge
        if self.waiting.pop(edge.number, None):
            self.start_now(run)
        job, slot = self.held.pop(edge.number)
        self.jobs.give_back(job)
        if slot is not None:
            self.pools[edge.pool].give_back(slot)
        self.failures_left -= run.word == "fail"
        is_put = self.put(run.ended())
        for path, stamp in run.touched:
            self.put(Touch(path, stamp))
        if is_put and run.word == "finish":
            self.settled(edge)
        self.go_on()

    def below(self, edge: Edge) -> set[int]:
        """The numbers of the edges that the edge stands on, seen through phony edges as far as is cheap."""
        found: set[int] = set()
        todo = [edge]
        for it in todo:
            makers = self.build.producers(it)
            todo += [maker for maker in makers if maker.phony and maker.number not in found
                     and len(todo) < _PHONY_EDGES]
            found.update(maker.number for maker in makers)
        return found

    def place_among_starts(self, run: EdgeRun) -> tuple[int, int]:
        """By what Ninja orders edges that can start: the longest way first where it looks at that, then the number."""
        if self.longest_way_first and self.ways is None:
            self.ways = self.build.longest_ways(self.targets)
        return -(self.ways or {}).get(run.edge.number, 0), run.edge.number

    def can_start(self, run: EdgeRun) -> bool:
        """Whether all that the edge stands on has settled."""
        return not self.waits.get(run.edge.number)


# A path that changed: the milliseconds since Ninja began, where its new stamp tells them, the path, and the stamp.
Touched = tuple[Optional[int], bytes, int]


@dataclass
class _Moment:
    """What came in one millisecond: the paths that were touched with their stamps, the ends, and the starts."""

    touched: list[tuple[bytes, int]] = field(default_factory=list)
    ends: list[EdgeRun] = field(default_factory=list)
    starts: list[EdgeRun] = field(default_factory=list)


def sequence(build: Build, targets: list[bytes], runs: list[EdgeRun], touches: Iterable[Touched], failures: int,
             interrupted: bool = False, as_run: bool = False, longest_way_first: bool = False,
             side_by_side: Optional[int] = None) -> Sequence:
    """The order of a whole run. `touches` has (milliseconds or None, path, stamp); those without a time come last.

    Each start takes a job of its own, as far as MOST_JOBS go; `as_run` takes as few as ran side by side. Of starts in
    one millisecond Ninja's first one is first: `longest_way_first` says how it orders them. `side_by_side` is how many
    commands Ninja ran at one time at most, where that is known.
    """
    most_jobs = build.job_count if as_run else min(len(runs), MOST_JOBS)
    it = Sequencer(build, failures, most_jobs, as_run, longest_way_first, side_by_side)
    it.will_run = {run.edge.number for run in runs}
    build.job_count = max(build.job_count, len(runs))  # whatever the order asks for is given, and written as `jobs`
    it.plan(targets)
    moments: dict[int, _Moment] = {}
    for run in runs:
        moments.setdefault(run.start, _Moment()).starts.append(run)
        if run.word != "abort":
            moments.setdefault(run.end, _Moment()).ends.append(run)
    for time, path, stamp in touches:
        if time is not None:
            moments.setdefault(time, _Moment()).touched.append((path, stamp))
    for now in sorted(moments):
        it.now = now
        _take(it, moments[now])
    if interrupted:
        it.failures_left = 0
        it.now = max((run.end for run in runs), default=0)
        it.start_waiting(always=True)
        it.put(Interrupt())
        for run in runs:
            if run.word == "abort":
                it.end(run)
    it.now = None
    for time, path, stamp in touches:
        if time is None:
            it.put(Touch(path, stamp))
    it.found.jobs = it.jobs.used
    return it.found


def _take(it: Sequencer, moment: _Moment) -> None:
    """All of one millisecond: what was touched, the ends in the log's order, then the starts in Ninja's order, and
    then those that waited for the ends."""
    ends, starts = moment.ends, moment.starts
    if ends:
        it.found.tied += [run.edge for run in starts if it.can_start(run) and any(end is not run for end in ends)]
    for path, stamp in moment.touched:
        it.put(Touch(path, stamp))
        it.go_on()
    for run in ends:
        if run in starts:
            it.start(run)
            starts.remove(run)
        it.end(run)
    for run in sorted(starts, key=it.place_among_starts) if len(starts) > 1 else starts:
        it.start(run)
    if ends:
        it.start_waiting()
