"""rebug's rules of a build, as docs/FORMATS.md states them: reasons, the plan, and what each event asks and does.

The recorder needs them to say where restat left an edge clean and where phony edges are passed, which no log of
Ninja's has, and to tell at once where rebug will refuse what Ninja did. The judge is always rebug itself.
"""

from __future__ import annotations

from typing import Iterable, Optional, Sequence, Union

from .depfiles import read_depfile
from .depslog import Listing, paths_of
from .events import Abort, Clean, Event, Fail, Finish, Interrupt, Listed, Pass, Plan, Start, Touch
from .listed import DepsRecord, ListedPaths
from .manifest import Edge, Manifest

# The numbers of a refusal: its own, and those of what is in the way.
Refusal = tuple[int, ...]
# Why an edge would run: the reason's word, and the paths that it is about.
Reason = tuple[Union[str, bytes], ...]
_REASONS = "missing no-deps deps-old rebuilt missing-dep older no-record command".split()

IDLE, WANTED, THROUGH, RUNNING = "idle", "wanted", "through", "running"
DONE, CLEAN, FAILED, STOPPED = "done", "clean", "failed", "stopped"
SETTLED = frozenset((IDLE, DONE, CLEAN))


class Build:
    """The state of a build over a manifest: stamps, marks, jobs and slots, both logs, and whether it was halted."""

    def __init__(self, manifest: Manifest, jobs: int = 1, stamps: Optional[dict[bytes, int]] = None,
                 built: Optional[dict[bytes, tuple[int, bytes]]] = None,
                 deps: Optional[dict[bytes, DepsRecord]] = None) -> None:
        self.manifest, self.edges, self.producer = manifest, manifest.edges, manifest.producer
        self.job_count, self.halted = jobs, False
        self.stamps, self.built, self.deps = dict(stamps or {}), dict(built or {}), dict(deps or {})
        self.marks = [IDLE] * len(self.edges)
        # of running edges their job, slot and greatest stamp seen; of those that are done which outputs are changed
        self.running: dict[int, tuple[int, Optional[int], int]] = {}
        self.changed: dict[int, set[int]] = {}
        self.jobs: dict[int, int] = {}
        self.slots: dict[tuple[bytes, int], int] = {}
        self.lists = ListedPaths(self)

    # What the state shows.

    def listed(self, edge: Edge) -> list[bytes]:
        """The paths of the edge's deps record."""
        return list(paths_of(self.lists.listing(edge)))

    def inputs(self, edge: Edge) -> list[bytes]:
        """All inputs of the edge, the listed ones last."""
        return edge.inputs + self.listed(edge)

    def visible(self, path: bytes, known: Optional[dict[bytes, int]] = None) -> int:
        """The stamp that a path shows: of a missing output of a phony edge the greatest of that edge's inputs."""
        stamp = self.stamps.get(path, 0)
        maker = None if stamp else self.producer.get(path)
        if maker is None or not maker.phony:
            return stamp
        known = {} if known is None else known
        if path not in known:
            known[path] = max((self.visible(it, known) for it in maker.explicit + maker.implicit), default=0)
        return known[path]

    def is_changed(self, path: bytes) -> bool:
        """Whether the path was rebuilt."""
        maker = self.producer.get(path)
        if maker is None or self.marks[maker.number] != DONE:
            return False
        return maker.outputs.index(path) in self.changed[maker.number]

    def reasons(self, edge: Edge, known: Optional[dict[bytes, int]] = None) -> list[Reason]:
        """Why the edge would run."""
        stamp = self.stamps.get
        if edge.phony:
            return [] if edge.inputs else [("missing", it) for it in edge.outputs if not stamp(it, 0)]
        found: list[Reason] = [("missing", it) for it in edge.outputs if not stamp(it, 0)]
        record = self.deps.get(edge.outputs[0]) if edge.keeps_deps else None
        if edge.keeps_deps and record is None:
            found.append(("no-deps",))
        if record and record[0] < stamp(edge.outputs[0], 0):
            found.append(("deps-old",))
        line = edge.explicit + edge.implicit
        found += [("rebuilt", it) for it in line if self.is_changed(it)]
        found += [("rebuilt", it) for it in self.lists.changed(edge)]
        known, newest, first = {} if known is None else known, 0, b""
        for path in line:
            shows = self.visible(path, known)
            if shows > newest:
                newest, first = shows, path
        shows, path, missing = self.lists.newest(edge, known)
        found += [("missing-dep", it) for it in missing]
        if shows > newest and path is not None:
            newest, first = shows, path
        found += [("older", it, first) for it in edge.outputs if self.effective(edge, it) < newest]
        return found + self.record_reasons(edge)

    def newest(self, edge: Edge, known: Optional[dict[bytes, int]] = None) -> int:
        """The greatest stamp that an input shows, order-only ones left out; 0 where there is none."""
        known = {} if known is None else known
        line = max((self.visible(path, known) for path in edge.explicit + edge.implicit), default=0)
        return max(line, self.lists.newest(edge, known)[0])

    def effective(self, edge: Edge, path: bytes) -> int:
        """The stamp with which an output counts."""
        record = self.built.get(path) if edge.restat else None
        return max(self.stamps.get(path, 0), record[0] if record else 0)

    def record_reasons(self, edge: Edge) -> list[Reason]:
        """The reasons that the build log gives."""
        if edge.generator:
            return []
        records = [(it, self.built.get(it)) for it in edge.outputs]
        found: list[Reason] = [("no-record", it) for it, record in records if record is None]
        return found + [("command", it) for it, record in records if record and record[1] != edge.command]

    # Plan.

    def reached(self, targets: Iterable[bytes]) -> list[Edge]:
        """The edges that the targets lead to, in rising number."""
        todo = [self.producer[it] for it in targets if it in self.producer]
        found: dict[int, Edge] = {}
        while todo:
            edge = todo.pop()
            if edge.number not in found:
                found[edge.number] = edge
                todo += self.producers(edge)
                todo += [self.producer[it] for it in edge.validations if it in self.producer]
        return [found[it] for it in sorted(found)]

    def producers(self, edge: Edge) -> list[Edge]:
        """The edges that make its inputs."""
        return [self.producer[it] for it in edge.inputs if it in self.producer] + self.lists.makers(edge)

    def dirtying_producers(self, edge: Edge) -> list[Edge]:
        """The producers of inputs that are not order-only."""
        line = [self.producer[it] for it in edge.explicit + edge.implicit if it in self.producer]
        return line + self.lists.makers(edge)

    def plan_refusal(self, targets: Sequence[bytes]) -> Optional[Refusal]:
        """What a plan of these targets is refused for."""
        running = [it.number for it in self.edges if self.marks[it.number] == RUNNING]
        if running:
            return 50, running[0]
        known = None
        for place, path in enumerate(targets):
            if path not in self.producer:
                known = self.manifest.known_paths() if known is None else known
                if path not in known:
                    return 51, place
        reached = self.reached(targets)
        for edge in reached:
            for place, path in enumerate(edge.inputs):
                if path not in self.producer and not self.stamps.get(path, 0):
                    return 52, place, edge.number
        left = self.in_order(reached)[1]
        for edge in left:
            if edge in self.reached_from_inputs(edge):
                return 53, edge.number
        return None

    def reached_from_inputs(self, edge: Edge) -> list[Edge]:
        """The edges that it stands on."""
        todo, found = self.producers(edge), []
        seen: set[int] = set()
        while todo:
            it = todo.pop()
            if it.number not in seen:
                seen.add(it.number)
                found.append(it)
                todo += self.producers(it)
        return found

    def in_order(self, reached: Sequence[Edge]) -> tuple[list[Edge], list[Edge]]:
        """The edges with each behind the producers of its inputs, and those left over where some need themselves."""
        waits = {it.number: {p.number for p in self.producers(it)} for it in reached}
        users: dict[int, list[int]] = {}
        for number, found in waits.items():
            for it in found:
                users.setdefault(it, []).append(number)
        ready = [number for number, found in waits.items() if not found]
        ordered = []
        for number in ready:
            ordered.append(self.edges[number])
            for user in users.get(number, ()):
                waits[user].discard(number)
                if not waits[user]:
                    ready.append(user)
        done = {it.number for it in ordered}
        return ordered, [it for it in reached if it.number not in done]

    def longest_ways(self, targets: Sequence[bytes]) -> dict[int, int]:
        """Edge number -> how many commands it and those behind it have in a row, as far as the targets reach: Ninja
        from 1.12 on starts first what has most."""
        ordered, _ = self.in_order(self.reached(targets or self.manifest.defaults()))
        ways = {edge.number: int(not edge.phony) for edge in ordered}
        for edge in reversed(ordered):
            for maker in self.producers(edge):
                ways[maker.number] = max(ways.get(maker.number, 0), ways[edge.number] + (not maker.phony))
        return ways

    def plan(self, targets: Sequence[bytes]) -> None:
        """Marks what the targets want; the plan must not be refused."""
        ordered, _ = self.in_order(self.reached(targets))
        known: dict[bytes, int] = {}
        marks = [IDLE] * len(self.edges)
        for edge in ordered:
            if any(it[0] != "rebuilt" for it in self.reasons(edge, known)):
                marks[edge.number] = WANTED
            elif any(marks[it.number] == WANTED for it in self.dirtying_producers(edge)):
                marks[edge.number] = WANTED
            elif any(marks[it.number] in (WANTED, THROUGH) for it in self.producers(edge)):
                marks[edge.number] = THROUGH
        self.marks, self.halted = marks, False

    # Events. `refusal` gives the first refusal or None; `do` is the event.

    def refusal(self, event: Event) -> Optional[Refusal]:
        """What the event is refused for."""
        if isinstance(event, Plan):
            return self.plan_refusal(event.targets or self.manifest.defaults())
        if isinstance(event, Touch):
            return None
        if isinstance(event, Interrupt):
            return (65,) if self.halted else None
        edge = self.producer.get(event.output)
        if edge is None:
            return (60,)
        if isinstance(event, Pass):
            return self.pass_refusal(edge)
        if edge.phony:
            return (61,)
        if isinstance(event, Start):
            return self.start_refusal(edge, event)
        if isinstance(event, Clean):
            return self.clean_refusal(edge)
        if isinstance(event, Abort) and not self.halted:
            return (64,)
        return self.end_refusal(edge, event)

    def blocked(self, edge: Edge) -> Optional[Refusal]:
        """The first input whose producer has not settled."""
        if all(self.marks[it.number] in SETTLED for it in self.producers(edge)):
            return None
        for place, path in enumerate(self.inputs(edge)):
            maker = self.producer.get(path)
            if maker is not None and self.marks[maker.number] not in SETTLED:
                return 68, place
        return None

    def pass_refusal(self, edge: Edge) -> Optional[Refusal]:
        mark = self.marks[edge.number]
        if mark == WANTED and not edge.phony:
            return (62,)
        return self.blocked(edge) if mark in (WANTED, THROUGH) else (66,)

    def start_refusal(self, edge: Edge, event: Start) -> Optional[Refusal]:
        if self.halted:
            return (63,)
        if self.marks[edge.number] != WANTED:
            return (66,)
        depth, job, slot = self.manifest.depth(edge), event.job, event.slot
        if self.blocked(edge):
            return self.blocked(edge)
        if not self.reasons(edge):
            return (69,)
        if job >= self.job_count:
            return (71,)
        if job in self.jobs:
            return 72, self.jobs[job]
        if slot is None or depth is None:
            return None if slot is None and depth is None else (73,)
        if slot >= depth:
            return (73,)
        return (74, self.slots[edge.pool, slot]) if (edge.pool, slot) in self.slots else None

    def clean_refusal(self, edge: Edge) -> Optional[Refusal]:
        if self.marks[edge.number] != WANTED:
            return (66,)
        if self.blocked(edge):
            return self.blocked(edge)
        found = self.reasons(edge)
        return (70, _REASONS.index(str(found[0][0])) + 1) if found else None

    def end_refusal(self, edge: Edge, event: Union[Finish, Fail, Abort]) -> Optional[Refusal]:
        if self.marks[edge.number] != RUNNING:
            return (67,)
        if len(event.stamps) != len(edge.outputs):
            return 75, len(edge.outputs)
        listing = event.listing if isinstance(event, Finish) else None
        if listing is None:
            return None
        if not edge.keeps_deps:
            return (76,)
        return (77,) if isinstance(listing, bytes) and read_depfile(listing, edge.outputs) is None else None

    def do(self, event: Event) -> None:
        """The event, which must not be refused."""
        if isinstance(event, Plan):
            self.plan(event.targets or self.manifest.defaults())
        elif isinstance(event, Touch):
            self.set_stamp(event.path, event.stamp)
        elif isinstance(event, Interrupt):
            self.halted = True
        elif isinstance(event, Start):
            self.start(self.producer[event.output], event.job, event.slot)
        elif isinstance(event, Finish):
            self.finish(self.producer[event.output], event.stamps, event.listing)
        elif isinstance(event, (Fail, Abort)):
            self.end(self.producer[event.output], FAILED if isinstance(event, Fail) else STOPPED, event.stamps)
        elif isinstance(event, Clean):
            self.marks[self.producer[event.output].number] = CLEAN
        else:
            self.pass_by(self.producer[event.output])

    def set_stamp(self, path: bytes, stamp: int) -> None:
        self.stamps[path] = stamp
        self.lists.stamped(path, stamp)

    def start(self, edge: Edge, job: int, slot: Optional[int]) -> None:
        seen = self.newest(edge)
        self.marks[edge.number], self.running[edge.number] = RUNNING, (job, slot, seen)
        self.jobs[job] = edge.number
        if slot is not None:
            self.slots[edge.pool, slot] = edge.number

    def end(self, edge: Edge, mark: str, stamps: Sequence[int]) -> tuple[int, list[bool]]:
        """The end of a command: the greatest stamp that it had seen, and which outputs have another stamp now."""
        job, slot, seen = self.running.pop(edge.number)
        del self.jobs[job]
        if slot is not None:
            del self.slots[edge.pool, slot]
        self.marks[edge.number] = mark
        before = [self.stamps.get(it, 0) for it in edge.outputs]
        for path, stamp in zip(edge.outputs, stamps):
            self.set_stamp(path, stamp)
        return seen, [was != now for was, now in zip(before, stamps)]

    def finish(self, edge: Edge, stamps: Sequence[int], listing: Optional[Listed]) -> None:
        seen, differs = self.end(edge, DONE, stamps)
        self.changed[edge.number] = {at for at, it in enumerate(differs) if it or not edge.restat}
        for at, (path, stamp) in enumerate(zip(edge.outputs, stamps)):
            is_changed = at in self.changed[edge.number]
            self.built[path] = (stamp if is_changed else seen, edge.command)
        if edge.keeps_deps:
            if not isinstance(listing, Listing):
                paths = read_depfile(listing, edge.outputs) if isinstance(listing, bytes) else listing
                listing = list(dict.fromkeys(paths or ()))
            self.deps[edge.outputs[0]] = (stamps[0], listing)
            self.lists.forget(edge)

    def pass_by(self, edge: Edge) -> None:
        changed: set[int]
        if self.marks[edge.number] == THROUGH:
            changed = set()
        elif not edge.inputs:
            changed = {at for at, it in enumerate(edge.outputs) if not self.stamps.get(it, 0)}
        elif any(self.is_changed(it) for it in edge.explicit + edge.implicit):
            changed = set(range(len(edge.outputs)))
        else:
            changed = set()
        self.marks[edge.number], self.changed[edge.number] = DONE, changed
