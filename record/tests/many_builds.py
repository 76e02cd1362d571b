"""Builds that are made up: a schedule of commands by chance, with a seed, and which command fails by a rule."""

from __future__ import annotations

import heapq
import random
from collections.abc import Callable, Sequence
from dataclasses import dataclass, field

from recorder.summary.findings import Finding
from recorder.summary.lines import lines_of
from recorder.summary.packed import Run
from recorder.summary.recording import Build

Fails = Callable[[dict[str, tuple[int, int]]], str | None]
"""Which command fails in a build, by when each command began and ended."""


@dataclass
class Project:
    """Commands with what each waits for, and how long each takes: from so many to so many milliseconds."""

    waits: dict[str, Sequence[str]]
    lengths: dict[str, tuple[int, int]]
    fails: Fails
    findings: list[tuple[str, str, str]] = field(default_factory=list)
    jobs: int = 4

    def names(self) -> list[str]:
        return list(self.waits)

    def times(self, chance: random.Random) -> dict[str, tuple[int, int]]:
        """When each command begins and ends where none fails: the first that is ready begins first."""
        left = {name: set(its) for name, its in self.waits.items()}
        rank = {name: at for at, name in enumerate(self.waits)}
        running: list[tuple[int, int, str]] = []
        found: dict[str, tuple[int, int]] = {}
        now = 0
        while len(found) < len(left) or running:
            ready = sorted((name for name, its in left.items() if not its and name not in found), key=rank.__getitem__)
            for name in ready[: self.jobs - len(running)]:
                end = now + chance.randint(*self.lengths.get(name, (20, 60)))
                found[name] = now, end
                heapq.heappush(running, (end, rank[name], name))
            now, _, ended = heapq.heappop(running)
            for its in left.values():
                its.discard(ended)
        return found

    def build(self, seed: int, labels: dict[str, str] | None = None, when: int = 0) -> str:
        """The summary of a build."""
        times, names = self.times(random.Random(seed)), self.names()
        bad = self.fails(times)
        stop = times[bad][1] if bad else None
        runs = [Run(names.index(name), *its) for name, its in times.items() if stop is None or its[0] < stop]
        waits = [[names.index(it) for it in its] for its in self.waits.values()]
        build = Build(names, [("build.ninja", 2 * at + 1) for at in range(len(names))], waits, "0123456789abcdef", runs,
                      {names.index(bad): "error"} if bad else {}, "1.11.1", self.jobs, 1_700_000_000 + (when or seed),
                      True)
        findings = [Finding(name, "race", maker, names.index(maker), names.index(user), "before",
                            f"build.ninja:1: build {user}: ... || {maker}") for name, maker, user in self.findings]
        return "".join(it + "\n" for it in lines_of(build, findings, labels or {}))


def others(count: int) -> dict[str, Sequence[str]]:
    return {f"o{it}": [] for it in range(count)}


def race() -> Project:
    """`use.o` fails where `tab.h` has not ended when it begins; `list.o` waits for `tab.h`."""
    waits = {**others(6), "tab.h": ["o0"], "use.o": ["o2", "o3"], **{f"p{it}": ["o1"] for it in range(8)},
             "list.o": ["tab.h"], "app": ["use.o", "list.o", "o5"]}
    lengths = {"tab.h": (10, 120), "use.o": (20, 30), "o2": (60, 160), "o0": (20, 60)}
    return Project(waits, lengths, lambda it: "use.o" if it["tab.h"][1] > it["use.o"][0] else None,
                   [("a8a4fcf42eb58d0f", "tab.h", "use.o")])


def lock() -> Project:
    """`user` fails where `holder` runs when it begins, as of a lock that nothing observes."""
    waits = {**others(4), "holder": ["o1"], "user": ["o2"], **{f"p{it}": ["o0"] for it in range(10)},
             "app": ["user", "holder"]}
    lengths = {"holder": (20, 40), "o2": (20, 160), "user": (30, 40), "o1": (10, 90)}
    return Project(waits, lengths, lambda it: "user" if it["holder"][0] < it["user"][0] < it["holder"][1] else None)


def gone() -> Project:
    """`reader` fails where `cleaner` has ended before it begins, since that takes a file away."""
    waits = {**others(5), "cleaner": ["o1"], "reader": ["o2"], **{f"p{it}": ["o3"] for it in range(6)},
             "app": ["reader", "cleaner"]}
    lengths = {"cleaner": (10, 60), "o1": (20, 120), "o2": (20, 120), "reader": (20, 30)}
    return Project(waits, lengths, lambda it: "reader" if it["cleaner"][1] <= it["reader"][0] else None)


def two_culprits() -> Project:
    """`use` fails where `a` has not ended, and where `b` has not."""
    waits = {**others(6), "a": ["o0"], "b": ["o1"], "use": ["o2"], **{f"p{it}": ["o3"] for it in range(6)},
             "app": ["use", "a", "b"]}
    lengths = {"a": (10, 100), "b": (10, 100), "o0": (20, 60), "o1": (20, 60), "o2": (60, 160), "use": (20, 30)}
    return Project(waits, lengths,
                   lambda it: "use" if max(it["a"][1], it["b"][1]) > it["use"][0] else None, jobs=6)
