"""From summaries to counts, and from counts to what separates the builds."""

from __future__ import annotations

from collections import Counter
from collections.abc import Callable, Iterator, Sequence
from dataclasses import dataclass, field

from ..summary.packed import BadText
from .judging import Anchor, Culprit, judge, tests_of
from .proved import Printed, good_of, has_program, tallies_of
from .reading import Build, Fault, Manifest, Summaries
from .sums import Fate, OrderCount, Orders, Sums, failed_or_not, is_stopped, sums_of

_MOST_CONTENTS = 8
"""A command that leaves more different contents than this leaves other bytes in any order."""


class OtherCounts(Exception):
    """A sentence: the proved program counts otherwise."""


@dataclass
class Counted:
    """The counts of one manifest's builds. `left` has orders of commands that left other bytes in some builds, and
    `fates` what became of these in a build. `builds` has those that count, and `stopped` the names of those that Ninja
    stopped."""

    name: str
    manifest: Manifest
    sums: Sums
    left: dict[int, Orders] = field(default_factory=dict)
    restless: list[int] = field(default_factory=list)
    fates: dict[int, Callable[[Build], Fate]] = field(default_factory=dict)
    builds: list[Build] = field(default_factory=list)
    stopped: set[str] = field(default_factory=set)
    _anchors: list[Anchor] | None = None

    def anchors(self) -> list[Anchor]:
        """What separates the builds of each anchor, those first that failed most often."""
        if self._anchors is None:
            self._anchors = self._judged()
        return self._anchors

    def _judged(self) -> list[Anchor]:
        failed = {command: self.sums.orders.get(command, Orders()) for command, its in self.sums.commands.items()
                  if 0 < its.failed < its.ran}
        tests = sum(tests_of(it) for it in (*failed.values(), *self.left.values()))
        found = [judge(it, self.manifest, orders, tests) for it, orders in failed.items()]
        found += [judge(it, self.manifest, orders, tests, left=True) for it, orders in self.left.items()]
        return sorted(found, key=lambda it: (it.left, -it.bad, it.command))

    def check(self) -> None:
        """Asks the proved program for the counts of each order that is printed. Raises OtherCounts."""
        them = [(anchor, it) for anchor in self.anchors() for it in anchor.culprits]
        if not them:
            return
        asked = [Printed(anchor.command, it.separation.command, it.separation.property.moment,
                         self.fates[anchor.command] if anchor.left else failed_or_not(anchor.command), it.builds)
                 for anchor, it in them]
        tallies = tallies_of(asked, self.builds, self.stopped, len(self.manifest.names))
        for (anchor, it), found in zip(them, tallies):
            if found is not None:
                self._compare(anchor, it, [(its[0], it.separation.property.count(*its)) for its in found])

    def _compare(self, anchor: Anchor, culprit: Culprit, due: list[tuple[int, int]]) -> None:
        its, names = culprit.separation, self.manifest.names
        if [(its.bad, its.a), (its.good, its.c)] != due:
            pair = f"{names[its.command]} and {names[anchor.command]}"
            raise OtherCounts(f"no answer: of {pair} Python counts {its.a} of {its.bad} and {its.c} of {its.good}, and "
                              f"the proved program {due[0][1]} of {due[0][0]} and {due[1][1]} of {due[1][0]}")


def counted(summaries: Summaries, anchors: Sequence[str], is_partial: bool) -> list[Counted]:
    """The counts by manifests, those with the most builds first. What does not count is noted in the summaries. Raises
    OtherCounts."""
    found = {name: Counted(name, manifest, Sums()) for name, manifest in summaries.manifests.items()}
    builds: dict[str, list[Build]] = {name: [] for name in found}
    for build in sorted(summaries.builds.values(), key=lambda it: it.id):
        builds[build.manifest].append(build)
    added = set(found) if is_partial else {name for name, _ in summaries.sums}
    for name, it in found.items():
        wanted = _wanted(it, builds[name], anchors)
        _Counting(it, builds[name], summaries).count(wanted, is_partial, bool(wanted) and name in added)
    for name, told in summaries.sums:
        try:
            if name not in found:
                raise Fault(f"no line has the names of its manifest {name}")
            found[name].sums.add(sums_of(told, found[name].manifest))
        except Fault as why:
            summaries.faults.add(f"sums: {why}")
    if has_program():
        for it in [it for name, it in found.items() if name not in added]:
            it.check()
    return sorted((it for it in found.values() if it.sums.builds), key=lambda it: (-it.sums.builds, it.name))


def _wanted(it: Counted, builds: Sequence[Build], anchors: Sequence[str]) -> list[int]:
    """The anchors: those that are named, or each command that failed."""
    if anchors:
        return [at for at, name in enumerate(it.manifest.names) if name in anchors]
    return sorted(command for command in {command for build in builds for command in build.failed}
                  if command < len(it.manifest.names))


class _Counting:
    """Counts the builds of one manifest, of which each is unpacked once."""

    def __init__(self, found: Counted, builds: Sequence[Build], summaries: Summaries) -> None:
        self._found, self._builds, self._summaries = found, builds, summaries
        self._sound, self._stopped = found.builds, found.stopped

    def count(self, anchors: Sequence[int], is_partial: bool, is_added: bool) -> None:
        """Counts all builds, and the orders with anchors. The program is asked for all counts of passing builds where
        these are added to others."""
        manifest, sums = self._found.manifest, self._found.sums
        is_asked = is_added and has_program()
        orders = {it: OrderCount(it, manifest, failed_or_not(it), is_asked) for it in anchors}
        left = {} if is_partial else self._left()
        self._pass([*orders.values(), *left.values()])
        good = good_of(self._sound, self._stopped, manifest, anchors) if is_asked else None
        if is_asked and good is None:  # the program has no answer
            orders = {it: OrderCount(it, manifest, failed_or_not(it), False) for it in anchors}
            self._pass_over_sound(list(orders.values()))
        sums.orders = {it: its.total(good[it] if good else None) for it, its in orders.items()}
        self._found.left = {it: its.total() for it, its in left.items()}
        self._found.fates = {it: its.fate for it, its in left.items()}

    def _pass(self, orders: Sequence[OrderCount]) -> None:
        """One pass over all builds. Those that cannot be unpacked are noted, and do not count."""
        manifest, sums = self._found.manifest, self._found.sums
        for build in self._builds:
            try:
                its = build.columns(len(manifest.names))
                sums.count(build, manifest, its)
            except BadText as why:
                self._summaries.faults.add(f"build {build.id}: {why}")
                continue
            self._sound.append(build)
            if is_stopped(build, its):
                self._stopped.add(build.id)
            for it in orders:
                it.add(build, its, build.id in self._stopped)
        sums.settle(manifest)

    def _pass_over_sound(self, orders: Sequence[OrderCount]) -> None:
        for build in self._sound:
            its = build.columns(len(self._found.manifest.names))
            for it in orders:
                it.add(build, its, build.id in self._stopped)

    def _left(self) -> dict[int, OrderCount]:
        """Commands that left other bytes in some builds in which nothing failed, and that wait for none that did."""
        lefts = dict(self._digests())
        contents: dict[int, Counter[bytes]] = {}
        for left in lefts.values():
            for command, digest in enumerate(left):
                if digest:
                    contents.setdefault(command, Counter())[digest] += 1
        vary = {command for command, them in contents.items() if len(them) > 1}
        found, manifest = {}, self._found.manifest
        for command in sorted(vary):
            if manifest.before(command) & vary:
                continue
            if len(contents[command]) > _MOST_CONTENTS:
                self._found.restless.append(command)
                continue
            common = min(contents[command], key=lambda digest: (-contents[command][digest], digest))
            found[command] = OrderCount(command, manifest, _left_or_not(lefts, command, common), False)
        return found

    def _digests(self) -> Iterator[tuple[str, list[bytes]]]:
        """What the commands left, of each build in which nothing failed."""
        for build in self._builds:
            try:
                left = None if build.failed else build.left(len(self._found.manifest.names))
            except BadText as why:
                self._summaries.faults.add(f"build {build.id}: {why}")
                continue
            if left is not None:
                yield build.id, left


def _left_or_not(lefts: dict[str, list[bytes]], command: int, common: bytes) -> Callable[[Build], Fate]:
    def fate(build: Build) -> Fate:
        digest = lefts[build.id][command] if build.id in lefts else b""
        return Fate.NONE if not digest else Fate.GOOD if digest == common else Fate.BAD
    return fate
