"""Which orders separate the bad builds of an anchor from the good ones, and by how much.

For each command that is not ordered with the anchor there are a few properties of a build: whether the command had
ended, or had begun, by some moments from the anchor's begin on, and whether it ran at that begin. Each property and its
opposite is a test. The chance that nothing separates the builds is that of Fisher's exact test, one-sided, times the
number of all tests of the manifest. A culprit is named where that is below one in a hundred.
"""

from __future__ import annotations

import enum
from collections.abc import Collection, Iterable, Iterator, Sequence
from dataclasses import dataclass, field
from fractions import Fraction
from itertools import accumulate

from .fisher import chance, is_below
from .reading import Finding, Manifest
from .sums import MOMENTS, SPANS, Orders

LEAST = Fraction(1, 100)
_MOST_CULPRITS, _MOST_MORE = 5, 4_096


class State(enum.Enum):
    """What a command had done by a moment."""

    ENDED = "had ended"
    RAN = "ran"
    BEGUN = "had begun"


@dataclass(frozen=True)
class Property:
    """A property of a build: a command had done something by a moment (milliseconds from the anchor's begin on); or had
    not, where it `holds` not."""

    state: State
    moment: int
    holds: bool

    def told(self, command: str, anchor: str) -> str:
        """The property in words."""
        when = f"when {anchor} began" if not self.moment else f"{self.moment} ms after {anchor} began"
        if self.state is State.RAN:
            return f"{command} {'ran' if self.holds else 'did not run'} {when}"
        return f"{command} {'had' if self.holds else 'had not'} {self.state.value.removeprefix('had ')} {when}"

    def is_of(self, ended: int, began: int) -> bool:
        """Whether a build has the property in which the command ended and began in these spans."""
        at = MOMENTS.index(self.moment)
        has_ended, has_begun = ended <= at, began <= at
        found = {State.ENDED: has_ended, State.BEGUN: has_begun, State.RAN: has_begun and not has_ended}[self.state]
        return found is self.holds

    def count(self, builds: int, ended: int, begun: int) -> int:
        """How many of so many builds have the property, where the command had ended and begun in some of them by the
        moment."""
        found = {State.ENDED: ended, State.BEGUN: begun, State.RAN: begun - ended}[self.state]
        return found if self.holds else builds - found


@dataclass(frozen=True)
class Separation:
    """How a property of one command separates: it holds in `a` of `bad` bad builds and in `c` of `good` good ones."""

    command: int
    property: Property
    a: int
    bad: int
    c: int
    good: int

    def chance(self) -> float:
        """How often luck alone separates so well, or better."""
        return chance(self.a, self.bad, self.c, self.good)


@dataclass
class Culprit:
    """A separation with a chance that is small enough, or else the smallest. `ties` are commands that separate as well,
    of which none waits for another, and `followers` are those that do so and wait for one of these. `corrected` is the
    chance times the number of tests. `findings` are of the command and the anchor. `more` is how many further builds
    would be needed where the chance is not small enough, None where thousands would not do. `builds` has the names of
    the bad builds that are counted."""

    separation: Separation
    ties: list[int]
    followers: list[int]
    corrected: float
    is_named: bool
    findings: list[Finding]
    more: int | None = None
    builds: frozenset[str] = frozenset()


@dataclass
class Anchor:
    """What was found of one anchor: in how many builds it is bad and good, how many commands are not ordered with it,
    and the culprits. `left` says that it left other bytes, and did not fail."""

    command: int
    bad: int
    good: int
    others: int
    left: bool = False
    culprits: list[Culprit] = field(default_factory=list)


def tests_of(orders: Orders) -> int:
    """How many tests one anchor makes."""
    others = len(orders.good) if orders.good else max((_counted(row) for row in orders.bad.values()), default=0)
    return 2 * others * len(list(_properties(orders)))


def _counted(row: str) -> int:
    return sum(row[at] != "-" for at in range(0, len(row), 2))


def _properties(orders: Orders) -> Iterator[tuple[State, int]]:
    """The properties without their opposites: by moments up to which the orders are known, since what comes later a
    failure may cause."""
    for at, moment in enumerate(MOMENTS):
        if at and moment > (orders.known or 0):
            return
        yield State.ENDED, at
        if not at:
            yield State.RAN, at
        yield State.BEGUN, at


def judge(anchor: int, manifest: Manifest, orders: Orders, tests: int, left: bool = False) -> Anchor:
    """What separates the bad builds of an anchor, where `tests` are made in all."""
    rows = {name: _spans(row) for name, row in sorted(orders.bad.items())}
    found = Anchor(anchor, len(rows), orders.used - len(rows), len(orders.good), left)
    near: dict[int, list[Finding]] = {}
    for name in sorted(manifest.findings):
        it = manifest.findings[name]
        if anchor in (it.maker, it.user):
            near.setdefault(it.user if it.maker == anchor else it.maker, []).append(it)
    remaining = set(rows)
    while remaining and len(found.culprits) < _MOST_CULPRITS:
        counts = _counts(rows[it] for it in sorted(remaining))
        its = _best(orders, counts)
        if not its:
            break
        culprit = _culprit(its, {it: _lateness(counts[it], orders.good[it]) for it in its}, manifest, near, tests)
        if found.culprits and not culprit.is_named:
            break
        culprit.builds = frozenset(remaining)
        found.culprits.append(culprit)
        if not culprit.is_named:
            break
        best = culprit.separation
        remaining = {it for it in remaining
                     if best.command not in rows[it] or not best.property.is_of(*rows[it][best.command])}
    return found


def _spans(row: str) -> dict[int, tuple[int, int]]:
    return {at // 2: (int(row[at]), int(row[at + 1])) for at in range(0, len(row), 2) if row[at] != "-"}


def _counts(rows: Iterable[dict[int, tuple[int, int]]]) -> dict[int, list[int]]:
    """Of bad builds, by each command how often it ended and began in each span."""
    found: dict[int, list[int]] = {}
    for row in rows:
        for command, (ended, began) in row.items():
            counts = found.setdefault(command, [0] * (2 * SPANS))
            counts[ended] += 1
            counts[SPANS + began] += 1
    return found


def _best(orders: Orders, counts: dict[int, list[int]]) -> dict[int, Separation]:
    """By each command that separates with the smallest chance of all how it does so. Of each property that direction
    counts in which it is more frequent in bad builds."""
    best, found = 2.0, dict[int, Separation]()
    properties = sorted(_properties(orders), key=lambda pair: (_RANKS[pair[0]], pair[1]))
    for command, of_bad in counts.items():
        if command not in orders.good:
            continue
        ours, theirs = _sums(of_bad), _sums(orders.good[command])
        bad, good = ours[SPANS - 1], theirs[SPANS - 1]
        for state, at in properties:
            a, c = _count(state, at, ours), _count(state, at, theirs)
            holds = a * good >= c * bad
            if not holds:
                a, c = bad - a, good - c
            its = chance(a, bad, c, good)
            if its < best:
                best, found = its, {}
            if its == best:
                found.setdefault(command, Separation(command, Property(state, MOMENTS[at], holds), a, bad, c, good))
    return found


def _sums(counts: Sequence[int]) -> list[int]:
    """Of spans of ends and of begins how many builds are in each or in one before."""
    return [*accumulate(counts[:SPANS]), *accumulate(counts[SPANS:])]


def _count(state: State, at: int, sums: Sequence[int]) -> int:
    ended, begun = sums[at], sums[SPANS + at]
    return ended if state is State.ENDED else begun if state is State.BEGUN else begun - ended


def _lateness(*counts: Sequence[int]) -> int:
    """How late a command ended and began, by spans and over all builds."""
    return sum(at % SPANS * count for its in counts for at, count in enumerate(its))


_RANKS = {State.ENDED: 0, State.RAN: 1, State.BEGUN: 2}


def _culprit(its: dict[int, Separation], lateness: dict[int, int], manifest: Manifest,
             near: dict[int, list[Finding]], tests: int) -> Culprit:
    """The culprit of commands that separate equally well. One with a finding comes first. Of the others one does that
    waits for none of these, and then the one that ends first: what runs behind a culprit separates as well."""
    first = _first(its, manifest)

    def rank(it: int) -> tuple[int, int, int, int]:
        property_ = its[it].property
        return _RANKS[property_.state], property_.moment, lateness[it], it

    chosen = its[min([it for it in its if it in near] or first, key=rank)]
    ties = sorted((it for it in first if it != chosen.command), key=rank)
    followers = sorted(its.keys() - {chosen.command, *first})
    is_named = is_below(chosen.a, chosen.bad, chosen.c, chosen.good, tests, LEAST)
    return Culprit(chosen, ties, followers, min(1.0, chosen.chance() * tests), is_named,
                   near.get(chosen.command, []), None if is_named else _more(chosen, tests))


def _first(commands: Collection[int], manifest: Manifest) -> list[int]:
    """Those commands that wait for none of the others; all where each one does, as in no manifest of Ninja's."""
    waiting = manifest.after_all(commands)
    return [it for it in commands if it not in waiting] or list(commands)


def _more(it: Separation, tests: int) -> int | None:
    """How many more builds with the same shares make the separation small enough; None where thousands do not."""
    if it.a * it.good <= it.c * it.bad:
        return None
    own, more = it.bad + it.good, 1
    while more <= _MOST_MORE:
        if _is_enough(it, own + more, tests):
            return _least(it, own, more, tests)
        more *= 2
    return None


def _least(it: Separation, own: int, enough: int, tests: int) -> int:
    """The least number of further builds that is enough, by halving."""
    low = enough // 2
    while enough - low > 1:
        middle = (low + enough) // 2
        if _is_enough(it, own + middle, tests):
            enough = middle
        else:
            low = middle
    return enough


def _is_enough(it: Separation, builds: int, tests: int) -> bool:
    own = it.bad + it.good
    bad = builds * it.bad // own
    a, c = bad * it.a // it.bad, -(-(builds - bad) * it.c // it.good) if it.good else 0
    return is_below(a, bad, c, builds - bad, tests, LEAST)
