"""What is counted of the builds of one manifest. Counts of some builds and those of others add up in any order.

An anchor is a command that failed in some builds. Of each other command that is not ordered with it, it is counted in
which of a few spans of time it began and ended, from the begin of the anchor on. Of the builds in which the anchor
failed these spans are kept one by one; of all others it is counted how often each came.
"""

from __future__ import annotations

import enum
import re
from bisect import bisect_left, bisect_right
from collections import Counter
from collections.abc import Callable, Mapping
from dataclasses import dataclass, field
from typing import Any

from ..summary.packed import NEVER, BadText, Columns
from .reading import Build, Fault, Manifest

MOMENTS = (0, 10, 30, 100, 300, 1_000, 3_000, 10_000, 30_000)
"""Milliseconds from the begin of the anchor on, by which another command had begun or ended."""
SPANS = len(MOMENTS) + 1
_ROW = re.compile(r"(?:[0-9]{2}|--)*")


class Fate(enum.Enum):
    """What became of an anchor in a build: it failed, it ended well, or it does not count."""

    BAD = "bad"
    GOOD = "good"
    NONE = "none"


@dataclass
class Orders:
    """How commands stand to one anchor. `good` has by each other command how often it ended and began in each span, of
    builds in which the anchor ended well. `bad` has by each other build two digits a command: the spans in which it
    ended and began, or `--` where the two do not count. `used` is how many builds count. `known` is how long after the
    begin of the anchor the orders are known in each of them, in milliseconds: up to its end, and up to the failure at
    which Ninja stopped."""

    good: dict[int, list[int]] = field(default_factory=dict)
    bad: dict[str, str] = field(default_factory=dict)
    known: int | None = None
    used: int = 0

    def add(self, other: Orders) -> None:
        """Adds the counts of other builds."""
        for command, counts in other.good.items():
            own = self.good.setdefault(command, [0] * (2 * SPANS))
            for at, count in enumerate(counts):
                own[at] += count
        self.used += other.used - len(self.bad.keys() & other.bad.keys())
        self.bad.update(other.bad)
        self.known = min((it for it in (self.known, other.known) if it is not None), default=None)


@dataclass(frozen=True)
class Occasion:
    """A build in which a command failed: when it ended, its name and its labels."""

    when: int
    build: str
    labels: dict[str, str]

    def rank(self) -> tuple[int, str]:
        """Which of two builds was the first: of those that ended in one second the one with the first name."""
        return self.when, self.build


def _earlier(one: Occasion | None, other: Occasion | None) -> Occasion | None:
    return one or other if not (one and other) else one if one.rank() <= other.rank() else other


def _later(one: Occasion | None, other: Occasion | None) -> Occasion | None:
    return one or other if not (one and other) else one if one.rank() >= other.rank() else other


@dataclass
class Failures:
    """Of a command that failed: in how many builds it did and in how many it ran, the first and the last of those, by
    labels in how many builds it failed, and first lines of its errors."""

    failed: int = 0
    ran: int = 0
    first: Occasion | None = None
    last: Occasion | None = None
    labels: Counter[str] = field(default_factory=Counter)
    texts: Counter[str] = field(default_factory=Counter)

    def add(self, other: Failures) -> None:
        """Adds the counts of other builds."""
        self.failed, self.ran = self.failed + other.failed, self.ran + other.ran
        self.first, self.last = _earlier(self.first, other.first), _later(self.last, other.last)
        self.labels.update(other.labels)
        self.texts.update(other.texts)


@dataclass
class Sums:
    """What is counted of one manifest's builds: how many there are and how many had a failed command, by labels too;
    how often each command ran; the failures; how each finding fell in good and bad builds; and the orders by
    anchors."""

    builds: int = 0
    bad: int = 0
    labels: Counter[str] = field(default_factory=Counter)
    commands: dict[int, Failures] = field(default_factory=dict)
    findings: Counter[str] = field(default_factory=Counter)
    orders: dict[int, Orders] = field(default_factory=dict)
    _ran: Counter[int] = field(default_factory=Counter)
    _whole: int = 0

    def add(self, other: Sums) -> None:
        """Adds the counts of other builds."""
        self.builds, self.bad = self.builds + other.builds, self.bad + other.bad
        self.labels.update(other.labels)
        self.findings.update(other.findings)
        for command, its in other.commands.items():
            self.commands.setdefault(command, Failures()).add(its)
        for anchor, them in other.orders.items():
            self.orders.setdefault(anchor, Orders()).add(them)

    def count(self, build: Build, manifest: Manifest, its: Columns) -> None:
        """Counts one build, without its orders. Raises BadText."""
        if any(command >= len(manifest.names) for command in build.failed):
            raise BadText("a command failed there that its manifest does not have")
        is_bad = bool(build.failed)
        self.builds, self.bad = self.builds + 1, self.bad + is_bad
        self.labels.update(_labels(build))
        self.findings.update(f"{name} {'bad' if is_bad else 'good'} {fell}" for name, fell in build.findings.items()
                             if name in manifest.findings)
        if its.has_stopped:
            self._ran.update(it for it, end in zip(its.ran, its.ends) if end != NEVER)
        elif len(its.ran) == len(manifest.names):
            self._whole += 1
        else:
            self._ran.update(its.ran)
        for command, text in build.failed.items():
            occasion = Occasion(build.when, build.id, build.labels)
            failure = Failures(1, 0, occasion, occasion, Counter(_labels(build)), Counter([text] if text else []))
            self.commands.setdefault(command, Failures()).add(failure)

    def settle(self, manifest: Manifest) -> None:
        """Says of each command in how many of the builds that were counted it ran. `_whole` is how many of these builds
        ran all of them."""
        if self._whole:
            self._ran.update(dict.fromkeys(range(len(manifest.names)), self._whole))
        for command, ran in self._ran.items():
            self.commands.setdefault(command, Failures()).ran += ran
        self._ran.clear()
        self._whole = 0


def _labels(build: Build) -> list[str]:
    return [f"{name}={value}" for name, value in build.labels.items()]


def is_stopped(build: Build, its: Columns) -> bool:
    """Whether Ninja stopped a build from nothing at its first failure, so that a command without a run had not begun by
    then. A build in which a command began later went on after it (`-k`)."""
    return build.is_from_nothing and bool(build.failed) and bool(its.ran) and (
        its.begins[-1] <= first_failure(build, its))


def first_failure(build: Build, its: Columns) -> int:
    """When the first command of a build failed."""
    return min((its.span(it)[1] for it in build.failed), default=NEVER)


def failed_or_not(command: int) -> Callable[[Build], Fate]:
    """What became of a command in a build."""
    return lambda build: Fate.BAD if command in build.failed else Fate.GOOD


_NO_ORDER, _LATE = 255, SPANS * SPANS - 1
_TEXTS = ["%d%d" % divmod(it, SPANS) for it in range(SPANS * SPANS)] + ["--"] * (256 - SPANS * SPANS)
_MOST_ROWS = 64


def _code(begin: int, end: int) -> int:
    """The spans in which a command ended and began, as one number."""
    ended = bisect_left(MOMENTS, end)
    return SPANS * ended + min(ended, bisect_right(MOMENTS, begin))


class OrderCount:
    """Counts how the commands that are not ordered with an anchor stood to it, build by build.

    Two commands count in a build where both ran; also where the other one never began, since Ninja had stopped before,
    in a build from nothing. `good` has the counts of the builds in which the anchor passed, where they are known.
    """

    def __init__(self, anchor: int, manifest: Manifest, fate: Callable[[Build], Fate], is_good_counted: bool) -> None:
        count = len(manifest.names)
        ordered = manifest.before(anchor) | manifest.after(anchor) | {anchor}
        self.orders = Orders()
        self._anchor, self.fate, self._is_good_counted = anchor, fate, is_good_counted
        self._count, self._others = count, [it for it in range(count) if it not in ordered]
        self._rows: list[bytes] = []

    def add(self, build: Build, its: Columns, has_stopped: bool) -> None:
        """Counts one more build. `has_stopped` says whether Ninja stopped it, as `is_stopped` has it."""
        (began, ended), fate = its.span(self._anchor), self.fate(build)
        if ended == NEVER or fate is Fate.NONE:
            return
        orders, until = self.orders, min(ended, first_failure(build, its)) if has_stopped else ended
        orders.used += 1
        orders.known = max(0, min(until - began, until - began if orders.known is None else orders.known))
        if fate is Fate.GOOD and self._is_good_counted:
            return
        row = self._row(its, began, has_stopped)
        if fate is Fate.BAD:
            texts = ["--"] * self._count
            for it in self._others:
                texts[it] = _TEXTS[row[it]]
            orders.bad[build.id] = "".join(texts)
            return
        self._rows.append(row)
        if len(self._rows) >= _MOST_ROWS:
            self._fold()

    def total(self, good: Mapping[int, list[int]] | None = None) -> Orders:
        """What was counted. `good` has the counts of the builds in which the anchor passed, where these are not counted
        here."""
        self._fold()
        if self._is_good_counted and good is not None:
            self.orders.good = {it: good[it] for it in self._others if it in good}
        return self.orders

    def _row(self, its: Columns, began: int, has_stopped: bool) -> bytes:
        """Of each command one number for the spans in which it ended and began, from the begin of the anchor on."""
        late = bisect_right(its.begins, began + MOMENTS[-1])
        if has_stopped or len(its.ran) == self._count:
            row = bytearray([_LATE]) * self._count
        else:
            row = bytearray([_NO_ORDER]) * self._count
            for command in its.ran[late:]:
                row[command] = _LATE
        for command, begin, end in zip(its.ran[:late], its.begins, its.ends):
            row[command] = 0 if end <= began else _code(begin - began, end - began)
        return bytes(row)

    def _fold(self) -> None:
        """Adds the rows of some builds to the counts."""
        rows, self._rows = b"".join(self._rows), []
        if not rows:
            return
        for other in self._others:
            column = rows[other :: self._count]
            for code in set(column):
                if code == _NO_ORDER:
                    continue
                counts, its = self.orders.good.setdefault(other, [0] * (2 * SPANS)), column.count(code)
                counts[code // SPANS] += its
                counts[SPANS + code % SPANS] += its


def members_of(sums: Sums) -> dict[str, Any]:
    """The counts as members of a JSON object."""
    commands = {str(name): {"failed": it.failed, "ran": it.ran, "first": _told(it.first), "last": _told(it.last),
                            "labels": dict(it.labels), "texts": dict(it.texts)}
                for name, it in sums.commands.items()}
    orders = {str(anchor): {"good": {str(name): counts for name, counts in it.good.items()}, "bad": it.bad,
                            "known": it.known, "used": it.used} for anchor, it in sums.orders.items()}
    return {"builds": sums.builds, "failing": sums.bad, "labels": dict(sums.labels), "commands": commands,
            "findings": dict(sums.findings), "orders": orders}


def sums_of(it: dict[str, Any], manifest: Manifest) -> Sums:
    """The counts that a JSON object has. Raises Fault."""
    count = len(manifest.names)
    try:
        found = Sums(_whole(it["builds"]), _whole(it["failing"]), _counter(it["labels"]),
                     findings=_counter(it["findings"]))
        for name, its in it["commands"].items():
            found.commands[_command(name, count)] = Failures(
                _whole(its["failed"]), _whole(its["ran"]), _occasion(its["first"]), _occasion(its["last"]),
                _counter(its["labels"]), _counter(its["texts"]))
        for name, its in it["orders"].items():
            good = {_command(of, count): [_whole(number) for number in counts] for of, counts in its["good"].items()}
            bad = {str(of): str(row) for of, row in its["bad"].items()}
            if not all(len(counts) == 2 * SPANS for counts in good.values()) or not all(
                    len(row) == 2 * count and _ROW.fullmatch(row) for row in bad.values()):
                raise Fault("sums with orders of another length")
            found.orders[_command(name, count)] = Orders(good, bad, _whole_or_none(its["known"]), _whole(its["used"]))
    except (KeyError, TypeError, ValueError, AttributeError) as why:
        raise Fault("sums with other members") from why
    return found


def _told(it: Occasion | None) -> dict[str, Any] | None:
    return {"when": it.when, "build": it.build, "labels": it.labels} if it else None


def _occasion(it: Any) -> Occasion | None:
    if it is None:
        return None
    labels = {str(name): str(value) for name, value in it["labels"].items()}
    return Occasion(_whole(it["when"]), str(it["build"]), labels)


def _whole(it: Any) -> int:
    if not isinstance(it, int) or isinstance(it, bool) or not 0 <= it < 1 << 60:
        raise ValueError
    return it


def _whole_or_none(it: Any) -> int | None:
    return None if it is None else _whole(it)


def _counter(it: Any) -> Counter[str]:
    return Counter({str(name): _whole(number) for name, number in it.items()})


def _command(name: str, count: int) -> int:
    if not (name.isascii() and name.isdigit() and len(name) < 10 and int(name) < count):
        raise ValueError
    return int(name)
