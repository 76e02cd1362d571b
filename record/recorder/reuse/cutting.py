"""What an early cutoff would have saved: commands that Ninja ran since others made their inputs anew, with the same
bytes.

Where a command leaves an output as it is, and its statement has `restat = 1`, Ninja does not run what only depends on
that output. So a command is saved where it had no reason of its own to run, and each command that makes an input of it
and ran left what was there before, or is saved itself.
"""

from __future__ import annotations

import enum
from collections.abc import Iterable, Sequence
from dataclasses import dataclass, field

from ..fields import canonical
from ..manifest import Edge
from .judging import Case, Judge

SEVERAL = b"\0"
"""Stands for several rules at once: no rule has this name."""


class Mend(enum.Enum):
    """What a rule lacks, so that Ninja runs nothing where its outputs stay the same."""

    RESTAT = "restat"
    COPY = "copy if different"
    BOTH = "restat and copy if different"


@dataclass
class Rule:
    """A rule whose commands left what was there before. `makers` are these, and `saved` the commands that a cutoff
    there alone would have saved. `lacks_restat`: a statement of these has no `restat`; `writes`: a command of these
    wrote an output anew."""

    name: bytes
    makers: list[Edge] = field(default_factory=list)
    saved: list[Edge] = field(default_factory=list)
    lacks_restat: bool = False
    writes: bool = False

    @property
    def mend(self) -> Mend:
        """What it lacks."""
        return Mend.RESTAT if not self.writes else Mend.BOTH if self.lacks_restat else Mend.COPY


@dataclass
class Cut:
    """What an early cutoff would have saved: all commands in the order of their starts, those by one rule alone, and
    those that need several rules at once. `stale` are commands that would not have run either, although they met other
    bytes at places that they do not declare."""

    saved: list[Edge] = field(default_factory=list)
    rules: dict[bytes, Rule] = field(default_factory=dict)
    several: list[Edge] = field(default_factory=list)
    stale: list[Edge] = field(default_factory=list)


class _State(enum.Enum):
    """What the outputs of an edge are for those that use them: Ninja ran nothing, or took them for unchanged; they are
    the same bytes, which Ninja did not see; or they are others."""

    QUIET, KEPT, CHANGED = range(3)


@dataclass(frozen=True)
class _Made:
    """The state of an edge's outputs, and the rule on which a saving would depend; None where there is none."""

    state: _State
    rule: bytes | None = None


_QUIET, _CHANGED = _Made(_State.QUIET), _Made(_State.CHANGED)


class Cutter:
    """Finds what an early cutoff would have saved of a recording's commands."""

    def __init__(self, judge: Judge, cases: Sequence[Case]) -> None:
        self._judge, self._new, self._cases = judge, judge.new, cases
        self._history, self._producer = judge.new.history, judge.new.manifest.producer
        self._made: dict[int, _Made] = {}
        self._stamps: dict[bytes, int] = {}

    def cut(self) -> Cut:
        """The answer. Raises BadRecording."""
        found = Cut()
        for case in self._cases:
            self._made[case.edge.number] = self._run(found, case)
        return found

    def _run(self, found: Cut, case: Case) -> _Made:
        """What becomes of a command that ran."""
        edge = case.edge
        listed = self._history.listed(edge)
        inputs = [*edge.explicit, *edge.implicit, *(listed[1] if listed else [])]
        if not self._has_reason(edge, inputs, listed[0] if listed else None):
            made = self._joined(inputs)
            if made.state is _State.KEPT and self._is_earlier(case):
                self._save(found, edge, made)
                return made
            if made.state is _State.KEPT and case.others:
                found.stale.append(edge)
        return self._left(found, case)

    def _save(self, found: Cut, edge: Edge, made: _Made) -> None:
        found.saved.append(edge)
        if made.rule is None or made.rule == SEVERAL:
            found.several.append(edge)
        else:
            found.rules[made.rule].saved.append(edge)

    def _left(self, found: Cut, case: Case) -> _Made:
        """What a command that had to run left."""
        edge, stamps = case.edge, self._history.left.get(case.edge.number)
        before = [self._history.stamps.get(it, 0) for it in edge.outputs]
        if stamps is None or not all(before):
            return _CHANGED
        is_untouched = stamps == before
        has_restat = bool(self._new.manifest.value(edge, b"restat"))
        if is_untouched and has_restat:
            return _QUIET
        stood = [self._judge.standing.stamp(canonical(it)) for it in edge.outputs]
        if not is_untouched and (case.is_same is not True or stood != before):
            return _CHANGED
        rule = found.rules.setdefault(edge.rule, Rule(edge.rule))
        rule.makers.append(edge)
        rule.lacks_restat |= not has_restat
        rule.writes |= not is_untouched
        return _Made(_State.KEPT, edge.rule)

    def _is_earlier(self, case: Case) -> bool:
        """Whether a command met what its last run met, which left what stood there."""
        edge = case.edge
        if not case.outcomes or any(self._judge.standing.stamp(canonical(it)) != self._history.stamps.get(it)
                                    for it in edge.outputs):
            return False
        return self._judge.is_served(case.outcomes[-1])

    def _joined(self, inputs: Iterable[bytes]) -> _Made:
        """The states of the commands that make some inputs, as one: kept where one is kept, and none is changed."""
        found = _QUIET
        for path in inputs:
            found = _both(found, self._maker(path))
            if found is _CHANGED:
                break
        return found

    def _maker(self, path: bytes) -> _Made:
        """The state of what makes a path. A phony statement has that of its inputs."""
        todo: list[tuple[Edge, bool]] = []
        edge = self._producer.get(path)
        if edge is not None:
            todo.append((edge, False))
        while todo:
            it, is_left = todo.pop()
            if is_left:
                inputs = [*it.explicit, *it.implicit]
                makers = [maker for maker in map(self._producer.get, inputs) if maker is not None]
                self._made[it.number] = _all(self._made.get(maker.number, self._not_yet(maker)) for maker in makers)
                if not it.inputs and not all(self._history.stamps.get(out) for out in it.outputs):
                    self._made[it.number] = _CHANGED
            elif it.phony and it.number not in self._made:
                self._made[it.number] = _QUIET
                todo.append((it, True))
                makers = [maker for maker in map(self._producer.get, (*it.explicit, *it.implicit)) if maker is not None]
                todo += [(maker, False) for maker in makers]
        return _QUIET if edge is None else self._made.get(edge.number, self._not_yet(edge))

    def _not_yet(self, edge: Edge) -> _Made:
        """The state of an edge that did not run before: one that runs later is not known."""
        return _CHANGED if edge.number in self._history.started else _QUIET

    def _has_reason(self, edge: Edge, inputs: Sequence[bytes], listed: int | None) -> bool:
        """Whether Ninja ran a command for a reason of its own, by what stood there before the build."""
        history, value = self._history, self._new.manifest.value
        stamps = [history.stamps.get(it, 0) for it in edge.outputs]
        if not all(stamps):
            return True
        if (value(edge, b"deps") or value(edge, b"depfile", True)) and (listed is None or listed < stamps[0]):
            return True
        if not value(edge, b"generator") and any(it not in history.built for it in edge.outputs):
            return True
        if value(edge, b"restat"):
            stamps = [max(stamp, history.built.get(it, 0)) for stamp, it in zip(stamps, edge.outputs)]
        newest = [self._stamp(it) for it in inputs]
        return any(not it and path not in self._producer for it, path in zip(newest, inputs)) \
            or bool(newest) and min(stamps) < max(newest)

    def _stamp(self, path: bytes) -> int:
        """The stamp of an input before the build. A phony output that is missing has the greatest of its inputs."""
        found = self._history.stamps.get(path, 0)
        edge = self._producer.get(path)
        if found or edge is None or not edge.phony:
            return found
        todo = [(path, False)]
        while todo:
            it, is_left = todo.pop()
            its = self._producer.get(it)
            if self._history.stamps.get(it, 0) or its is None or not its.phony:
                self._stamps[it] = self._history.stamps.get(it, 0)
            elif is_left:
                self._stamps[it] = max((self._stamps.get(one, 0) for one in its.inputs), default=0)
            elif it not in self._stamps:
                self._stamps[it] = 0
                todo.append((it, True))
                todo += [(one, False) for one in its.inputs]
        return self._stamps[path]


def _both(one: _Made, other: _Made) -> _Made:
    """Two states as one."""
    if _State.CHANGED in (one.state, other.state):
        return _CHANGED
    if one.state is _State.QUIET:
        return other
    if other.state is _State.QUIET or one.rule == other.rule:
        return one
    return _Made(_State.KEPT, SEVERAL)


def _all(its: Iterable[_Made]) -> _Made:
    found = _QUIET
    for it in its:
        found = _both(found, it)
    return found
