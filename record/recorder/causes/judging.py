"""What two recordings say of each command that ran in both. The definitions are those of the crate rev_contents."""

from __future__ import annotations

import enum
import os
from collections import Counter
from collections.abc import Mapping, Sequence
from dataclasses import dataclass, field
from typing import NamedTuple

from ..fields import canonical
from ..manifest import Edge
from ..reuse.agreeing import Difference, compared
from ..reuse.beside import Candidates, Without, beside, key_of, text_of
from ..reuse.judging import ASIDE_FROM
from ..reuse.recording import Recording, Run
from ..reuse.shared import Folders, Shared

_NOTHING = -1


class Verdict(enum.Enum):
    """What two runs say of their command: whether it met the same, and whether it left the same."""

    SAME = "same"
    FIRST = "first cause"
    SURROUNDINGS = "other surroundings"
    COMMAND = "other command"
    UNCERTAIN = "not certain"
    PROPAGATED = "propagated"
    ABSORBED = "absorbed"


class Doubt(enum.Enum):
    """Why it is not certain what a command met or left."""

    FAILED = "failed"
    UNOBSERVED = "not observed"
    FLAG = "not observed whole"
    UNSURE = "uncertain bytes"
    UNSETTLED = "uncertain outputs"


class Left(NamedTuple):
    """A place at which two runs left other contents: the answers that these are, None where a run left nothing."""

    place: int
    before: int | None
    now: int | None


@dataclass
class Outcome:
    """A command of both recordings, by its edge in the first one. `looks`: at how many places both runs looked.
    `others` are the places that certainly answered them otherwise, and `aside` those of them that are set aside. `left`
    are the places at which they certainly left other contents. `made` are all places at which they did, or may have."""

    edge: Edge
    verdict: Verdict = Verdict.UNCERTAIN
    doubt: Doubt | None = None
    is_other_line: bool = False
    looks: int = 0
    others: list[Difference] = field(default_factory=list)
    aside: list[int] = field(default_factory=list)
    left_same: bool | None = None
    left: list[Left] = field(default_factory=list)
    made: list[int] = field(default_factory=list)
    flags: list[bytes] = field(default_factory=list)


class Judge:
    """Judges the commands that ran in both of two recordings."""

    def __init__(self, one: Recording, other: Recording, without: Without) -> None:
        """Raises BadRecording."""
        self.one, self.other, self.shared = one, other, Shared()
        one.share(self.shared, Folders([], []))
        self.beside = beside(one, other, self.shared, without)
        self.outcomes = self._judged()

    @property
    def has_other_folder(self) -> bool:
        """Whether the build folder or one of the sources stood elsewhere."""
        return self.beside.folders.are_elsewhere or len(self.one.folders) != len(self.other.folders)

    @property
    def alone(self) -> tuple[int, int]:
        """How many commands ran in the first recording alone, and how many in the other."""
        count = len(self.outcomes)
        return len(self.one.history.started) - count, len(self.beside.edges) - count

    def _judged(self) -> list[Outcome]:
        """The commands that ran in both, in the order of their starts in the first recording."""
        found = list[Outcome]()
        for edge in map(self.one.manifest.edges.__getitem__, self.one.history.started):
            other = self.beside.edges.get(key_of(self.one, canonical(edge.name)))
            if other is not None:
                found.append(self._compared(edge, other))
        self._set_aside(found)
        for it in found:
            it.verdict = self._verdict(it)
        return found

    def _compared(self, edge: Edge, other: Edge) -> Outcome:
        """A command by its two runs, without a verdict."""
        it = Outcome(edge)
        one, its = self.one.run_of(edge), self.other.run_of(other)
        if edge.number in self.one.history.failed or other.number in self.other.history.failed:
            it.doubt = Doubt.FAILED
        elif one is None or its is None:
            it.doubt = Doubt.UNOBSERVED
        if it.doubt is not None or one is None or its is None:
            it.made = [self._place_of(name) for name in edge.outputs]
            return it
        line = self.beside.folders.text(text_of(self.other, other))
        it.is_other_line = text_of(self.one, edge) != line
        self._look(it, one, its)
        return it

    def _look(self, it: Outcome, one: Run, other: Run) -> None:
        """Takes what two runs met and left."""
        pair = compared(self.shared, other, one)
        both, unsure = one.answers.keys() & other.answers.keys(), one.unsure | other.unsure
        it.looks, it.flags, it.left_same = len(both), pair.flags, pair.left_same
        it.others = sorted((one for one in pair.others if one.place not in unsure), key=lambda it: self._path(it.place))
        it.left, unsettled = _left_otherwise(one.left, other.left)
        it.left.sort(key=lambda it: self._path(it.place))
        it.made = [*(left.place for left in it.left), *unsettled]
        it.made += {self.shared.place(os.path.dirname(self._path(left.place)).rstrip(b"/") + b"/")
                    for left in it.left if left.before is None or left.now is None}
        if pair.flags:
            it.doubt = Doubt.FLAG
        elif unsure & both:
            it.doubt = Doubt.UNSURE
        elif unsettled:
            it.doubt = Doubt.UNSETTLED

    def _set_aside(self, outcomes: Sequence[Outcome]) -> None:
        """Sets places of the system aside that differ, that no command leaves, and at which several commands met other
        answers and left the same bytes all the same."""
        is_candidate = Candidates([self.one, self.other], self.shared)
        support = Counter[int]()
        for it in outcomes:
            if it.left_same and not it.is_other_line and all(is_candidate(one.place) for one in it.others):
                support.update(one.place for one in it.others)
        self.beside.aside = {place: count for place, count in support.items() if count >= ASIDE_FROM}
        for it in outcomes:
            it.aside = [one.place for one in it.others if one.place in self.beside.aside]
            it.others = [one for one in it.others if one.place not in self.beside.aside]

    def _verdict(self, it: Outcome) -> Verdict:
        if it.left_same is None:
            return Verdict.UNCERTAIN
        if it.left_same:
            return Verdict.ABSORBED if it.others else Verdict.SAME
        if it.is_other_line:
            return Verdict.COMMAND
        if it.others:
            return Verdict.PROPAGATED
        if it.doubt is not None:
            return Verdict.UNCERTAIN
        if self.has_other_folder or self.beside.others != []:
            return Verdict.SURROUNDINGS
        return Verdict.FIRST

    def _place_of(self, name: bytes) -> int:
        """The place of a path of the first manifest."""
        return self.shared.place(os.path.normpath(os.path.join(self.one.entries.build, name)))

    def _path(self, place: int) -> bytes:
        return self.shared.paths[place]


def _left_otherwise(one: Mapping[int, int | None], other: Mapping[int, int | None]) -> tuple[list[Left], list[int]]:
    """The places at which two runs left other contents, and those at which it is not certain what they left."""
    found, unsettled = list[Left](), list[int]()
    for place in one.keys() | other.keys():
        here, there = one.get(place, _NOTHING), other.get(place, _NOTHING)
        if here is None or there is None:
            unsettled.append(place)
        elif here != there:
            found.append(Left(place, *(None if it == _NOTHING else it for it in (here, there))))
    return found, unsettled
