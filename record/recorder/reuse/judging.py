"""What becomes of each command that ran: whether an earlier recording would have served it, and why not."""

from __future__ import annotations

import enum
from collections import Counter
from collections.abc import Sequence
from dataclasses import dataclass, field

from ..fields import canonical
from ..manifest import Edge
from .agreeing import Difference, Pair, compared
from .beside import Beside, Candidates, Without, beside, key_of, text_of
from .recording import Recording, Run
from .shared import Folders, Shared
from .standing import Standing

ASIDE_FROM = 5
"""From so many commands on that met other bytes at a place of the system and left the same, the place is set aside."""


class Verdict(enum.Enum):
    """What becomes of a command."""

    SERVED = "served"
    SAME = "same bytes"
    RUN = "had to run"
    UNKNOWN = "not judged"


class Reason(enum.Enum):
    """Why a command had to run, or cannot be judged."""

    NEW = "no earlier run"
    COMMAND = "another command line"
    ENVIRONMENT = "another environment"
    LOOKS = "other answers"
    UNSURE = "uncertain bytes"
    FLAG = "not observed whole"
    UNOBSERVED = "not observed"
    NO_CONTENTS = "no contents"
    KEY = "environments of two keys"
    FAILED = "failed"


_DOUBTS = (Reason.FLAG, Reason.UNSURE, Reason.KEY, Reason.NO_CONTENTS, Reason.UNOBSERVED)


@dataclass
class Outcome:
    """How a command and its run in one earlier recording compare: `pair` where their looks were compared."""

    earlier: int
    reason: Reason | None
    pair: Pair | None = None


@dataclass
class Case:
    """A command that ran, with what becomes of it. `earlier` is the number of the recording that serves it, or with
    which it was compared. `others` are the places that answered otherwise, and `aside` those of them that were set
    aside. `is_same`: whether it left what earlier recordings left there; None where that is not certain. `flags` are
    those that stand in the way."""

    edge: Edge
    verdict: Verdict
    reason: Reason | None = None
    earlier: int | None = None
    others: list[Difference] = field(default_factory=list)
    aside: list[int] = field(default_factory=list)
    left_same: bool | None = None
    is_same: bool | None = None
    flags: list[bytes] = field(default_factory=list)
    outcomes: list[Outcome] = field(default_factory=list)


class Judge:
    """Judges the commands of a recording by earlier ones, which stand in the order of time."""

    def __init__(self, new: Recording, olds: Sequence[Recording], without: Without) -> None:
        """Raises BadRecording."""
        self.new, self.shared = new, Shared()
        new.share(self.shared, Folders([], []))
        self.earlier = [beside(new, it, self.shared, without) for it in sorted(olds, key=lambda it: it.history.ended)]
        self.standing = Standing(it.recording for it in self.earlier if it.recording.has_contents)

    def cases(self) -> list[Case]:
        """The commands that ran, in the order of their starts. Raises BadRecording."""
        edges = self.new.manifest.edges
        cases = [self._compared(edges[number]) for number in self.new.history.started]
        self._set_aside(cases)
        for case in cases:
            if case.verdict is Verdict.RUN:
                self._judge(case)
        return cases

    def _compared(self, edge: Edge) -> Case:
        """A command beside its earlier runs. What becomes of it is not judged yet where the verdict is RUN."""
        case, run = Case(edge, Verdict.RUN), self.new.run_of(edge)
        if edge.number in self.new.history.failed:
            return Case(edge, Verdict.UNKNOWN, Reason.FAILED)
        if run is None:
            return Case(edge, Verdict.UNKNOWN, Reason.UNOBSERVED)
        case.is_same = self.standing.is_same(run)
        for number, it in enumerate(self.earlier):
            old = it.edges.get(key_of(self.new, canonical(edge.name)))
            if old is not None and old.number not in it.recording.history.failed:
                case.outcomes.append(self._outcome(number, it, edge, run, old))
        return case

    def _outcome(self, number: int, earlier: Beside, edge: Edge, run: Run, old: Edge) -> Outcome:
        if not earlier.recording.has_contents:
            return Outcome(number, Reason.NO_CONTENTS)
        if text_of(self.new, edge) != earlier.folders.text(text_of(earlier.recording, old)):
            return Outcome(number, Reason.COMMAND)
        if earlier.others is None:
            return Outcome(number, Reason.KEY)
        if earlier.others:
            return Outcome(number, Reason.ENVIRONMENT)
        before = earlier.recording.run_of(old)
        if before is None:
            return Outcome(number, Reason.UNOBSERVED)
        return Outcome(number, None, compared(self.shared, run, before))

    def _set_aside(self, cases: Sequence[Case]) -> None:
        """Finds places of the system that differ, that no command leaves, and at which at least so many commands met
        other answers and left the same bytes all the same."""
        support = [Counter[int]() for _ in self.earlier]
        is_candidate = Candidates([self.new, *(it.recording for it in self.earlier)], self.shared)
        for case in cases:
            for it in case.outcomes:
                if it.pair is not None and it.pair.left_same and all(is_candidate(one.place) for one in it.pair.others):
                    support[it.earlier].update(one.place for one in it.pair.others)
        for earlier, counts in zip(self.earlier, support):
            earlier.aside = {place: count for place, count in counts.items() if count >= ASIDE_FROM}

    def _judge(self, case: Case) -> None:
        """Says what becomes of a command: what serves it counts first, then what cannot be known."""
        for it in reversed(case.outcomes):
            if it.pair is not None and self.is_served(it):
                case.verdict, case.earlier = Verdict.SERVED, it.earlier
                case.aside, case.left_same = [one.place for one in it.pair.others], it.pair.left_same
                return
        judged = [(self._reason(it), it) for it in reversed(case.outcomes)]
        judged.sort(key=lambda it: (it[0] not in _DOUBTS, it[1].pair is None))
        if not judged:
            case.reason = Reason.NEW
            return
        case.reason, found = judged[0]
        case.earlier = found.earlier
        if case.reason in _DOUBTS:
            case.verdict = Verdict.UNKNOWN
            case.flags = found.pair.flags if found.pair else []
            return
        case.verdict = Verdict.SAME if case.is_same else Verdict.RUN
        if found.pair is not None:
            aside = self.earlier[found.earlier].aside
            case.others = [it for it in found.pair.others if it.place not in aside] or found.pair.others

    def is_served(self, outcome: Outcome) -> bool:
        """Whether an earlier run serves a command. A place that is set aside speaks for a command that left the same
        bytes, and for no other."""
        pair = outcome.pair
        if pair is None or not pair.is_certain:
            return False
        aside = self.earlier[outcome.earlier].aside
        return not pair.others or pair.left_same is True and all(it.place in aside for it in pair.others)

    def _reason(self, outcome: Outcome) -> Reason:
        """Why an earlier run does not serve a command. What certainly differs counts before what is not certain."""
        pair = outcome.pair
        if pair is None:
            return outcome.reason or Reason.UNOBSERVED
        aside = self.earlier[outcome.earlier].aside
        if any(it.place not in aside for it in pair.others) or pair.is_certain:
            return Reason.LOOKS
        return Reason.FLAG if pair.flags else Reason.UNSURE
