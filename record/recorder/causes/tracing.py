"""Where the differences of commands come from."""

from __future__ import annotations

from bisect import bisect_left
from collections.abc import Iterator, Sequence
from dataclasses import dataclass

from .judging import Outcome, Verdict

_FOLLOWS = (Verdict.PROPAGATED, Verdict.ABSORBED)


@dataclass(frozen=True)
class Cause:
    """What a command that met something else follows from: the outcome of this number, which left other contents and
    began before, or else a place that no such command left otherwise."""

    behind: int | None = None
    source: int | None = None


@dataclass(frozen=True)
class Branch:
    """A line of the tree: the outcome of this number, or a place that no command left otherwise, and how many lines are
    above it."""

    depth: int
    number: int | None = None
    source: int | None = None


class Causes:
    """By the number of each outcome its cause, None where it follows from nothing, and how many propagated commands
    stand below it in the tree."""

    def __init__(self, outcomes: Sequence[Outcome]) -> None:
        """The outcomes stand in the order of the starts, so that no cause follows from what comes of it."""
        self._outcomes = outcomes
        self._makers: dict[int, list[int]] = {}
        for number, it in enumerate(outcomes):
            for place in it.made:
                self._makers.setdefault(place, []).append(number)
        self.causes = [self._cause(number) if it.verdict in _FOLLOWS else None for number, it in enumerate(outcomes)]
        self.followers = [0] * len(outcomes)
        self._below: dict[int, list[int]] = {}
        self._of_sources: dict[int, list[int]] = {}
        for number in reversed(range(len(outcomes))):
            cause = self.causes[number]
            if outcomes[number].verdict is not Verdict.PROPAGATED or cause is None:
                continue
            if cause.behind is not None:
                self.followers[cause.behind] += 1 + self.followers[number]
                self._below.setdefault(cause.behind, []).append(number)
            elif cause.source is not None:
                self._of_sources.setdefault(cause.source, []).append(number)

    def maker(self, place: int, number: int) -> int | None:
        """The last command before an outcome that left something else at a place, or may have."""
        makers = self._makers.get(place, [])
        at = bisect_left(makers, number)
        return makers[at - 1] if at else None

    def tree(self) -> Iterator[Branch]:
        """Below each command, and below each place that no command left otherwise, the commands that follow from it.
        Each command comes once."""
        for number, it in enumerate(self._outcomes):
            if it.verdict is not Verdict.PROPAGATED and self._below.get(number):
                yield from self._branch(Branch(0, number))
        for source, numbers in sorted(self._of_sources.items(), key=lambda it: it[1][-1]):
            yield Branch(0, source=source)
            for number in reversed(numbers):
                yield from self._branch(Branch(1, number))

    def chain(self, number: int) -> Iterator[int]:
        """An outcome, what it follows from, and so on back to the first cause."""
        yield number
        while (cause := self.causes[number]) is not None and cause.behind is not None:
            number = cause.behind
            yield number

    def _cause(self, number: int) -> Cause:
        """The cause of a command that met something else: of several the one that began first."""
        others = self._outcomes[number].others
        makers = [it for it in (self.maker(one.place, number) for one in others) if it is not None]
        return Cause(behind=min(makers)) if makers else Cause(source=others[0].place)

    def _branch(self, top: Branch) -> Iterator[Branch]:
        todo = [top]
        while todo:
            it = todo.pop()
            yield it
            if it.number is not None:
                todo += [Branch(it.depth + 1, below) for below in self._below.get(it.number, [])]
