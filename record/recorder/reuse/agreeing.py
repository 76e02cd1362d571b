"""Two runs of one command: whether all that both looked at answered alike, and whether they left the same."""

from __future__ import annotations

from collections.abc import Mapping
from dataclasses import dataclass
from typing import NamedTuple

from .recording import Run
from .shared import Shared


class Difference(NamedTuple):
    """A place that answered two runs otherwise, and what it answered before and now."""

    place: int
    before: int
    now: int


@dataclass(frozen=True)
class Pair:
    """`others` are the places that answered the two runs otherwise, and `flags` those of both. `is_certain`: both were
    observed whole, and it is certain what both met. `left_same`: whether both left the same; None where that is not
    certain."""

    others: list[Difference]
    flags: list[bytes]
    is_certain: bool
    left_same: bool | None


def compared(shared: Shared, one: Run, other: Run) -> Pair:
    """A run, and an earlier one of the same command. Only places at which both looked count: a command that does the
    same where it sees the same asks for the same first place, and where that answers alike for the same second one.
    What stood at a place that one of them changes counts where bytes of it were read: whether an output was there
    before is no input."""
    answers, others = other.answers, []
    for place, answer in one.answers.items():
        its = answers.get(place, answer)
        if its != answer and not shared.agree(its, answer):
            is_own = place in one.changed or place in other.changed
            if not (is_own and shared.is_bare(its) and shared.is_bare(answer)):
                others.append(Difference(place, its, answer))
    flags = [*one.flags, *other.flags]
    return Pair(others, flags, not (flags or one.unsure or other.unsure), _left_same(one.left, other.left))


def _left_same(one: Mapping[int, int | None], other: Mapping[int, int | None]) -> bool | None:
    """Whether two runs left the same contents at the same places."""
    is_certain = True
    for place in one.keys() | other.keys():
        here, there = one.get(place, -1), other.get(place, -1)
        if here is None or there is None:
            is_certain = False
        elif here != there:
            return False
    return True if is_certain else None
