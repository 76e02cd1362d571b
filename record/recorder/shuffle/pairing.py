"""Which two commands a difference comes from: the one whose place is moved, and the one that it must not pass.

Both searches run orders that are orders of the manifest, and end at two commands whose swap alone changes the answer.
"""

from __future__ import annotations

import bisect
from dataclasses import dataclass
from typing import Callable, Hashable, Sequence

from .orders import Graph


@dataclass(frozen=True)
class Pair:
    """Two commands of which neither waits for the other: the build is as its own order has it where `first` runs before
    `second`."""

    first: int
    second: int


Look = Callable[[Sequence[Sequence[int]]], list[Hashable]]
"""Runs beginnings of orders side by side, each up to the command that is looked at, and gives what that did."""


def walked(graph: Graph, own: Sequence[int], other: Sequence[int], user: int, look: Look) -> Pair | None:
    """The command that must run before the user, or behind it. None where no single one is found so.

    The user is put as early as it can be, and then its place is bisected in that order in which it does another thing:
    what stands behind it is not run.
    """
    needed = graph.waited_for(user)
    alone = [it for it in own if it in needed] + [user]
    in_own, in_other, early = look([up_to(own, user), up_to(other, user), alone])
    if in_own == in_other:
        return None
    order, at_end = (own, in_own) if early != in_own else (other, in_other)
    before = [it for it in up_to(order, user)[:-1] if it not in needed]
    low, high = 0, len(before)
    while high - low > 1:
        middle = (low + high) // 2
        kept = needed | set(before[:middle])
        (found,) = look([[it for it in order if it in kept] + [user]])
        if found == at_end:
            high = middle
        else:
            low = middle
    if not before:
        return None
    partner = before[high - 1]
    place = {node: at for at, node in enumerate(own)}
    there = {node: at for at, node in enumerate(other)}
    if (place[partner] < place[user]) == (there[partner] < there[user]):
        return None  # three commands meet: this one stands there in both orders
    return Pair(partner, user) if place[partner] < place[user] else Pair(user, partner)


def up_to(order: Sequence[int], user: int) -> list[int]:
    """The beginning of an order that ends with the user."""
    return list(order[: order.index(user) + 1])


class Swaps:
    """The way from one order to another, by swaps of two that stand next to each other. Each order on it is an order of
    the manifest, since both ends are."""

    def __init__(self, one: Sequence[int], other: Sequence[int]) -> None:
        self.one = list(one)
        self.place = {node: at for at, node in enumerate(other)}
        self.count = [0]
        places: list[int] = []
        for node in one:
            at = self.place[node]
            self.count.append(self.count[-1] + len(places) - bisect.bisect(places, at))
            bisect.insort(places, at)

    @property
    def length(self) -> int:
        return self.count[-1]

    def order(self, step: int) -> list[int]:
        """The order after so many swaps."""
        moving = bisect.bisect_right(self.count, step) - 1
        if moving >= len(self.one):
            return sorted(self.one, key=self.place.__getitem__)
        head = sorted(self.one[:moving], key=self.place.__getitem__)
        at = len(head) - (step - self.count[moving])
        return head[:at] + [self.one[moving]] + head[at:] + self.one[moving + 1 :]

    def pair(self, step: int) -> Pair:
        """The two that are swapped at this step."""
        before, after = self.order(step), self.order(step + 1)
        at = next(at for at, node in enumerate(before) if node != after[at])
        return Pair(before[at], before[at + 1])


def bisected(own: Sequence[int], other: Sequence[int], is_as_own: Callable[[list[int]], bool]) -> Pair:
    """The pair whose swap changes the answer, by halving the way from the own order to one that gives another."""
    way = Swaps(own, other)
    low, high = 0, way.length
    while high - low > 1:
        middle = (low + high) // 2
        if is_as_own(way.order(middle)):
            low = middle
        else:
            high = middle
    return way.pair(low)
