"""Orders of a build's commands, and which pairs of commands have stood both ways.

It is pure: what waits for what goes in, and orders and counts come out. Sets of commands are bits of one number each,
so that a set of 20,000 is an operation on 2,500 bytes.
"""

from __future__ import annotations

import heapq
import random
from dataclasses import dataclass
from typing import Callable, Iterator, Sequence

MOST_ORDERS = 12
"""How many orders are chosen at most where nobody says how many."""
_MANY = 8_000
"""From so many commands on fewer orders are tried, so that the next one is chosen within two seconds."""


class Cycle(Exception):
    """Commands that wait for each other have no order."""


@dataclass
class Graph:
    """What waits for what. Node number n waits for the nodes `before[n]`. A node is a command, or a name for others: a
    name is no step of an order, and only hands on what it waits for."""

    before: list[list[int]]
    is_command: list[bool]

    def __post_init__(self) -> None:
        self.after: list[list[int]] = [[] for _ in self.before]
        for node, them in enumerate(self.before):
            for it in them:
                self.after[it].append(node)
        self.commands = [node for node, it in enumerate(self.is_command) if it]
        self.by_waits = list(self._by_waits())

    def _by_waits(self) -> Iterator[int]:
        """All nodes, each behind those that it waits for."""
        left = [len(it) for it in self.before]
        ready = [node for node, count in enumerate(left) if not count]
        found = 0
        while ready:
            node = ready.pop()
            found += 1
            yield node
            for it in self.after[node]:
                left[it] -= 1
                if not left[it]:
                    ready.append(it)
        if found != len(self.before):
            raise Cycle("some commands wait for each other")

    def by_rank(self, rank: Sequence[int]) -> list[int]:
        """The order that always takes the command of the least rank of those that wait for nothing any more. Of nodes,
        numbers of places: commands have ranks that differ."""
        return self._taken(rank, self.before, self.after)

    def by_rank_from_the_end(self, rank: Sequence[int]) -> list[int]:
        """The order that is made from its end: the command of the least rank of those that nobody left waits for is put
        last."""
        return self._taken(rank, self.after, self.before)[::-1]

    def _taken(self, rank: Sequence[int], before: list[list[int]], after: list[list[int]]) -> list[int]:
        left, nodes = [len(it) for it in before], len(before)
        ready: list[int] = []
        free = [node for node, count in enumerate(left) if not count]
        found: list[int] = []
        while free or ready:
            while free:
                node = free.pop()
                if self.is_command[node]:
                    heapq.heappush(ready, (rank[node] + nodes) * nodes + node)  # a rank may be down to -nodes
                    continue
                for it in after[node]:
                    left[it] -= 1
                    if not left[it]:
                        free.append(it)
            if ready:
                node = heapq.heappop(ready) % nodes
                found.append(node)
                for it in after[node]:
                    left[it] -= 1
                    if not left[it]:
                        free.append(it)
        return found

    def opposite(self, order: Sequence[int]) -> list[int]:
        """Of the commands that wait for nothing, the one that is last in the order comes first."""
        return self.by_rank(self._ranks(reversed(order)))

    def opposite_from_the_end(self, order: Sequence[int]) -> list[int]:
        """Of the commands that nobody waits for, the one that is first in the order comes last."""
        return self.by_rank_from_the_end(self._ranks(order))

    def near(self, order: Sequence[int]) -> list[int]:
        """The order, changed where this graph has it wait."""
        return self.by_rank(self._ranks(order))

    def _ranks(self, order: Iterator[int] | Sequence[int]) -> list[int]:
        ranks = [len(self.before)] * len(self.before)
        for place, node in enumerate(order):
            ranks[node] = place
        return ranks

    def depth_first(self, order: Sequence[int]) -> list[int]:
        """The last command of the order first, with all that it waits for before it, of which again the last one comes
        first."""
        place = [-1] * len(self.before)
        for at, node in enumerate(order):
            place[node] = at
        for node in self.by_waits:  # a name counts as the last of what it stands for
            if not self.is_command[node]:
                place[node] = max((place[it] for it in self.before[node]), default=-1)
        last_first = lambda node: iter(sorted(self.before[node], key=place.__getitem__, reverse=True))
        seen, found = [False] * len(self.before), []
        for top in reversed(order):
            todo = [] if seen[top] else [(top, last_first(top))]
            seen[top] = True
            while todo:
                node, rest = todo[-1]
                below = next((it for it in rest if not seen[it]), None)
                if below is not None:
                    seen[below] = True
                    todo.append((below, last_first(below)))
                    continue
                todo.pop()
                if self.is_command[node]:
                    found.append(node)
        return found

    def at_random(self, seed: int) -> list[int]:
        """An order by chance: the same for the same seed."""
        ranks = list(range(len(self.before)))
        random.Random(seed).shuffle(ranks)
        return self.by_rank(ranks)

    def waited_for(self, node: int) -> set[int]:
        """The commands that a node waits for, through all that stands between."""
        seen, todo = {node}, [node]
        while todo:
            for it in self.before[todo.pop()]:
                if it not in seen:
                    seen.add(it)
                    todo.append(it)
        return {it for it in seen if it != node and self.is_command[it]}

    def is_order(self, order: Sequence[int]) -> bool:
        """Whether this is an order of all commands in which each stands behind what it waits for."""
        place = {node: at for at, node in enumerate(order)}
        if len(place) != len(order) or set(place) != set(self.commands):
            return False
        latest = [-1] * len(self.before)
        for node in self.by_waits:
            latest[node] = max((max(latest[it], place.get(it, -1)) for it in self.before[node]), default=-1)
        return all(latest[node] < place[node] for node in order)


def blocks_of(order: Sequence[int], size: int) -> list[Sequence[int]]:
    """The order cut into blocks of this size, of which the last one may be smaller."""
    return [order[at : at + size] for at in range(0, len(order), size)]


class Pairs:
    """The unordered pairs of commands: of which neither waits for the other. A pair is left as long as its commands
    have stood one way alone, in the first order and in all that were taken.

    Places are those of the first order; `_before[p]` has the places that stood before p in each order, and `_behind[p]`
    those that stood behind it.
    """

    def __init__(self, graph: Graph, first: Sequence[int]) -> None:
        self.graph, self.first = graph, list(first)
        self.place = {node: at for at, node in enumerate(first)}
        self._all = (1 << len(first)) - 1
        self.needs = self._reached(graph.before, graph.by_waits)
        users = self._reached(graph.after, graph.by_waits[::-1])
        self._before = [((1 << at) - 1) & ~it for at, it in enumerate(self.needs)]
        self._behind = [self._all >> (at + 1) << (at + 1) & ~it for at, it in enumerate(users)]
        self.unordered = self.left = sum(map(int.bit_count, self._before))
        self.taken: list[list[int]] = [self.first]

    def _reached(self, along: list[list[int]], nodes: Sequence[int]) -> list[int]:
        """Of each command, as bits, those that are reached from it along these lists."""
        found: list[int] = [0] * len(along)
        for node in nodes:
            mine = 0
            for it in along[node]:
                mine |= found[it]
                if it in self.place:
                    mine |= 1 << self.place[it]
            found[node] = mine
        return [found[node] for node in self.first]

    def left_with(self, order: Sequence[int], size: int = 1) -> int:
        """How many pairs would be left behind this order of all commands, in blocks of this size."""
        seen = total = 0
        place, before = self.place, self._before
        for block in blocks_of(order, size):
            seen |= self._bits_of(block)
            for node in block:
                total += (before[place[node]] & seen).bit_count()
        return total

    def take(self, blocks: Sequence[Sequence[int]]) -> None:
        """Notes that the commands of each block ran before those of the next one. Two of one block stood neither way. A
        command that is in no block did not run, and its pairs are left."""
        order = [node for block in blocks for node in block]
        others, seen = self._all & ~self._bits_of(order), 0
        for block in blocks:
            here = self._bits_of(block)
            for node in block:
                at = self.place[node]
                self._before[at] &= seen | here | others
                self._behind[at] &= self._all & ~seen | others
            seen |= here
        self.left = sum(map(int.bit_count, self._before))
        self.taken.append(order)

    def _bits_of(self, nodes: Sequence[int]) -> int:
        found = 0
        for node in nodes:
            found |= 1 << self.place[node]
        return found

    def is_left(self, one: int, other: int) -> bool:
        """Whether this is an unordered pair that stood one way alone."""
        here, there = sorted((self.place[one], self.place[other]))
        return bool(self._before[there] >> here & 1)

    def next_order(self, size: int = 1) -> list[int]:
        """The order that leaves the fewest pairs, of those that are tried, in blocks of this size."""
        best: list[int] = []
        least = -1
        for make in self._candidates():
            order = make()
            count = self.left_with(order, size)
            if least < 0 or count < least:
                best, least = order, count
            if not least:
                break
        return best

    def _candidates(self) -> Iterator[Callable[[], list[int]]]:
        graph = self.graph
        if len(self.taken) == 1:
            for way in (graph.opposite, graph.opposite_from_the_end, graph.depth_first):
                yield lambda way=way: way(self.first)  # type: ignore[misc]
            return
        # negative: more pairs wait for this command to come earlier than later
        gain = [behind.bit_count() - before.bit_count() for before, behind in zip(self._before, self._behind)]
        yield lambda: self._wanted_first(gain)
        yield lambda: self._by_gain(gain)
        yield lambda: self._nearest_gain(gain)
        known = list({id(it): it for it in (self.first, *self.taken[-2:])}.values())
        is_large = len(self.first) > _MANY
        for way, orders in ((graph.opposite, known), (graph.opposite_from_the_end, known[-1:] if is_large else known),
                            (graph.depth_first, [] if is_large else known)):
            for order in orders:
                yield lambda way=way, order=order: way(order)  # type: ignore[misc]

    def _ranked(self, gain: list[int], only: Callable[[int], bool]) -> list[int]:
        """Places by gain, of equal ones the last of the first order first, each behind all that it waits for."""
        done, found = 0, []
        for at in sorted(filter(only, range(len(self.first))), key=lambda at: (gain[at], -at)):
            if done >> at & 1:
                continue
            found += [*_bits(self.needs[at] & ~done), at]
            done |= self.needs[at] | 1 << at
        return [self.first[at] for at in found]

    def _wanted_first(self, gain: list[int]) -> list[int]:
        """Those that are to come before others first, and the rest opposite to the last order."""
        head = self._ranked(gain, lambda at: bool(self._before[at]))
        known = set(head)
        return head + [it for it in self.graph.opposite(self.taken[-1]) if it not in known]

    def _by_gain(self, gain: list[int]) -> list[int]:
        return self._ranked(gain, lambda at: True)

    def _nearest_gain(self, gain: list[int]) -> list[int]:
        ranks = [0] * len(self.graph.before)
        ranked = sorted(range(len(self.first)), key=lambda at: (gain[at], -at))
        for rank, at in enumerate(ranked):
            ranks[self.first[at]] = rank
        return self.graph.by_rank(ranks)


def _bits(them: int) -> list[int]:
    """The places of the bits that are set, the lowest first."""
    found = []
    while them:
        lowest = them & -them
        found.append(lowest.bit_length() - 1)
        them ^= lowest
    return found


@dataclass(frozen=True)
class Chosen:
    """An order, and how many pairs are left once it has run too."""

    order: list[int]
    left: int


def chosen(graph: Graph, first: Sequence[int], most: int = MOST_ORDERS, size: int = 1) -> Iterator[Chosen]:
    """The first order, and each next one, in blocks of this size, as the one that leaves fewest pairs, until none is
    left, or no order that is tried leaves fewer, or there are so many."""
    pairs = Pairs(graph, first)
    yield Chosen(pairs.first, pairs.left)
    for _ in range(most - 1):
        before = pairs.left
        if not before:
            return
        order = pairs.next_order(size)
        if pairs.left_with(order, size) == before:
            return
        pairs.take(blocks_of(order, size))
        yield Chosen(order, pairs.left)
