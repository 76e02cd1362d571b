"""Orders put into a manifest's files, behind `||` of a build statement, and what waits for what with them."""

from __future__ import annotations

import re
from collections import Counter
from dataclasses import dataclass, field
from types import MappingProxyType
from typing import Callable, Iterable, Mapping

from ..dyndep.reading import Told
from ..fields import canonical, shown
from ..manifest import Edge, Manifest

_TO_ESCAPE = re.compile(rb"[$ :]")
_NOT_WRITABLE = re.compile(rb"[|\n\r\0]")
_MOST_LOOKED_AT = 500
"""How many orders are looked at one by one, where all of them together make a cycle."""


class BadOrder(Exception):
    """Why an order cannot be put into the manifest."""


@dataclass(frozen=True)
class Order:
    """That an edge waits for another one, by an output of that one: the named one, or the first that can be written."""

    later: Edge
    first: Edge
    named: bytes | None = None

    def path(self) -> bytes:
        """The output that the statement of the later one names. Raises BadOrder."""
        for it in sorted(self.first.outputs, key=lambda output: output != self.named):
            if not _NOT_WRITABLE.search(it):
                return it
        raise BadOrder("no output of it can be written on a build line")


class Known:
    """What waits for what by a manifest, by what dyndep files say of its edges (`told`, by their numbers), and by the
    paths that Ninja has in its records of an edge (`listed`). Each edge is looked at once."""

    def __init__(self, manifest: Manifest, listed: Callable[[Edge], Iterable[bytes]] = lambda _: (),
                 told: Mapping[int, Told] = MappingProxyType({})) -> None:
        self.manifest, self._listed, self._told = manifest, listed, told
        self._makers_of = {path: manifest.edges[number] for number, it in told.items() for path in it.outputs}
        self._by_inputs: dict[int, list[Edge]] = {}
        self._by_records: dict[int, list[Edge]] = {}

    def by_inputs(self, edge: Edge) -> list[Edge]:
        """The edges that make its inputs."""
        if edge.number not in self._by_inputs:
            told = self._told[edge.number].inputs if edge.number in self._told else ()
            self._by_inputs[edge.number] = self._makers([*edge.inputs, *told])
        return self._by_inputs[edge.number]

    def by_records(self, edge: Edge) -> list[Edge]:
        """The edges that make what its records list."""
        if edge.number not in self._by_records:
            self._by_records[edge.number] = self._makers(self._listed(edge)) if edge.keeps_deps else []
        return self._by_records[edge.number]

    def _makers(self, paths: Iterable[bytes]) -> list[Edge]:
        found = (self.manifest.producer.get(it, self._makers_of.get(it)) for it in paths)
        return list({it.number: it for it in found if it is not None}.values())


@dataclass
class Graph:
    """Which edge waits for which: by what is known, and by orders that are added. Of the edges in `left_out` the
    records go."""

    known: Known
    left_out: set[int] = field(default_factory=set)
    added: dict[int, list[Edge]] = field(default_factory=dict)

    def add(self, order: Order) -> None:
        """Has an edge wait for another one."""
        self.added.setdefault(order.later.number, []).append(order.first)

    def remove(self, order: Order) -> None:
        """Takes an order away that was added."""
        self.added[order.later.number].remove(order.first)

    def below(self, edge: Edge) -> list[Edge]:
        """The edges that it waits for by itself."""
        records = () if edge.number in self.left_out else self.known.by_records(edge)
        return [*self.added.get(edge.number, ()), *self.known.by_inputs(edge), *records]

    def all_below(self, edges: Iterable[Edge]) -> dict[int, Edge]:
        """These edges, and all that they wait for."""
        todo = list(edges)
        found = {it.number: it for it in todo}
        while todo:
            for it in self.below(todo.pop()):
                if it.number not in found:
                    found[it.number] = it
                    todo.append(it)
        return found

    def leads(self, later: Edge, first: Edge) -> bool:
        """Whether an edge waits for another one."""
        return first.number in self.all_below(self.below(later))

    def on_a_way(self, later: Edge, first: Edge) -> list[Edge]:
        """The edges through which an edge waits for another one, the later one among them."""
        below = self.all_below([later])
        above: dict[int, list[Edge]] = {}
        for edge in below.values():
            for it in self.below(edge):
                above.setdefault(it.number, []).append(edge)
        todo, found = [first], {}
        while todo:
            for it in above.get(todo.pop().number, ()):
                if it.number not in found:
                    found[it.number] = it
                    todo.append(it)
        return list(found.values())

    def has_cycle(self) -> bool:
        """Whether an edge waits for itself: some are left over once each was taken out that waits for none."""
        below = {edge.number: {it.number for it in self.below(edge)} for edge in self.known.manifest.edges}
        above: dict[int, list[int]] = {}
        for number, its in below.items():
            for it in its:
                above.setdefault(it, []).append(number)
        todo = [number for number, its in below.items() if not its]
        count = 0
        while todo:
            count += 1
            number = todo.pop()
            for it in above.get(number, ()):
                below[it].discard(number)
                if not below[it]:
                    todo.append(it)
        return count < len(below)


def together(orders: Iterable[Order], graphs: list[Graph]) -> list[Order]:
    """Those of the orders that all can stand at one time, in each of these graphs, the first before the later ones.
    They are added to the graphs."""
    found = list({(it.later.number, it.first.number): it for it in reversed([*orders])}.values())[::-1]
    for graph in graphs:
        for order in found:
            graph.add(order)
    if not any(graph.has_cycle() for graph in graphs):
        return found
    for graph in graphs:
        for order in found:
            graph.remove(order)
    kept = []
    for order in found[:_MOST_LOOKED_AT]:
        if not any(graph.leads(order.first, order.later) for graph in graphs):
            kept.append(order)
            for graph in graphs:
                graph.add(order)
    return kept


class Statements:
    """The build statements of a manifest's files: canonical name -> content."""

    def __init__(self, manifest: Manifest) -> None:
        self.contents = {canonical(name): content for name, content, _ in manifest.files}
        self._edges = Counter((canonical(it.file), it.line) for it in manifest.edges)

    def is_of_one(self, edge: Edge) -> bool:
        """Whether the statement of an edge makes no other edge, so that an order there is of this one alone."""
        return self._edges[canonical(edge.file), edge.line] == 1

    def with_orders(self, orders: Iterable[Order]) -> dict[bytes, bytes]:
        """The files that are others with the orders. Raises BadOrder."""
        paths: dict[bytes, dict[int, list[bytes]]] = {}
        for order in orders:
            if not self.is_of_one(order.later):
                raise BadOrder(f"the statement of {shown(order.later.name)} makes several edges, and each of them "
                               f"would wait")
            of_file = paths.setdefault(canonical(order.later.file), {})
            of_file.setdefault(order.later.line, []).append(order.path())
        return {name: _with_paths(self.contents[name], its) for name, its in paths.items()}


def _with_paths(content: bytes, paths: dict[int, list[bytes]]) -> bytes:
    """A manifest's file in which the build statement at each of these lines has the paths behind `||`."""
    parts, done, at, line = [], 0, 0, 1
    for it in sorted(paths):
        while line < it:
            at = content.index(b"\n", at) + 1
            line += 1
        place, added = _addition(content, at, paths[it])
        parts += [content[done:place], added]
        done = place
    return b"".join([*parts, content[done:]])


def with_order(content: bytes, line: int, path: bytes) -> bytes:
    """A manifest's file in which the build statement at this line has the path behind `||`."""
    return _with_paths(content, {line: [path]})


def _addition(content: bytes, at: int, paths: list[bytes]) -> tuple[int, bytes]:
    """Where the paths are put into the statement that begins here, and the text that is put there."""
    end, has_orders, last = len(content), False, at
    while at < len(content):
        if content.startswith((b"$\n", b"$\r\n"), at):
            at += 2 if content.startswith(b"$\n", at) else 3
            continue
        if content.startswith(b"$", at):
            at += 2
            last = at
            continue
        if content.startswith(b"\n", at) or content.startswith(b"\r\n", at) or content.startswith(b"|@", at):
            end = at
            break
        has_orders = has_orders or content.startswith(b"||", at)
        at += 1 + content.startswith(b"||", at)
        if content[at - 1 : at] != b" ":
            last = at
    else:
        end = len(content)
    text = b" ".join(_TO_ESCAPE.sub(lambda it: b"$" + it[0], path) for path in paths)
    added = (b" " if has_orders else b" || ") + text
    if last == end and content.startswith(b"|@", end):
        added += b" "
    return last, added


def waits(manifest: Manifest, user: Edge, maker: Edge, told: Mapping[int, Told] = MappingProxyType({})) -> bool:
    """Whether the user waits for the maker: by explicit, implicit and order-only inputs, those that dyndep files say
    among them, through all edges between."""
    return Graph(Known(manifest, told=told)).leads(user, maker)


def differing(one: Manifest, other: Manifest) -> list[int]:
    """The numbers of the edges that wait for other paths in the one than in the other, or are not alike."""
    if len(one.edges) != len(other.edges):
        return list(range(max(len(one.edges), len(other.edges))))
    alike = lambda edge: (edge.outputs, edge.explicit, edge.implicit, edge.order_only, edge.validations, edge.command)
    return [it.number for it, its in zip(one.edges, other.edges) if alike(it) != alike(its)]
