"""The commands of some targets, and what each waits for: the manifest's edges as a graph of numbers."""

from __future__ import annotations

import os
import re
from dataclasses import dataclass, field

from ..fields import canonical, shown
from ..manifest import BadManifest, Edge, Manifest
from .orders import Cycle, Graph

_DYNDEP_LINE = re.compile(rb"build ((?:[^$:\n]|\$.)+):[ ]*dyndep\b(.*)")
_PATH = re.compile(rb"(?:[^$ :|\n]|\$[$ :])+|\|")
_ESCAPED = re.compile(rb"\$([$ :])")


class NoBuild(Exception):
    """A sentence that says why there is nothing to run."""


@dataclass
class Commands:
    """The edges that targets need. Nodes of the graph are places in `edges`. `fixed` are edges that make the manifest
    itself, what these wait for, and generators that are no step of the build: they are up to date, and stay."""

    manifest: Manifest
    name: bytes
    targets: list[bytes]
    edges: list[Edge]
    graph: Graph
    node_of: dict[int, int]
    fixed: set[int] = field(default_factory=set)

    def first_output(self, node: int) -> bytes:
        return self.edges[node].outputs[0]

    def node_with(self, output: bytes) -> int | None:
        """The command with this output, None where it is none of these."""
        edge = self.manifest.producer.get(output)
        node = self.node_of.get(edge.number) if edge else None
        return node if node is not None and self.graph.is_command[node] else None


def read_manifest(build: bytes, name: bytes) -> Manifest:
    """The manifest of a build folder. Raises NoBuild."""
    def content(path: bytes) -> bytes:
        with open(os.path.join(build, path), "rb") as file:
            return file.read()
    try:
        return Manifest(name, content)
    except OSError as why:
        raise NoBuild(f"cannot read {os.fsdecode(os.path.join(build, os.fsencode(why.filename)))}: {why.strerror}"
                      ) from why
    except (BadManifest, RecursionError) as why:
        raise NoBuild(f"the manifest in {os.fsdecode(build)}: {why}") from why


def commands_of(manifest: Manifest, name: bytes, targets: list[bytes],
                more: dict[int, tuple[list[bytes], list[bytes]]] | None = None) -> Commands:
    """The commands of the targets, or of the manifest's own. `more` has, by edge, inputs and outputs that dyndep files
    add. Raises NoBuild."""
    more = more or {}
    producer = dict(manifest.producer)
    for number, (_, outputs) in more.items():
        for path in outputs:
            producer.setdefault(path, manifest.edges[number])
    makers = {edge.number: _makers(edge, producer, more) for edge in manifest.edges}
    wanted = _wanted(manifest, targets)
    fixed = _fixed(manifest, makers)
    numbers, known = [], set()
    todo = [producer[it].number for it in wanted if it in producer]
    while todo:
        number = todo.pop()
        if number in known:
            continue
        known.add(number)
        numbers.append(number)
        todo += makers[number]
        todo += [producer[it].number for it in manifest.edges[number].validations if it in producer]
    numbers.sort()
    node_of = {number: node for node, number in enumerate(numbers)}
    edges = [manifest.edges[it] for it in numbers]
    try:
        graph = Graph([[node_of[it] for it in sorted(makers[number])] for number in numbers],
                      [not edge.phony and edge.number not in fixed for edge in edges])
    except Cycle as why:
        raise NoBuild(f"the manifest: {why}") from why
    return Commands(manifest, name, targets, edges, graph, node_of, fixed)


def _wanted(manifest: Manifest, targets: list[bytes]) -> list[bytes]:
    """The paths of the targets. Raises NoBuild for one that the manifest does not have."""
    found = []
    for it in targets:
        path = canonical(it)
        if it.endswith(b"^"):  # Ninja's word for the first output of a statement that uses this source
            path = canonical(it[:-1])
            users = [edge for edge in manifest.edges if path in edge.inputs]
            path = users[0].outputs[0] if users else path
        if path not in manifest.producer and not any(path in edge.inputs for edge in manifest.edges):
            raise NoBuild(f"the manifest has no target {shown(it)}")
        found.append(path)
    return found or manifest.defaults()


def _makers(edge: Edge, producer: dict[bytes, Edge], more: dict[int, tuple[list[bytes], list[bytes]]]) -> set[int]:
    """The edges that an edge waits for."""
    paths = [*edge.inputs, *more.get(edge.number, ([], []))[0]]
    if edge.dyndep:
        paths.append(canonical(edge.dyndep))
    return {producer[it].number for it in paths if it in producer} - {edge.number}


def _fixed(manifest: Manifest, makers: dict[int, set[int]]) -> set[int]:
    """The edges that make files of the manifest, with all that these wait for, and the other generators."""
    files = {canonical(name) for name, _, _ in manifest.files}
    found = {edge.number for edge in manifest.edges if edge.generator and not edge.phony}
    todo = [edge.number for edge in manifest.edges if files.intersection(edge.outputs)]
    while todo:
        number = todo.pop()
        if number not in found or manifest.edges[number].generator:
            todo += [it for it in makers[number] if it not in found]
        found.add(number)
    return found


def read_dyndep(manifest: Manifest, contents: dict[bytes, bytes]) -> dict[int, tuple[list[bytes], list[bytes]]]:
    """By edge, the inputs and outputs that dyndep files of these contents add. Lines that are not understood add
    none."""
    found: dict[int, tuple[list[bytes], list[bytes]]] = {}
    for content in contents.values():
        for line in content.replace(b"$\r\n", b" ").replace(b"$\n", b" ").splitlines():
            told = _DYNDEP_LINE.match(line)
            paths = _paths(told[1]) if told else []
            edge = manifest.producer.get(paths[0]) if paths else None
            if told and edge:
                inputs = _paths(told[2].partition(b"|")[2])
                found[edge.number] = [it for it in inputs if it], [it for it in paths[1:] if it]
    return found


def _paths(text: bytes) -> list[bytes]:
    return [canonical(_ESCAPED.sub(rb"\1", it)) for it in _PATH.findall(text) if it != b"|"]
