"""Manifests that leave Ninja one order: each statement of an order waits for an output of the one before it."""

from __future__ import annotations

import random
import re
from functools import partial
from typing import Callable, Sequence

from ..fields import canonical, shown
from ..manifest import Edge, Manifest
from .commands import Commands, NoBuild
from .orders import blocks_of

_TOKEN = re.compile(rb"\$\r?\n|\$.|[^$\r\n|]+|\|\||\|@|\||\r", re.S)
_TO_ESCAPE = re.compile(rb"[$ :]")
_Put = Callable[[bytes, int], tuple[int, bytes]]
_COMMAND = re.compile(rb"(?m)^( +command *= *)")
_BARRIER = b"rebug_barrier_"
WAIT = b"rebug_wait"
"""The variable that has the seconds which a command waits before it begins."""


def chained(commands: Commands, order: Sequence[int]) -> dict[bytes, bytes]:
    """The manifest's files that change, by canonical names, so that the commands run in this order alone."""
    first_output = commands.first_output
    return with_orders(commands.manifest, {commands.edges[node].number: first_output(before)
                                           for before, node in zip(order, order[1:])})


def blocked(commands: Commands, order: Sequence[int], size: int) -> dict[bytes, bytes]:
    """The manifest's files that change, so that the commands run in blocks of this size in this order: those of one
    block side by side, and each behind all of the blocks before."""
    blocks, name = blocks_of(order, size), _free_name(commands.manifest)
    behind, lines = {}, []
    for number, (before, block) in enumerate(zip(blocks, blocks[1:]), 1):
        barrier = b"%b%d" % (name, number)
        above = [b"%b%d" % (name, number - 1)] if number > 1 else []
        outputs = [*above, *map(commands.first_output, before)]
        lines.append(b"build %b: phony %b\n" % (barrier, b" ".join(_escaped(it) for it in outputs)))
        behind.update({commands.edges[node].number: barrier for node in block})
    changed = with_orders(commands.manifest, behind)
    first = canonical(commands.manifest.files[0][0])
    content = changed.get(first) or commands.manifest.files[0][1]
    return {**changed, first: content + b"\n" + b"".join(lines)} if lines else changed


def _free_name(manifest: Manifest) -> bytes:
    """A name with which no path of the manifest begins."""
    name = _BARRIER
    while any(path.startswith(name) for edge in manifest.edges for path in (*edge.outputs, *edge.inputs)):
        name += b"_"
    return name


def with_orders(manifest: Manifest, behind: dict[int, bytes]) -> dict[bytes, bytes]:
    """The files that change where each of these edges waits for a path, too, behind `||`. A path that a statement names
    already is not named again: Ninja 1.11 loads a dyndep file twice that is named twice. Raises NoBuild."""
    places = _Places(manifest)
    for number, path in behind.items():
        edge = manifest.edges[number]
        if path not in edge.inputs:
            places.add(edge, partial(_order, path))
    return places.changed()


def with_waits(manifest: Manifest, seed: int, longest: float) -> dict[bytes, bytes]:
    """The files that change where commands wait before they begin, each for a time by chance, the same for the same
    seed.

    Each text `command =` begins by a sleep, whose seconds are a variable of the statement. A statement that has no
    lines of its own gets none where a variable of the file has the name of one of its rule's: Ninja looks such names up
    otherwise once the statement has lines.
    """
    places, chance = _Places(manifest), random.Random(seed)
    for edge in manifest.edges:
        seconds = chance.random() * longest
        if not edge.phony and not (not edge.block and edge.texts.keys() & edge.scope.variables.keys()):
            places.add(edge, partial(_wait, seconds))
    changed = places.changed()
    for name, content in {**places.contents, **changed}.items():
        changed[name] = _COMMAND.sub(rb"\1sleep $" + WAIT + rb"; ", content)
    first = canonical(manifest.files[0][0])
    changed[first] = WAIT + b" = 0\n" + changed[first]
    return changed


class _Places:
    """What is put into statements of a manifest's files, in one pass over each."""

    def __init__(self, manifest: Manifest) -> None:
        self.contents = {canonical(name): content for name, content, _ in manifest.files}
        self.added: dict[bytes, dict[int, _Put]] = {name: {} for name in self.contents}

    def add(self, edge: Edge, put: _Put) -> None:
        """`put(content, place)` gives the place where a text goes, and the text. Raises NoBuild where two statements
        stand at one line, since a file is read twice."""
        lines = self.added[canonical(edge.file)]
        if edge.line in lines:
            raise NoBuild(f"{shown(edge.file)} is read twice, so its line {edge.line} makes two commands, and no order "
                          f"can be put into one of them alone")
        lines[edge.line] = put

    def changed(self) -> dict[bytes, bytes]:
        """The files that change."""
        found = {}
        for name, content in self.contents.items():
            lines = self.added[name]
            if not lines:
                continue
            pieces, done, line, begin = [], 0, 1, 0
            for wanted in sorted(lines):
                while line < wanted:
                    begin = content.index(b"\n", begin) + 1
                    line += 1
                at, text = lines[wanted](content, begin)
                pieces += [content[done:at], text]
                done = at
            found[name] = b"".join([*pieces, content[done:]])
        return found


def _order(path: bytes, content: bytes, at: int) -> tuple[int, bytes]:
    """Where a path goes among the order-only inputs of the statement that begins here, and its text."""
    has_orders, last, end = False, at, len(content)
    while at < end and content[at : at + 1] != b"\n" and not content.startswith(b"\r\n", at):
        found = _TOKEN.match(content, at)
        assert found
        token = found[0]
        if token == b"|@":
            break
        has_orders = has_orders or token == b"||"
        at = found.end()
        if token in (b"$\n", b"$\r\n"):
            continue
        stripped = token if token.startswith(b"$") else token.rstrip(b" ")
        if stripped:
            last = found.start() + len(stripped)
    text = (b" " if has_orders else b" || ") + _escaped(path)
    return last, text + (b" " if content.startswith(b"|@", last) else b"")


def _escaped(path: bytes) -> bytes:
    return _TO_ESCAPE.sub(lambda it: b"$" + it[0], path)


def _wait(seconds: float, content: bytes, at: int) -> tuple[int, bytes]:
    """Where the statement that begins here ends, and a line of its own that says how long its command waits."""
    while at < len(content) and content[at : at + 1] != b"\n":
        at += 2 if content.startswith(b"$", at) else 1
    return at, b"\n  %s = %.3f" % (WAIT, seconds)
