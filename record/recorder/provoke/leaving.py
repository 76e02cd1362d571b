"""What may be taken away in a trial, so that the two commands run as in a clean build."""

from __future__ import annotations

import os
from typing import Iterable, Sequence

from ..fields import canonical
from ..manifest import Edge, Manifest
from .places import real_name
from .races import Observed


def may_go(build: bytes, manifest: Manifest, observed: Observed, commands: Sequence[Edge],
           unlisted: Sequence[Edge] = (), told: Sequence[bytes] = ()) -> tuple[bytes, ...]:
    """The files that the trial of these commands takes away: their outputs, those that dyndep files say of them
    (`told`), and what they were observed to leave and no other command leaves. Depfiles of the edges in `unlisted` are
    among them: Ninja would find the order there that the trial turns round.

    No source is among them, no file of the manifest, and no output of another command, by whatever name. What they name
    may be no file: folders stay, too (`Place.take_away`).
    """
    folders: dict[bytes, bytes] = {}

    def realpath(folder: bytes) -> bytes:
        if folder not in folders:
            folders[folder] = os.path.realpath(folder)
        return folders[folder]

    real = lambda path: real_name(os.path.join(build, path), realpath)
    own = {path for edge in commands for path in edge.outputs} | set(told)
    kept = set(map(real, _kept(manifest, own)))
    alone = observed.left_alone_by([it.name for it in commands])
    left = [*own, *_other_names(manifest, commands), *alone, *_depfiles(manifest, unlisted)]
    return tuple(it for it in dict.fromkeys(left) if it != b"." and real(it) not in kept)


def _kept(manifest: Manifest, own: set[bytes]) -> Iterable[bytes]:
    """What stays, whoever leaves it: the manifest's files, sources, and outputs of other commands."""
    yield from (canonical(name) for name, _, _ in manifest.files)
    for edge in manifest.edges:
        yield from (it for it in (*edge.inputs, *edge.validations) if it not in manifest.producer)
        if not edge.phony:
            yield from (it for it in edge.outputs if it not in own)


def _other_names(manifest: Manifest, commands: Sequence[Edge]) -> list[bytes]:
    """Outputs of phony edges that stand for outputs of these commands alone: a file of such a name is theirs."""
    waiting: dict[bytes, list[Edge]] = {}
    missing: dict[int, int] = {}
    for edge in (it for it in manifest.edges if it.phony):
        missing[edge.number] = len(set(edge.inputs))
        for path in set(edge.inputs):
            waiting.setdefault(path, []).append(edge)
    todo, found = [path for edge in commands for path in edge.outputs], []
    while todo:
        for edge in waiting.get(todo.pop(), ()):
            missing[edge.number] -= 1
            if not missing[edge.number]:
                todo += edge.outputs
                found += edge.outputs
    return found


def _depfiles(manifest: Manifest, edges: Sequence[Edge]) -> list[bytes]:
    """The depfiles of these edges that stay there after a build. That of the manifest stays, since without it Ninja
    would have the manifest made anew."""
    files = {canonical(name) for name, _, _ in manifest.files}
    return [canonical(edge.depfile) for edge in edges if edge.depfile and not edge.deps
            and not files & set(edge.outputs)]


def run_anew(manifest: Manifest, observed: Observed, path: bytes, commands: Sequence[Edge]) -> list[Edge]:
    """The other commands that have to run again for a trial at a path: those that leave the path, and each whose output
    one of all these changes. What stands there is the work of all of them, so it is right only once each has done its
    part again."""
    own = {it.number for it in commands}
    todo = [*commands, *(manifest.producer[it] for it in observed.leaving(path) if it in manifest.producer)]
    found = {it.number: it for it in todo if not it.phony}
    while todo:
        for changed in observed.changed_by(todo.pop().name):
            edge = manifest.producer.get(canonical(changed))
            if edge is not None and not edge.phony and edge.number not in found:
                found[edge.number] = edge
                todo.append(edge)
    return [it for it in found.values() if it.number not in own]
