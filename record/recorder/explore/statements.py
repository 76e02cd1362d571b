"""What `edge` answers, of all edges at once: as the recorder reads the manifest and the lists of the trace. A question of
`edge` looks at every edge, so that the questions of all edges would take the square of their number."""

from __future__ import annotations

import os
import re
from typing import BinaryIO, Iterator

from ..manifest import BadManifest, Edge, Manifest
from ..provoke import races
from ..regular import LONGEST
from .asking import Object

_ODD = re.compile(rb"[^ -~]")


def statements(folder: str) -> Iterator[Object]:
    """The objects of the edges in their order; none where the manifest cannot be read."""
    recording = races.Recording("rebug", folder)
    try:
        files = recording.files()
        manifest = Manifest(recording.manifest_name(), lambda name: files[name])
    except (BadManifest, races.NotAsked, KeyError):
        return
    lists = _lists(os.path.join(recording.place, "trace"))
    for edge in manifest.edges:
        yield _object(manifest, edge, lists.get(races.shown_name(edge.name), ""))


def _lists(trace: str) -> dict[str, str]:
    """The list of what each command read last, by the first output of its edge. Fields of a trace are names as they are
    shown, but for bytes that are not visible ASCII."""
    found: dict[str, str] = {}
    try:
        with open(trace, "rb") as file:
            for line in _lines(file):
                words = line.split(b" ", 4)
                if words[0] == b"finish" and words[3:4] == [b"list"]:
                    found[_visible(words[1])] = _visible(words[4]) if len(words) > 4 else ""
                elif words[0] == b"deps" and len(words) > 2:
                    found[_visible(words[1])] = _visible(b" ".join(words[3:]))
    except OSError:
        return {}
    return found


def _lines(file: BinaryIO) -> Iterator[bytes]:
    left = LONGEST
    for line in file:
        left -= len(line)
        if left < 0:
            return
        yield line.removesuffix(b"\n")


def _visible(text: bytes) -> str:
    return _ODD.sub(lambda it: b"\\x%02x" % it[0][0], text).decode("ascii")


def _shown(names: list[bytes]) -> list[str]:
    return [races.shown_name(it) for it in names]


def _object(manifest: Manifest, edge: Edge, listed: str) -> Object:
    flags = [name for name, is_set in (("deps", edge.deps), ("restat", edge.restat), ("generator", edge.generator))
             if is_set]
    content = b";rspfile=" + edge.content if edge.content else b""
    depth = manifest.pools.get(edge.pool)
    return {
        "rule": _visible(edge.rule), "flags": flags, "depfile": races.shown_name(edge.depfile),
        "command": _visible(edge.command.removesuffix(content)), "response_file": races.shown_name(edge.rspfile),
        "pool": races.shown_name(edge.pool) if edge.pool and depth is not None else None,
        "depth": depth if edge.pool else None,
        "explicit": _shown(edge.explicit), "implicit": _shown(edge.implicit), "order_only": _shown(edge.order_only),
        "validations": _shown(edge.validations), "outputs": _shown(edge.outputs[: edge.explicit_outputs]),
        "implicit_outputs": _shown(edge.outputs[edge.explicit_outputs :]), "listed": listed.split(),
    }
