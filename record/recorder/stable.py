"""Names that are the same in each folder and on each machine: what summaries compare builds by."""

from __future__ import annotations

import hashlib
import re
from collections.abc import Iterable

from .manifest import Manifest

_WHOLE = re.compile(rb"(^|[\s\"'=:,;@(]|-[A-Za-z]+)/(?:[^\s\"':,;()/]*/)*([^\s\"':,;()/]*)")
_NAME_BYTES = 8
_UNORDERED = "clash"
"""The kind of finding whose two commands have no order: its name has them by their bytes."""


def without_folders(text: bytes) -> bytes:
    """A text in which of each whole path the last part alone stands behind its `/`."""
    return _WHOLE.sub(rb"\1/\2", text)


def text_without_folders(text: str) -> str:
    """The same of a text that is decoded."""
    return without_folders(text.encode("utf-8", "surrogateescape")).decode("utf-8", "surrogateescape")


def name_of(parts: Iterable[bytes]) -> str:
    """A name of some parts, which are put together with a zero byte between each two."""
    return hashlib.sha256(b"\0".join(parts)).hexdigest()[: 2 * _NAME_BYTES]


def manifest_name(manifest: Manifest) -> str:
    """A name of a manifest by its edges and commands. Of each whole path the last part counts alone."""
    found = hashlib.sha256()
    for it in manifest.edges:
        parts = [*it.outputs, b"|", *it.inputs, b"|", it.command]
        found.update(b"\0".join(map(without_folders, parts)) + b"\n")
    return found.hexdigest()[: 2 * _NAME_BYTES]


def finding_name(name: str, kind: str, path: str, maker: str, user: str) -> str:
    """The name of a finding. `name` is that of `races`, which stays where no whole path is among the texts. Else it is
    made by the same rule of the texts without folders."""
    texts = [path, maker, user]
    stable = [text_without_folders(it) for it in texts]
    if stable == texts:
        return name
    if kind == _UNORDERED:
        stable[1:] = sorted(stable[1:])
    return name_of(it.encode("utf-8", "surrogateescape") for it in (kind, *stable))
