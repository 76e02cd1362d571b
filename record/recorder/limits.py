"""What rebug refuses of a manifest, whatever Ninja makes of it, so far as it can be told before Ninja runs."""

from __future__ import annotations

from typing import Iterator

from .fields import LONGEST_PATH, shown
from .manifest import Edge, Manifest
from .rules import Build

MOST_FILES, MOST_BYTES, MOST_OF_A_VALUE, DEEPEST, DEEPEST_POOL = 16_384, 268_435_456, 1_048_576, 16, 1_000_000
_NAMED = 10


def what_is_refused(manifest: Manifest) -> list[str]:
    """A sentence for each thing that makes rebug refuse the manifest, with the number that it gives."""
    found = [*_of_files(manifest), *_of_pools(manifest), *_of_edges(manifest), *_of_cycles(manifest)]
    return found[:_NAMED] + ([f"and {len(found) - _NAMED} more such lines"] if found[_NAMED:] else [])


def place_of(edge: Edge) -> str:
    """Where an edge stands, and its first output."""
    return f"{shown(edge.file)}:{edge.line}: {shown(edge.name)}"


def _of_files(manifest: Manifest) -> Iterator[str]:
    if len(manifest.files) > MOST_FILES:
        yield f"the manifest has {len(manifest.files):,} files, and rebug takes at most {MOST_FILES:,} (23)"
    size = sum(len(content) for _, content, _ in manifest.files)
    if size > MOST_BYTES:
        yield f"the manifest has {size:,} bytes, and rebug takes at most {MOST_BYTES:,} (23)"
    if manifest.deepest > DEEPEST:
        yield f"files are included {manifest.deepest} deep, and rebug goes {DEEPEST} deep (21)"


def _of_pools(manifest: Manifest) -> Iterator[str]:
    for name, depth in manifest.depths.items():
        if not depth.isdigit() or int(depth) > DEEPEST_POOL:
            yield (f"the pool {shown(name)} has the depth '{shown(depth)}': rebug takes a number of at most "
                   f"{DEEPEST_POOL:,} (19)")


def _of_edges(manifest: Manifest) -> Iterator[str]:
    for edge in manifest.edges:
        for path in (*edge.outputs, *edge.inputs, *edge.validations):
            if len(path) > LONGEST_PATH:
                yield f"{place_of(edge)} has a path of {len(path):,} bytes, and rebug takes {LONGEST_PATH:,} (2)"
        for text in (edge.command, edge.content, edge.depfile):
            if len(text) > MOST_OF_A_VALUE:
                yield f"{place_of(edge)} has a value of {len(text):,} bytes, and rebug takes {MOST_OF_A_VALUE:,} (23)"


def _of_cycles(manifest: Manifest) -> Iterator[str]:
    left = Build(manifest).in_order(manifest.edges)[1]
    if left:
        yield f"{place_of(left[0])} stands on itself, or on edges that do (41)"
