"""The dyndep files of a build folder: what they have, and which paths they may say something of."""

from __future__ import annotations

import os
from typing import Iterable, Optional

from ..disk import read_file
from .reading import BadDyndep, read_dyndep

Contents = dict[bytes, Optional[bytes]]
"""What files have; None where there is none."""


def contents_of(folder: bytes, paths: Iterable[bytes]) -> Contents:
    """What these files have now."""
    real = {path: os.path.join(folder, path) for path in paths}
    return {path: read_file(at) if os.path.exists(at) else None for path, at in real.items()}


def told_paths(contents: Contents) -> tuple[set[bytes], set[bytes]]:
    """The outputs and the inputs that files of these contents say."""
    outputs, inputs = set[bytes](), set[bytes]()
    for path, content in contents.items():
        try:
            told = read_dyndep(path, content).values() if content is not None else ()
        except BadDyndep:
            continue
        for it in told:
            outputs.update(it.outputs)
            inputs.update(it.inputs)
    return outputs, inputs
