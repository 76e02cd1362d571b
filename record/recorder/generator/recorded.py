"""The file `targets` of a recording: docs/FORMATS.md."""

from __future__ import annotations

import os

from ..fields import line
from ..held import HeldFolder
from ..manifest import Manifest
from .known import known_at_no_cost
from .model import Basis, Known, Role, Target

TARGETS = b"targets"
LEAST_BYTES = 4_096
"""So many bytes a file of targets may have beside a trace of any size."""


def write_targets(build: bytes, manifest: Manifest, folder: HeldFolder) -> None:
    """Writes the file beside the trace that stands in the held folder, where the generator is known. The file has at
    most a tenth of the bytes of the trace: without the places that are guesses where it has more with them, and else
    there is none."""
    known = known_at_no_cost(os.fsdecode(os.path.realpath(build)), manifest)
    found = folder.status(b"trace")
    if known is None or found is None:
        return
    most = max(LEAST_BYTES, found.st_size // 10)
    for has_guesses in (True, False):
        text = b"\n".join(target_lines(known, os.fsdecode(os.path.realpath(build)), has_guesses)) + b"\n"
        if len(text) <= most:
            with folder.create(TARGETS) as file:
                file.write(text)
            return


def target_lines(known: Known, build: str, has_guesses: bool = True) -> list[bytes]:
    """The lines of the file, in the order of the first edges of targets."""
    edges: dict[int, dict[Role, list[int]]] = {}
    targets: dict[int, Target] = {}
    for number, (target, role) in sorted(known.of_edge.items()):
        targets[id(target)] = target
        edges.setdefault(id(target), {}).setdefault(role, []).append(number)
    files: dict[str, int] = {}
    lines: list[bytes] = []
    for key, of_role in edges.items():
        it = targets[key]
        lines.append(line(b"target", os.fsencode(it.kind), os.fsencode(it.name), it.name_basis.value))
        if it.place is not None and (has_guesses or it.place_basis is Basis.EXACT):
            number = files.setdefault(_from(known.top, it.place.file), len(files))
            lines.append(line("at", number, it.place.line, it.place_basis.value))
        lines += [line(role.value) + b" " + _ranges(of_role[role]) for role in Role if role in of_role]
    head = [b"rebug-targets 1", line("by", known.generator.value, os.fsencode(known.version)),
            line("top", os.fsencode(os.path.relpath(known.top, build)))]
    return head + [line("file", os.fsencode(it)) for it in files] + lines


def _from(top: str, path: str) -> str:
    return os.path.relpath(path, top) if path.startswith(top + "/") else path


def _ranges(numbers: list[int]) -> bytes:
    """Numbers that rise, those that follow one another as a range."""
    found: list[list[int]] = []
    for it in numbers:
        if found and found[-1][1] == it - 1:
            found[-1][1] = it
        else:
            found.append([it, it])
    return b" ".join(b"%d" % first if first == last else b"%d-%d" % (first, last) for first, last in found)
