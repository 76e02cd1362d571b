"""The comments that CMake writes above the statements of a manifest: which target or command a statement is of."""

from __future__ import annotations

import enum
import re
from dataclasses import dataclass

from ..manifest import Manifest

_LINE = re.compile(rb"^(?:#[ \t]*([^\r\n]*)|build )", re.M)
_OBJECTS = re.compile(r"(?:Object|Link) build statements for (\w+) target (.*)")
_ONE = re.compile(r"(Order-only phony target|Utility command|Custom command|Phony custom command) for (.*)")
_OF_CMAKE = ("Write statements", "Target aliases", "Folder", "Re-run CMake", "Re-check", "A missing CMake", "Clean",
             "Print all", "Make the all", "Built-in targets")


class Subject(enum.Enum):
    """What a heading says of the statements below it."""

    TARGET = "target"
    UTILITY = "Utility command"
    CUSTOM = "Custom command"
    OWN = "own"


@dataclass(frozen=True)
class Heading:
    """What a heading is about, the name there, and the kind of a target where it stands there."""

    subject: Subject
    name: str = ""
    kind: str = ""


def headings(manifest: Manifest) -> dict[int, Heading]:
    """The heading of each edge that has one, by the edge's number."""
    of_file = {name: _of_text(content) for name, content, _ in manifest.files}
    found = {}
    for edge in manifest.edges:
        it = of_file.get(edge.file, {}).get(edge.line)
        if it is not None:
            found[edge.number] = it
    return found


def _of_text(content: bytes) -> dict[int, Heading]:
    """The heading of each build statement of a text, by the line of the statement."""
    found: dict[int, Heading] = {}
    now = Heading(Subject.OWN)
    line, at = 1, 0
    for it in _LINE.finditer(content):
        line += content.count(b"\n", at, it.start())
        at = it.start()
        if it[1] is None:
            found[line] = now
            continue
        now = _heading(it[1].decode("utf-8", "surrogateescape").rstrip(), now)
    return found


def _heading(text: str, now: Heading) -> Heading:
    """The heading behind a line of a comment."""
    objects, one = _OBJECTS.fullmatch(text), _ONE.fullmatch(text)
    if objects:
        return Heading(Subject.TARGET, objects[2], objects[1])
    if one and one[1] == "Order-only phony target":
        return Heading(Subject.TARGET, one[2], now.kind if now.name == one[2] else "")
    if one:
        return Heading(Subject.UTILITY if one[1] == "Utility command" else Subject.CUSTOM, one[2])
    return Heading(Subject.OWN) if text.startswith(_OF_CMAKE) else now
