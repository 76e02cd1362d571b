"""Summaries from files, which may come from somebody else: what each line says, or why it does not count."""

from __future__ import annotations

import base64
import binascii
import json
import os
import re
from collections.abc import Iterable, Iterator, Sequence
from dataclasses import dataclass, field
from typing import Any

from ..regular import NoFile
from ..summary.lines import VERSION
from ..summary.packed import BadText, Columns, columns, plain

MOST_LINE = 1 << 28
MOST_FAULTS = 10
"""So many sentences are printed about lines that do not count; the others are counted."""
_DIGEST_BYTES = 6
_MARK_BYTES, _BUFFER_BYTES = 64, 1 << 20
_MOST_NODES = 1 << 20
_NAME = re.compile(r"[0-9a-f]{16}")
_WORDS = ("names", "finding", "build", "sums")


class Fault(Exception):
    """Why a line does not count, as the end of a sentence."""


@dataclass(frozen=True)
class Finding:
    """A finding of `races`: its stable name, kind and path, the numbers of maker and user, and the line that mends
    it."""

    id: str
    kind: str
    path: str
    maker: int
    user: int
    mend: str


@dataclass
class Manifest:
    """The names of a manifest's commands, where they stand, and by each node the nodes that it waits for."""

    names: list[str]
    places: list[str]
    waits: list[list[int]]
    findings: dict[str, Finding] = field(default_factory=dict)

    def __post_init__(self) -> None:
        self._users: list[list[int]] | None = None

    def before(self, command: int) -> set[int]:
        """The nodes that a command waits for, also through others."""
        return _reached(self.waits, [command]) - {command}

    def after(self, command: int) -> set[int]:
        """The nodes that wait for a command, also through others."""
        return self.after_all([command]) - {command}

    def after_all(self, commands: Iterable[int]) -> set[int]:
        """The nodes that wait for one of some commands, also through others."""
        if self._users is None:
            self._users = [[] for _ in self.waits]
            for node, them in enumerate(self.waits):
                for it in them:
                    self._users[it].append(node)
        return _reached(self._users, commands)

    def shown(self, command: int) -> str:
        return f"{self.names[command]} ({self.places[command]})"


def _reached(steps: list[list[int]], nodes: Iterable[int]) -> set[int]:
    """What some nodes reach by a step or more."""
    found, todo = set(), list(nodes)
    while todo:
        for it in steps[todo.pop()]:
            if it not in found:
                found.add(it)
                todo.append(it)
    return found


@dataclass
class Build:
    """A build: its name, its manifest, when it ended, its labels, which commands failed with the first line of their
    errors, and how findings fell. Its runs and digests stay packed until they are asked for."""

    id: str
    manifest: str
    when: int
    labels: dict[str, str]
    failed: dict[int, str]
    findings: dict[str, str]
    is_from_nothing: bool
    _runs: str
    _left: str

    def columns(self, count: int) -> Columns:
        """When each of so many commands began and ended. Raises BadText."""
        return columns(self._runs, count)

    def plain_runs(self) -> str:
        """The text of its runs, not compressed. Raises BadText."""
        return plain(self._runs)

    def left(self, count: int) -> list[bytes] | None:
        """A digest of what each command left, empty where it is not known; None where the build has none."""
        if not self._left:
            return None
        try:
            data = base64.b64decode(self._left, validate=True)
        except (ValueError, binascii.Error) as why:
            raise BadText("its digests are no text of this form") from why
        if len(data) != _DIGEST_BYTES * count:
            raise BadText("its digests are not as many as the commands of that manifest")
        parts = [data[at : at + _DIGEST_BYTES] for at in range(0, len(data), _DIGEST_BYTES)]
        return [it if any(it) else b"" for it in parts]


@dataclass
class Faults:
    """Sentences about what does not count: the first ones, and how many there are."""

    count: int = 0
    first: list[str] = field(default_factory=list)

    def add(self, sentence: str) -> None:
        self.count += 1
        if self.count <= MOST_FAULTS:
            self.first.append(sentence)


@dataclass
class Summaries:
    """All that was read: manifests and builds by their names, sums of other builds, and what does not count."""

    manifests: dict[str, Manifest] = field(default_factory=dict)
    builds: dict[str, Build] = field(default_factory=dict)
    sums: list[tuple[str, dict[str, Any]]] = field(default_factory=list)
    faults: Faults = field(default_factory=Faults)
    _known: dict[tuple[int, bytes], bytes] = field(default_factory=dict)

    def read(self, paths: Sequence[str]) -> None:
        """Reads files, and all files below folders. Raises OSError."""
        waiting: list[tuple[str, Any]] = []
        for path in _files(paths):
            for place, line in _lines(path):
                try:
                    if self._known.get(_mark(line)) != line:
                        self._take(line, place, waiting)
                except Fault as why:
                    self.faults.add(f"{place}: {why}")
        for place, it in waiting:
            try:
                self._take_finding(it)
            except Fault as why:
                self.faults.add(f"{place}: {why}")
        for name in [name for name, it in self.builds.items() if it.manifest not in self.manifests]:
            self.faults.add(f"build {name}: no line has the names of its manifest {self.builds.pop(name).manifest}")

    def _take(self, line: bytes, place: str, waiting: list[tuple[str, Any]]) -> None:
        try:
            it = json.loads(line)
        except (ValueError, RecursionError) as why:
            raise Fault("it is cut off, or no line of a summary") from why
        if not isinstance(it, dict) or it.get("rebug") not in _WORDS:
            raise Fault("it is no line of a summary")
        if it.get("version") != VERSION:
            raise Fault(f"it has version {it.get('version')!r:.20}, which this rebug does not read")
        name = it.get("manifest")
        if not isinstance(name, str) or not _NAME.fullmatch(name):
            raise Fault("it names no manifest")
        if it["rebug"] == "names":
            found = _manifest(it)
            if self.manifests.setdefault(name, found) != found:
                raise Fault(f"it has other names for manifest {name} than a line before")
            self._known[_mark(line)] = line  # each summary has it again
        elif it["rebug"] == "finding":
            waiting.append((place, it))
            self._known[_mark(line)] = line
        elif it["rebug"] == "sums":
            self.sums.append((name, it))
        else:
            build = _build(it, name)
            self.builds[build.id] = build

    def _take_finding(self, it: Any) -> None:
        manifest = self.manifests.get(it["manifest"])
        if manifest is None:
            raise Fault(f"no line has the names of its manifest {it['manifest']}")
        texts = [it.get(name) for name in ("id", "finding", "path", "mend")]
        ends = [it.get(name) for name in ("maker", "user")]
        if not all(isinstance(text, str) for text in texts) or not all(_is_number(end, len(manifest.names))
                                                                       for end in ends):
            raise Fault("a finding with other members")
        maker, user = ends
        manifest.findings.setdefault(it["id"], Finding(it["id"], it["finding"], it["path"], maker, user, it["mend"]))


def _mark(line: bytes) -> tuple[int, bytes]:
    """What two equal lines share: less than the line, since those of names are long."""
    return len(line), line[:_MARK_BYTES]


def _files(paths: Sequence[str]) -> Iterator[str]:
    for path in paths:
        if not os.path.isdir(path):
            yield path
            continue
        for base, folders, names in os.walk(path):
            folders.sort()
            yield from (os.path.join(base, it) for it in sorted(names))


def _lines(path: str) -> Iterator[tuple[str, bytes]]:
    """The lines of a file with their places. Raises OSError."""
    if path != "-" and not os.path.isfile(path):
        if os.path.exists(path):
            raise NoFile(22, "it is no file", path)
        raise FileNotFoundError(2, "there is no such file", path)
    with open(0 if path == "-" else path, "rb", _BUFFER_BYTES, closefd=path != "-") as file:
        number = 0
        while line := file.readline(MOST_LINE):
            number += 1
            if not line.isspace():
                yield f"{path}:{number}", line


def _is_number(it: Any, count: int) -> bool:
    return isinstance(it, int) and not isinstance(it, bool) and 0 <= it < count


def _manifest(it: Any) -> Manifest:
    names, places, waits = (it.get(name) for name in ("names", "places", "waits"))
    if not all(isinstance(them, list) and len(them) <= _MOST_NODES for them in (names, places, waits)):
        raise Fault("names with other members")
    if not all(isinstance(text, str) for text in (*names, *places)) or len(names) != len(places) or (
            len(waits) < len(names)):
        raise Fault("names with other members")
    for them in waits:
        if not isinstance(them, list) or not all(_is_number(node, len(waits)) for node in them):
            raise Fault("names of which some wait for none of them")
    return Manifest(names, places, waits)


def _texts(it: Any) -> dict[str, str] | None:
    if isinstance(it, dict) and all(isinstance(text, str) for text in it.values()):
        return it
    return None


def _build(it: Any, manifest: str) -> Build:
    labels, failed, findings = (_texts(it.get(name)) for name in ("labels", "failed", "findings"))
    name, when, runs, left = it.get("id"), it.get("when"), it.get("runs"), it.get("left", "")
    if labels is None or failed is None or findings is None or not _is_number(when, 1 << 60) or not (
            isinstance(name, str) and isinstance(runs, str) and isinstance(left, str)):
        raise Fault("a build with other members")
    if not all(number.isascii() and number.isdigit() and len(number) < 10 for number in failed):
        raise Fault("a build with failed commands that have no number")
    return Build(name, manifest, when, labels, {int(number): text for number, text in failed.items()}, findings,
                 it.get("nothing") is True, runs, left)
