"""Which entries the statements and lists of commands declare."""

from __future__ import annotations

import os
from collections.abc import Collection, Iterator
from dataclasses import dataclass
from functools import cached_property

from ..fields import canonical
from ..manifest import Edge
from ..rerun.entries import Names
from ..rerun.filling import digest_of_names
from .recording import Command, Place, Recording

_OF_A_NAME = 16
_MOST_LINKS = 40


@dataclass(frozen=True)
class Undeclared:
    """An entry that a command met and does not declare. `how` is `read`, `edited`, `asked`, `link` or `listed`. Of a
    folder whose names it read, `names` is how many these are, None where that is not certain, and `declared` how many
    of them lead to what the command declares."""

    entry: int
    how: str
    names: int | None = None
    declared: int = 0


@dataclass(frozen=True)
class _Group:
    """What a phony statement stands for: paths of the manifest, and their entries."""

    paths: list[bytes]
    entries: frozenset[int]


class Declarations:
    """The declarations of a recording's commands."""

    def __init__(self, recording: Recording) -> None:
        """Raises BadRecording."""
        self.recording, self._manifest = recording, recording.manifest
        self._build = recording.entries.build
        self._entry: dict[bytes, int] = {}
        for number, path in enumerate(recording.entries.paths):
            self._entry.setdefault(path, number)
        self._named: dict[bytes, int] = {}
        for number, name in enumerate(recording.entries.names):
            self._named.setdefault(canonical(name), number)
        for name, number in recording.aliases:
            self._named.setdefault(canonical(name), number)
        self._known: dict[bytes, tuple[int, ...]] = {}
        self._groups: dict[bytes, _Group] = {}

    def paths_of(self, edge: Edge) -> list[bytes]:
        """The paths that a command's statement and its list declare as they stand there, without what phony statements
        among them stand for. Raises BadRecording."""
        value = self._manifest.value
        files = [canonical(it) for it in (value(edge, b"rspfile", True), value(edge, b"depfile", True)) if it]
        return [*edge.inputs, *self.recording.trace.names(edge), *files]

    def maker(self, entry: int) -> Edge | None:
        """The command that makes an entry: the one whose statement has it, else the first that left it."""
        return self._makers.get(entry) or self.recording.makers.get(entry)

    def undeclared(self, command: Command) -> list[Undeclared]:
        """What a command met of the project and does not declare, in the order of the entries. Raises BadRecording."""
        files, links, folders = (self.recording.at(Place.PROJECT, its)
                                 for its in (command.files, command.links, command.listed))
        paths = self.paths_of(command.edge)
        left = files | links
        left.difference_update(*map(self._entries_of, paths))
        found: list[Undeclared] = []
        if left or folders:
            groups = [self._group(it) for it in dict.fromkeys(paths) if self._is_phony(it)]
            left = {it for it in left if not any(it in group.entries for group in groups)}
            reader = _Declared(self, command, [*paths, *(it for group in groups for it in group.paths)])
            if left and links:
                left -= reader.passed
            found += filter(None, (reader.listing(it, command.listed[it]) for it in folders))
        found += (Undeclared(it, _how(command, it)) for it in left)
        return sorted(found, key=lambda it: it.entry)

    def path_of(self, path: bytes) -> bytes:
        """The absolute path to which a path of the manifest leads as it is written."""
        return os.path.normpath(os.path.join(self._build, path))

    @property
    def entries(self) -> dict[bytes, int]:
        """The entries by their absolute paths."""
        return self._entry

    def spend(self, count: int) -> None:
        """Takes steps from what the recording may ask for. Raises BadRecording."""
        self.recording.budget.spend(count)

    def _entries_of(self, path: bytes) -> tuple[int, ...]:
        """The entries that a path of the manifest or of a list names: its own, and that of the file to which it led
        when the build was recorded."""
        found = self._known.get(path)
        if found is None:
            own = canonical(path)
            its = {self._one(own), self._one(self.recording.other_names.get(own, own))}
            found = self._known[path] = tuple(it for it in its if it is not None)
        return found

    def _one(self, path: bytes) -> int | None:
        number = self._named.get(path)
        return self._entry.get(self.path_of(path)) if number is None else number

    @cached_property
    def _makers(self) -> dict[int, Edge]:
        found: dict[int, Edge] = {}
        for edge in self._manifest.edges:
            for path in () if edge.phony else edge.outputs:
                number = self._one(path)
                if number is not None:
                    found.setdefault(number, edge)
        return found

    def _is_phony(self, path: bytes) -> bool:
        edge = self._manifest.producer.get(canonical(path))
        return edge is not None and edge.phony

    def _group(self, path: bytes) -> _Group:
        """What the phony statement with this output stands for, and those that it names."""
        found = self._groups.get(path)
        if found is None:
            paths = dict[bytes, None]()
            todo, seen = [canonical(path)], {path}
            while todo:
                edge = self._manifest.producer.get(todo.pop())
                for it in edge.inputs if edge is not None and edge.phony else ():
                    self.spend(_OF_A_NAME)
                    paths[it] = None
                    if it not in seen and self._is_phony(it):
                        seen.add(it)
                        todo.append(it)
            entries = frozenset(entry for it in paths for entry in self._entries_of(it))
            found = self._groups[path] = _Group(list(paths), entries)
        return found


class _Declared:
    """The paths that one command declares, and where they lead through the links that it met."""

    def __init__(self, declarations: Declarations, command: Command, paths: Collection[bytes]) -> None:
        self._of, self._command, self._paths = declarations, command, paths
        self._places = declarations.recording.entries.paths
        self._links = {self._places[entry]: text for entry, text in command.links.items()}

    @cached_property
    def _ways(self) -> set[bytes]:
        """The links on the ways of the declared paths, and where these ways end."""
        self._of.spend(len(self._paths))
        return {it for path in self._paths for it in self._way(self._of.path_of(path))}

    @property
    def passed(self) -> set[int]:
        """The entries of these links and ends."""
        return {number for number in map(self._of.entries.get, self._ways) if number is not None}

    def listing(self, entry: int, names: Names | None) -> Undeclared | None:
        """A folder whose names the command read; None where they are those of what it declares. The folders in which
        its outputs are to be are there for each command."""
        folder = self._places[entry].rstrip(b"/") + b"/"
        outputs = {os.path.dirname(self._of.path_of(it)) for it in self._command.edge.outputs}
        known = set(_below(folder, self._ways)) | set(_below(folder, outputs))
        if names is None:
            return Undeclared(entry, "listed", None, len(known))
        if len(known) == names.count and digest_of_names(known) == names.digest:
            return None
        return Undeclared(entry, "listed", names.count, len(known))

    def _way(self, path: bytes) -> Iterator[bytes]:
        """The links on the way of a path, and the path at its end, on whose way there is none."""
        todo, at, count = path.split(b"/")[:0:-1], b"", 0
        while todo:
            part = todo.pop()
            if part in (b"", b"."):
                continue
            at = at.rpartition(b"/")[0] if part == b".." else at + b"/" + part
            text = self._links.get(at)
            if text is not None and count < _MOST_LINKS:
                count += 1
                yield at
                at = b"" if text.startswith(b"/") else at.rpartition(b"/")[0]
                todo += text.split(b"/")[::-1]
        yield at or b"/"


def _below(folder: bytes, paths: Collection[bytes]) -> Iterator[bytes]:
    """The names in a folder through which paths lead."""
    for path in paths:
        if path.startswith(folder):
            yield path[len(folder) :].partition(b"/")[0]


def _how(command: Command, entry: int) -> str:
    if entry in command.links:
        return "link"
    if entry in command.edited:
        return "edited"
    return "read" if entry in command.read else "asked"
