"""What each command of a recording met and left, one command after another, by the numbers of entries."""

from __future__ import annotations

import enum
from bisect import bisect_left
from collections import defaultdict
from collections.abc import Iterable, Iterator
from dataclasses import dataclass, field

from ..fields import canonical
from ..manifest import Edge
from ..rerun.entries import CONTENTS, OBSERVED, OLD, Entries, File, Link, Names
from ..rerun.lines import BadRecording, Fields, Lines
from .budget import Budget
from .files import Files
from .hidden import Filters
from .manifest import read_manifest
from .trace import Trace

_MOST_LOOKS = 1 << 28
_WITH_TEXT = (b"link", b"linked", b"searched", b"ensured")
_FILES, _FOLDERS = (b"read", b"status", b"mode", b"there", b"edited"), (b"folder", b"found", b"listed", b"passed")
_CHANGES = (b"left", b"edited", b"taken", b"temps", b"linked", b"made", b"removed")
_KEPT = frozenset((*_FILES, *_FOLDERS, *_CHANGES, b"link"))
_IN_CONTENTS = frozenset((b"read", b"left", b"there", b"missing", b"unsure", b"unsettled"))


class Place(enum.Enum):
    """Where an entry is: below the folders of the project or left elsewhere by a command; in the system; or in a cache,
    at a place that a filter names, or among the files that Ninja itself writes."""

    PROJECT = "project"
    SYSTEM = "system"
    ELSEWHERE = "elsewhere"


@dataclass
class Command:
    """A command by its edge, and what it met and left at which entries. `read` and `edited` are files that it read and
    changed in place. The content of a file is None where it is not certain, and so are the names in a folder."""

    edge: Edge
    has_failed: bool
    flags: list[bytes] = field(default_factory=list)
    files: dict[int, File | None] = field(default_factory=dict)
    links: dict[int, bytes] = field(default_factory=dict)
    listed: dict[int, Names | None] = field(default_factory=dict)
    read: set[int] = field(default_factory=set)
    edited: set[int] = field(default_factory=set)
    left: dict[int, File | Link | None] = field(default_factory=dict)


class Recording:
    """A recording with contents. Entries have numbers: `paths` and `names` are those of `Entries`. `makers` has the
    first command that left an entry, and `aliases` the entries that the manifest or a list names besides."""

    def __init__(self, files: Files) -> None:
        """Raises BadRecording and Unreadable."""
        self.budget = Budget(_MOST_LOOKS, f"the recording says of more than {_MOST_LOOKS:,} looks and names in all")
        observed, contents = files.read(b"observed"), files.read(b"contents")
        if observed is None or contents is None or observed.split(b"\n", 1)[0] == OLD:
            raise BadRecording(f"{files.folder} has no contents: record the build with --contents")
        self._observed, self._contents = Lines("observed", observed, OBSERVED), Lines("contents", contents, CONTENTS)
        self.manifest = read_manifest(files)
        self.trace = Trace(files.needed(b"trace"), self.manifest)
        self.filters = Filters(files.read(b"filters") or b"", self.budget)
        self.other_names = dict(_other_names(files.read(b"names") or b""))
        self.entries = Entries(self._observed, self._contents)
        self.entries.read_head()
        self.aliases: list[tuple[bytes, int]] = []
        self.makers: dict[int, Edge] = {}
        self._ninjas: set[int] = set()
        self._caches: set[bytes] = set()
        self._begins: list[tuple[int, Edge]] = []
        self._read_observed()
        self._blocks = self._blocks_of_contents(self.entries.read_contents())
        self._tops = {self.entries.build, *self.entries.sources}
        self._placed: set[int] = set()
        self._entries_at: dict[Place, set[int]] = {it: set() for it in Place}
        versions = self.entries.versions
        self._files = [(entry, it if isinstance(it, File) else None) for entry, it in versions]
        self._no_files = [at for at, (_, it) in enumerate(versions) if not isinstance(it, File)]

    @property
    def edges(self) -> list[Edge]:
        """The edges of the commands that were observed, in the order of their starts."""
        return [edge for _, edge in self._begins]

    def at(self, place: Place, entries: Iterable[int]) -> set[int]:
        """Those of some entries that are at a place. Raises BadRecording."""
        its = set(entries)
        for entry in its - self._placed:
            self._entries_at[self._place(entry)].add(entry)
        self._placed |= its
        return its & self._entries_at[place]

    def commands(self, wanted: set[int] | None = None) -> Iterator[Command]:
        """The commands of the wanted edges, or of all, in the order of their starts. Raises BadRecording."""
        ends = [at for at, _ in self._begins[1:]] + [len(self._observed.lines)]
        for number, ((begin, edge), end) in enumerate(zip(self._begins, ends)):
            if wanted is None or edge.number in wanted:
                yield self._command(number, edge, begin, end)

    def _place(self, entry: int) -> Place:
        path, name = self.entries.paths[entry], self.entries.names[entry]
        if entry in self._ninjas:
            return Place.ELSEWHERE
        if canonical(name) not in self.manifest.producer:
            if self.filters.hide(name) or self._caches and _is_below(path, self._caches):
                return Place.ELSEWHERE
        return Place.PROJECT if entry in self.makers or _is_below(path, self._tops) else Place.SYSTEM

    def _read_observed(self) -> None:
        """Reads the entries, what Ninja did, and which commands left what."""
        lines, entries = self._observed, self.entries
        edge: Edge | None = None
        for at, it in enumerate(lines.lines[1:], 1):
            word, _, rest = it.partition(b" ")
            if word == b"path":
                entries.take_path(at, rest.split(b" "))
            elif word == b"also":
                name, _, number = rest.partition(b" ")
                self.aliases.append((lines.text(at, name), lines.number(at, number, len(entries.paths))))
            elif word == b"edge":
                edge = self._edge_of(at, rest)
                self._begins.append((at, edge))
            elif word == b"cached":
                self._caches.update(entries.paths[it] for it in self._numbers(at, rest.split(b" ")))
            elif word == b"prepared":
                self._ninjas.update(self._numbers(at, rest.split(b" ")))
            elif word in _CHANGES and edge is None:
                self._ninjas.update(self._numbers(at, rest.split(b" ")[word == b"linked":]))
            elif word in (b"left", b"edited", b"linked") and edge is not None:
                for entry in self._numbers(at, rest.split(b" ")[word == b"linked":]):
                    self.makers.setdefault(entry, edge)

    def _edge_of(self, at: int, word: bytes) -> Edge:
        edge = self.manifest.producer.get(canonical(self._observed.text(at, word)))
        if edge is None or edge.phony:
            raise self._observed.fault(at, "a command that the manifest does not have")
        return edge

    def _numbers(self, at: int, words: list[bytes]) -> list[int]:
        """The entries of a line of `observed`."""
        ranges = self._observed.ranges(at, words, len(self.entries.paths))
        self.budget.spend(sum(map(len, ranges)))
        return [number for its in ranges for number in its]

    def _blocks_of_contents(self, begin: int) -> dict[int, tuple[int, int]]:
        """By the number of its block in `observed`, where the block of a command stands in `contents`."""
        lines, found, last = self._contents, dict[int, tuple[int, int]](), -1
        at = begin
        while at < len(lines.lines):
            number = lines.number(at, lines.lines[at].removeprefix(b"edge "), len(self._begins))
            if number <= last:
                raise lines.fault(at, "numbers that do not rise")
            begin, last = at + 1, number
            at += 1
            while at < len(lines.lines) and not lines.lines[at].startswith(b"edge "):
                at += 1
            found[number] = begin, at
        return found

    def _command(self, number: int, edge: Edge, begin: int, end: int) -> Command:
        it = Command(edge, edge.number in self.trace.failed)
        looks: defaultdict[bytes, set[int]] = defaultdict(set)
        self._look(it, looks, begin + 1, end)
        changed = set().union(*(looks[word] for word in _CHANGES))
        unsure = self._meet(it, *self._blocks.get(number, (0, 0)))
        folders = set().union(*(looks[word] for word in _FOLDERS))
        it.read, it.edited = looks[b"read"] | it.files.keys(), looks[b"edited"]
        it.listed.update(dict.fromkeys(looks[b"listed"] & unsure))
        it.files.update(dict.fromkeys(unsure.union(*(looks[word] for word in _FILES)) - it.files.keys()))
        others = (changed - looks[b"read"] - it.edited) | folders | it.links.keys()
        for entry in (it.files.keys() & others) | (it.files.keys() & self.entries.folders):
            del it.files[entry]
        for entry in it.links.keys() & changed:
            del it.links[entry]
        return it

    def _look(self, it: Command, looks: defaultdict[bytes, set[int]], begin: int, end: int) -> None:
        """Reads the lines of a command's block in `observed`."""
        for at in range(begin, end):
            word, *words = self._observed.lines[at].split(b" ")
            if word == b"flag":
                it.flags.append(b" ".join(words))
            elif word in _KEPT:
                text = self._observed.text(at, words.pop(0)) if word in _WITH_TEXT and words else b""
                its = self._numbers(at, words)
                looks[word].update(its)
                if word == b"link":
                    it.links.update(dict.fromkeys(its, text))
                elif word == b"linked":
                    it.left.update(dict.fromkeys(its, Link(text)))
                elif word in (b"left", b"edited"):
                    it.left.update(dict.fromkeys(its))

    def _meet(self, it: Command, begin: int, end: int) -> set[int]:
        """Reads the lines of a command's block in `contents`. The entries of which it is not certain what it met."""
        lines, versions, unsure = self._contents, self.entries.versions, set[int]()
        for at in range(begin, end):
            word, *words = lines.lines[at].split(b" ")
            if word not in _IN_CONTENTS:
                raise lines.fault(at, "a line that may not stand there")
            ranges = lines.ranges(at, words, len(versions if word in (b"read", b"left") else self.entries.paths))
            if word in (b"there", b"missing"):
                continue
            self.budget.spend(sum(map(len, ranges)))
            for its in ranges:
                if word == b"unsure":
                    unsure.update(its)
                elif word == b"unsettled":
                    it.left.update(dict.fromkeys(its))
                elif word == b"left":
                    it.left.update((entry, None if isinstance(content, Names) else content)
                                   for entry, content in versions[its.start : its.stop])
                else:
                    self._read(it, its)
        return unsure

    def _read(self, it: Command, its: range) -> None:
        """Notes contents that a command met: most are those of files."""
        versions, at = self.entries.versions, its.start
        others = self._no_files[bisect_left(self._no_files, its.start) : bisect_left(self._no_files, its.stop)]
        for other in (*others, its.stop):
            it.files.update(self._files[at:other])
            at = other + 1
        for entry, content in map(versions.__getitem__, others):
            if isinstance(content, Link):
                it.links[entry] = content.text
            elif isinstance(content, Names):
                it.listed[entry] = content


def _is_below(path: bytes, folders: set[bytes]) -> bool:
    """Whether a path is one of the folders, or below one."""
    while path and path not in folders:
        path = path.rpartition(b"/")[0]
    return bool(path)


def _other_names(text: bytes) -> Iterator[tuple[bytes, bytes]]:
    """The pairs of the file `names`: a path, and the own name of the file to which it leads."""
    lines = Fields("names")
    for at, line in enumerate(text.split(b"\n")[1:], 1):
        words = line.split(b" ")
        if len(words) == 2:
            yield canonical(lines.text(at, words[0])), canonical(lines.text(at, words[1]))
