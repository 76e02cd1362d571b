"""What each command of a recording met and left, by the numbers that recordings share."""

from __future__ import annotations

from collections.abc import Iterable, Iterator
from dataclasses import dataclass, field

from ..actions.budget import Budget
from ..actions.files import Files
from ..actions.hidden import Filters
from ..actions.manifest import read_manifest
from ..fields import canonical
from ..manifest import Edge
from ..rerun.entries import CONTENTS, OBSERVED, OLD, Content, Entries, Link, Names
from ..rerun.lines import Lines
from .history import History
from .shared import FILE, FOLDER, MISSING, THERE, Folders, Shared, is_below

_MOST_LOOKS = 1 << 28
_HIDDEN = -1
_WITH_TEXT = (b"link", b"linked", b"searched", b"ensured")
_LOOKS = {b"read": FILE, b"status": FILE, b"mode": FILE, b"there": FILE, b"folder": FOLDER, b"missing": MISSING}
_MARKS = {b"there": THERE, b"missing": MISSING}
_FILES_CHANGED = (b"left", b"edited", b"taken", b"temps", b"linked")
_CHANGES = (*_FILES_CHANGED, b"made", b"removed")
_IN_CONTENTS = frozenset((b"read", b"left", b"there", b"missing", b"unsure", b"unsettled"))


@dataclass
class Run:
    """What a command met and left, by numbers of places and answers. `unsure` are places of which it is not certain
    what it met. `left` has None where it is not certain what it left. `changed` are all places that it changed, and
    `taken` those from which it took a file away."""

    flags: list[bytes] = field(default_factory=list)
    answers: dict[int, int] = field(default_factory=dict)
    unsure: set[int] = field(default_factory=set)
    left: dict[int, int | None] = field(default_factory=dict)
    changed: set[int] = field(default_factory=set)
    taken: set[int] = field(default_factory=set)


@dataclass(frozen=True)
class _Block:
    """Where the lines of a command stand in `observed` and in `contents`."""

    observed: range
    contents: range


class Recording:
    """A recording. Without a file `contents` it has `manifest` and `history` alone, and `has_contents` is false."""

    def __init__(self, files: Files) -> None:
        """Raises BadRecording and Unreadable."""
        self.folder = files.folder
        self.budget = Budget(_MOST_LOOKS, f"{files.folder} says of more than {_MOST_LOOKS:,} looks and names in all")
        self.manifest = read_manifest(files)
        self.history = History(files, self.manifest)
        observed, contents = files.read(b"observed"), files.read(b"contents")
        self.has_contents = bool(observed and contents and observed.split(b"\n", 1)[0] != OLD)
        self._blocks: dict[int, _Block] = {}
        if not self.has_contents or observed is None or contents is None:
            return
        self._observed, self._contents = Lines("observed", observed, OBSERVED), Lines("contents", contents, CONTENTS)
        self._filters = Filters(files.read(b"filters") or b"", self.budget)
        self.entries = Entries(self._observed, self._contents)
        self.entries.read_head()
        self._ninjas: set[int] = set()
        self._caches: set[bytes] = set()
        self._left_entries: set[int] = set()
        self._read_blocks()

    @property
    def folders(self) -> list[bytes]:
        """The build folder, and those of the sources."""
        return [self.entries.build, *self.entries.sources]

    @property
    def observed(self) -> Iterator[Edge]:
        """The edges of the commands that were observed, in the order of their starts."""
        return (self.manifest.edges[number] for number in self._blocks)

    def share(self, shared: Shared, folders: Folders) -> None:
        """Gives the entries and contents numbers that other recordings share. Raises BadRecording."""
        entries = self.entries
        hidden = [self._is_hidden(number) for number in range(len(entries.paths))]
        paths = [folders.path(it) for it in entries.paths]
        self._places = [_HIDDEN if is_hidden else shared.place(path) for path, is_hidden in zip(paths, hidden)]
        listings: dict[int, int] = {}
        self._listing, self._shared, self._folders = listings, shared, folders
        self._versions = [self._version(entry, content) for entry, content in entries.versions]

    @property
    def left(self) -> set[int]:
        """The places at which commands left something."""
        return {self._places[it] for it in self._left_entries}

    @property
    def moved(self) -> list[int]:
        """The places that changed while commands ran, and that no command changed."""
        return [it for it in map(self._places.__getitem__, self.entries.moved) if it != _HIDDEN]

    def run_of(self, edge: Edge) -> Run | None:
        """What the command of an edge met and left; None where it was not observed. Raises BadRecording."""
        block = self._blocks.get(edge.number)
        if block is None:
            return None
        run, listed = Run(), set[int]()
        links = self._look(run, listed, block.observed)
        self._meet(run, links, block.contents)
        for folder in listed:
            place = self._names_of(folder)
            if place not in run.answers and self._places[folder] not in run.changed:
                run.unsure.add(place)
        run.answers.pop(_HIDDEN, None)
        run.left.pop(_HIDDEN, None)
        for more in (run.unsure, run.changed, run.taken):
            more.discard(_HIDDEN)
        for place in run.unsure:
            run.answers[place] = THERE
        return run

    def _is_hidden(self, number: int) -> bool:
        """Whether an entry is neither input nor output: a file of Ninja's own, a cache, or a place that a filter
        names. A declared output is never hidden by a filter. Where a command left something in a folder that
        `observed` takes for a cache, the filters say whether it is one."""
        if number in self._ninjas:
            return True
        name = self.entries.names[number]
        if canonical(name) in self.manifest.producer:
            return False
        return self._filters.hide(name) or bool(self._caches) and is_below(self.entries.paths[number], self._caches)

    def _version(self, entry: int, content: Content) -> tuple[int, int]:
        """A content by its place and its answer."""
        if isinstance(content, Names):
            return self._names_of(entry), self._shared.answer(content)
        if isinstance(content, Link):
            content = Link(self._folders.path(content.text))
        elif content.is_executable:
            self._shared.programs.add(self._places[entry])
        return self._places[entry], self._shared.answer(content)

    def _names_of(self, entry: int) -> int:
        """The place of the names in a folder."""
        found = self._listing.get(entry)
        if found is None:
            place = self._places[entry]
            found = _HIDDEN if place == _HIDDEN else self._shared.place(self._shared.paths[place] + b"/")
            self._listing[entry] = found
        return found

    def _read_blocks(self) -> None:
        """Reads the entries, what Ninja changed, and where the block of each command stands."""
        lines, entries, begins, cached = self._observed, self.entries, list[tuple[int, int]](), set[bytes]()
        for at, it in enumerate(lines.lines[1:], 1):
            word, _, rest = it.partition(b" ")
            if word == b"path":
                entries.take_path(at, rest.split(b" "))
            elif word == b"edge":
                begins.append((at, self._edge_of(at, rest)))
            elif word == b"cached":
                cached.update(entries.paths[it] for its in self._ranges(at, rest.split(b" ")) for it in its)
            elif word in _FILES_CHANGED:
                for its in self._ranges(at, rest.split(b" ")[word == b"linked" :]):
                    (self._left_entries if begins else self._ninjas).update(its)
        if cached:
            self._caches = cached - set(_folders_above(entries.paths[it] for it in self._left_entries))
        ends = [at for at, _ in begins[1:]] + [len(lines.lines)]
        told = self._blocks_of_contents(entries.read_contents(), len(begins))
        for number, ((at, edge), end) in enumerate(zip(begins, ends)):
            self._blocks[edge] = _Block(range(at + 1, end), told.get(number, range(0)))

    def _edge_of(self, at: int, word: bytes) -> int:
        edge = self.manifest.producer.get(canonical(self._observed.text(at, word)))
        if edge is None or edge.phony:
            raise self._observed.fault(at, "a command that the manifest does not have")
        return edge.number

    def _blocks_of_contents(self, begin: int, count: int) -> dict[int, range]:
        """By the number of its block in `observed`, where the lines of a command stand in `contents`."""
        lines, found, last, at = self._contents, dict[int, range](), -1, begin
        while at < len(lines.lines):
            number = lines.number(at, lines.lines[at].removeprefix(b"edge "), count)
            if number <= last:
                raise lines.fault(at, "numbers that do not rise")
            first, last, at = at + 1, number, at + 1
            while at < len(lines.lines) and not lines.lines[at].startswith(b"edge "):
                at += 1
            found[number] = range(first, at)
        return found

    def _ranges(self, at: int, words: list[bytes]) -> list[range]:
        """The entries of a line of `observed`."""
        found = self._observed.ranges(at, words, len(self.entries.paths))
        self.budget.spend(sum(map(len, found)))
        return found

    def _look(self, run: Run, listed: set[int], block: range) -> dict[int, int]:
        """Reads the lines of a command in `observed`: the links that it met, by their places."""
        links, missing = dict[int, int](), set[int]()
        for at in block:
            word, *words = self._observed.lines[at].split(b" ")
            if word == b"flag":
                run.flags.append(words[0] if words else b"")
                continue
            if word not in _LOOKS and word not in _CHANGES and word not in (b"link", b"listed"):
                continue
            text = self._observed.text(at, words.pop(0)) if word in _WITH_TEXT and words else b""
            ranges = self._ranges(at, words)
            if word == b"listed":
                listed.update(*ranges)
                continue
            places = [place for its in ranges for place in self._places[its.start : its.stop]]
            if word == b"missing":
                missing.update(places)
            elif word in _LOOKS:
                self._note(run, dict.fromkeys(places, _LOOKS[word]))
            elif word == b"link":
                links.update(dict.fromkeys(places, self._shared.answer(Link(self._folders.path(text)))))
            else:
                self._change(run, word, text, places)
        self._note(run, dict.fromkeys(missing, MISSING))
        return links

    def _change(self, run: Run, word: bytes, text: bytes, places: list[int]) -> None:
        run.changed.update(places)
        if word in (b"left", b"edited"):
            run.left.update(dict.fromkeys(places))
        elif word == b"linked":
            run.left.update(dict.fromkeys(places, self._shared.answer(Link(self._folders.path(text)))))
        elif word in (b"taken", b"removed"):
            run.taken.update(places)

    def _note(self, run: Run, answers: dict[int, int]) -> None:
        """Takes answers without contents. A place that answered in two ways changed while the command ran."""
        answers.pop(_HIDDEN, None)
        known = run.answers
        both = known.keys() & answers.keys()
        if both:
            run.unsure.update(it for it in both if known[it] != answers[it])
        known.update(answers)

    def _meet(self, run: Run, links: dict[int, int], block: range) -> None:
        """Reads the lines of a command in `contents`."""
        lines, versions, marks = self._contents, self._versions, list[dict[int, int]]()
        met = dict[int, int](links)
        for at in block:
            word, *words = lines.lines[at].split(b" ")
            if word not in _IN_CONTENTS:
                raise lines.fault(at, "a line that may not stand there")
            ranges = lines.ranges(at, words, len(versions if word in (b"read", b"left") else self.entries.paths))
            self.budget.spend(sum(map(len, ranges)))
            for its in ranges:
                if word == b"read":
                    met.update(versions[its.start : its.stop])
                elif word == b"left":
                    run.left.update(versions[its.start : its.stop])
                elif word == b"unsure":
                    run.unsure.update(self._places[its.start : its.stop])
                elif word == b"unsettled":
                    run.left.update(dict.fromkeys(self._places[its.start : its.stop]))
                else:
                    marks.append(dict.fromkeys(self._places[its.start : its.stop], _MARKS[word]))
        missing = {it for it, answer in run.answers.items() if answer == MISSING}
        run.unsure.update(missing & met.keys())
        run.answers.update(met)
        for its_marks in marks:
            for place, answer in its_marks.items():
                if run.answers.setdefault(place, answer) != answer and answer == MISSING:
                    run.unsure.add(place)


def _folders_above(paths: Iterable[bytes]) -> Iterator[bytes]:
    """The folders in which paths are."""
    seen = set[bytes]()
    for path in paths:
        while (path := path.rpartition(b"/")[0]) and path not in seen:
            seen.add(path)
            yield path
