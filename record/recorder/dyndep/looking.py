"""Ninja's look at what its targets lead to, and the dyndep files that it loads on the way.

Ninja goes down from each target, depth first, through explicit, implicit, listed and order-only inputs. When it first
meets a statement that names a dyndep file, it looks at that file first, and loads it where it is ready: where nothing
makes the file, or nothing is to be done for it. A path that nothing makes at that moment is a source for the statement
that has it as an input, also where a file that is loaded later says what makes it (*apart*).

A file that is made in the build is loaded when the statement is through that makes it. Ninja then looks again at what
depends on the file, and for the first time at what only the file leads to.
"""

from __future__ import annotations

from dataclasses import dataclass, field
from typing import Callable, Container, Iterator, Optional

from ..depslog import Listing, paths_of
from ..fields import shown
from ..manifest import Edge
from ..rules import IDLE, THROUGH, WANTED, Build
from .reading import BadDyndep
from .resolving import Resolving

_Step = Iterator[bytes]


@dataclass(frozen=True)
class Apart:
    """An edge that has an input which Ninja took for a source, since the file that says what makes it was loaded later:
    `is_late` where that was while the build ran."""

    user: int
    path: bytes
    file: bytes
    is_late: bool


@dataclass
class Looked:
    """What Ninja's look shows: which files were loaded with what content, and of edges their marks before anything ran.

    `late` has the files that were loaded while the build ran, `seen_before` the edges that name these and that Ninja had
    looked at before the load, and `late_edges` the edges that only these led to. `failed` is the file that could not be
    loaded, and why.
    """

    marks: dict[int, str] = field(default_factory=dict)
    early: list[bytes] = field(default_factory=list)
    late: list[bytes] = field(default_factory=list)
    seen_before: list[int] = field(default_factory=list)
    late_edges: list[int] = field(default_factory=list)
    apart: list[Apart] = field(default_factory=list)
    failed: Optional[tuple[bytes, str]] = None
    # for each edge and file the number of the target under which Ninja first looked at it
    target_of: dict[int, int] = field(default_factory=dict)
    target_of_file: dict[bytes, int] = field(default_factory=dict)


class Look:
    """Looks as Ninja does. `build` is of the manifest that is being resolved, `content` gives that of a file at the
    moment of its load, `may_be_told` has each path that a dyndep file may say is made, and `has_loaded` is called
    behind each load."""

    def __init__(self, resolving: Resolving, build: Build, content: Callable[[bytes], Optional[bytes]],
                 may_be_told: Container[bytes], has_loaded: Callable[[bytes], None]) -> None:
        self.resolving, self.build, self.content, self.may_be_told = resolving, build, content, may_be_told
        self.has_loaded = has_loaded
        self.found = Looked()
        self.producer = resolving.manifest.producer
        self.edges = resolving.manifest.edges
        self._begun: set[int] = set()
        self._open: dict[int, None] = {}
        self._sources: dict[bytes, list[int]] = {}
        self._known: dict[bytes, int] = {}
        self._todo: list[bytes] = []
        self._is_late, self._target = False, 0
        self._numbers: dict[object, set[int]] = {}

    # Before anything runs.

    def at_targets(self, targets: list[bytes]) -> None:
        """The look before the build. Where a file cannot be loaded, Ninja ends there."""
        try:
            for self._target, target in enumerate(targets):
                self._todo.append(target)
                self._look_at_all()
        except BadDyndep:
            self._stop()

    def _stop(self) -> None:
        self._todo.clear()
        self._open.clear()

    def _look_at_all(self) -> None:
        """All that is to be looked at: what validates an edge comes behind what the target leads to."""
        while self._todo:
            stack: list[_Step] = [self._at_path(self._todo.pop(0))]
            while stack:
                path = next(stack[-1], None)
                if path is None:
                    stack.pop()
                else:
                    stack.append(self._at_path(path))

    def _at_path(self, path: bytes) -> _Step:
        """Looks at a path; gives each path that is to be looked at before it goes on."""
        edge = self.producer.get(path)
        if edge is not None and edge.number in self._open:
            self._meet_cycle(edge)
        if edge is None or edge.number in self._begun:
            return
        self._begin(edge)
        file = self.resolving.file_of.get(edge.number)
        if file is not None and self.resolving.is_pending(file):
            yield file
            maker = self.producer.get(file)
            if maker is None or self.found.marks.get(maker.number) == IDLE:
                self._load(file)
        yield from self._inputs(edge)

    def _begin(self, edge: Edge) -> None:
        self._begun.add(edge.number)
        self._open[edge.number] = None
        self.found.target_of[edge.number] = self._target
        if self._is_late:
            self.found.late_edges.append(edge.number)
        self._todo += edge.validations

    def _inputs(self, edge: Edge) -> _Step:
        """Looks at the edge's inputs, and then says what is to be done for it."""
        makers: list[Edge] = []
        dirtying: list[Edge] = []
        for paths, list_of in ((edge.explicit + edge.implicit, dirtying), (self._listed(edge), dirtying),
                               (edge.order_only, makers)):
            for path in list(paths):
                yield path
                self._note(edge, path, list_of)
        self.found.marks[edge.number] = self._mark(edge, makers, dirtying)
        del self._open[edge.number]

    def _note(self, edge: Edge, path: bytes, makers: list[Edge]) -> None:
        """Notes what makes an input, or that nothing does yet."""
        maker = self.producer.get(path)
        if maker is not None:
            makers.append(maker)
        elif path in self.may_be_told:
            self._sources.setdefault(path, []).append(edge.number)

    def _mark(self, edge: Edge, makers: list[Edge], dirtying: list[Edge]) -> str:
        mark_of = self.found.marks.get
        if any(it[0] != "rebuilt" for it in self.build.reasons(edge, self._known)):
            return WANTED
        if any(mark_of(it.number) == WANTED for it in dirtying):
            return WANTED
        return THROUGH if any(mark_of(it.number) in (WANTED, THROUGH) for it in makers + dirtying) else IDLE

    def _listed(self, edge: Edge) -> list[bytes]:
        """The paths of the edge's deps record that an edge makes, or that a dyndep file may say is made."""
        listing = self.build.lists.listing(edge)
        if not isinstance(listing, Listing):
            return [it for it in paths_of(listing) if it in self.producer or it in self.may_be_told]
        log = listing.log
        if log not in self._numbers:
            self._numbers[log] = {number for number, it in enumerate(log.paths)
                                  if it in self.producer or it in self.may_be_told}
        return [log.paths[it] for it in self._numbers[log].intersection(listing.numbers())]

    # Loads.

    def _load(self, file: bytes) -> None:
        """Loads a file, and notes which edges took a path for a source that it says is made. Raises BadDyndep."""
        try:
            self.resolving.load(file, self.content(file))
        except BadDyndep as why:
            self.found.failed = file, str(why)
            raise
        (self.found.late if self._is_late and self._is_made_now(file) else self.found.early).append(file)
        self.found.target_of_file[file] = self._target
        self.has_loaded(file)
        self._part(file)

    def _meet_cycle(self, edge: Edge) -> None:
        """Ninja stops at an edge that needs itself. What it had loaded for the edges of the cycle is taken away again,
        so that the recording can be read."""
        numbers = list(self._open)
        numbers = numbers[numbers.index(edge.number):]
        files = {self.resolving.file_of[it]: None for it in numbers if it in self.resolving.told}
        if not files:
            return
        why = f"{shown(edge.name)} would need itself"
        for it in files:
            self.resolving.unload(it)
            self.found.failed = it, why
        raise BadDyndep(why)

    def _part(self, file: bytes) -> None:
        found = [Apart(user, path, file, self._is_late) for number in self.resolving.files[file]
                 for path in self.resolving.told[number].outputs
                 for user in self._sources.pop(path, ()) if user != number]
        behind = self._depending_on(file) if found and self._is_late else set()
        self.found.apart += [it for it in found if it.user not in behind]

    def _is_made_now(self, file: bytes) -> bool:
        maker = self.producer.get(file)
        return maker is not None and self.found.marks.get(maker.number) != IDLE

    def _depending_on(self, file: bytes) -> set[int]:
        """The edges that depend on a file: Ninja looks at them again once it is loaded."""
        users: dict[bytes, list[int]] = {}
        for number in self._begun:
            for path in self.edges[number].inputs:
                users.setdefault(path, []).append(number)
        told = {path for number in self.resolving.files[file] for path in self.resolving.told[number].outputs}
        maker = self.producer.get(file)
        todo, found = [file, *(maker.outputs if maker else ())], set[int]()
        while todo:
            for number in users.get(todo.pop(), ()):
                if number not in found:
                    found.add(number)
                    todo += [it for it in self.edges[number].outputs if it not in told]
        return found

    # While the build runs.

    def at_end_of(self, files: list[bytes]) -> None:
        """Loads files that were made in the build, in this order, and looks at what they lead to."""
        self._is_late = True
        for file in files:
            if not self.resolving.is_pending(file):
                continue
            try:
                self._load(file)
                seen = [it for it in self.resolving.files[file] if it in self._begun]
                self.found.seen_before += seen
                for number in seen:
                    self._look_again(self.edges[number])
            except BadDyndep:
                self._stop()
                return

    def sources_looked_at_late(self) -> set[bytes]:
        """The paths that nothing makes, and that Ninja looked at for the first time while the build ran."""
        late = set(self.found.late_edges)
        told = {number for file in self.found.late for number in self.resolving.files[file]}
        found = {path for number in late for path in self.build.inputs(self.edges[number])}
        found.update(path for number in told for path in self.resolving.told[number].inputs)
        found.difference_update(self.producer)
        for number in self._begun - late if found else ():
            edge = self.resolving.original.edges[number] if number in told else self.edges[number]
            found.difference_update(edge.inputs, self.build.listed(edge))
        return found

    def _look_again(self, edge: Edge) -> None:
        for path in self.resolving.told[edge.number].inputs:
            self._todo.append(path)
            self._look_at_all()
            self._note(edge, path, [])
