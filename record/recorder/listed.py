"""What a build shows of the paths that deps records list. Lists are long, so each is looked at as a whole."""

from __future__ import annotations

from typing import TYPE_CHECKING, Optional, Sequence, Union

from .depslog import DepsLog, Listing, paths_of, taken
from .manifest import Edge

if TYPE_CHECKING:
    from .rules import Build

# A deps record: its stamp, and what it lists.
DepsRecord = tuple[int, Union[Listing, Sequence[bytes]]]


class _Table:
    """The paths of one deps log by their numbers: the stamp of each, and those that an edge makes."""

    def __init__(self, log: DepsLog, build: Build) -> None:
        self.stamps = [build.stamps.get(it, 0) for it in log.paths]
        self.made = {number for number, it in enumerate(log.paths) if it in build.producer}
        self.number_of = {it: number for number, it in enumerate(log.paths)}


class ListedPaths:
    """The listed paths of a build's edges."""

    def __init__(self, build: Build) -> None:
        self.build = build
        self.tables: dict[DepsLog, _Table] = {}
        self.known_makers: dict[int, list[Edge]] = {}

    def stamped(self, path: bytes, stamp: int) -> None:
        """Tells that a path's stamp is another one now."""
        for table in self.tables.values():
            number = table.number_of.get(path)
            if number is not None:
                table.stamps[number] = stamp

    def listing(self, edge: Edge) -> Union[Listing, Sequence[bytes]]:
        """The paths of the edge's deps record, as a list or as one that stands in a file."""
        record = self.build.deps.get(edge.outputs[0]) if edge.keeps_deps else None
        return record[1] if record else []

    def table(self, log: DepsLog) -> _Table:
        """What the build shows of the paths of a log."""
        if log not in self.tables:
            self.tables[log] = _Table(log, self.build)
        return self.tables[log]

    def makers(self, edge: Edge) -> list[Edge]:
        """The edges that make listed paths. They are kept until the record is another one (`forget`)."""
        if edge.number not in self.known_makers:
            listing, producer = self.listing(edge), self.build.producer
            paths: Sequence[bytes]
            if isinstance(listing, Listing):
                made = self.table(listing.log).made
                paths = [listing.log.paths[it] for it in made.intersection(listing.numbers())]
            else:
                paths = listing
            self.known_makers[edge.number] = [producer[it] for it in paths if it in producer]
        return self.known_makers[edge.number]

    def forget(self, edge: Edge) -> None:
        """Tells that the edge's record is another one now."""
        self.known_makers.pop(edge.number, None)

    def changed(self, edge: Edge) -> list[bytes]:
        """The listed paths that were rebuilt, in their order."""
        if not any(self.build.changed.get(it.number) for it in self.makers(edge)):
            return []
        return [it for it in paths_of(self.listing(edge)) if self.build.is_changed(it)]

    def newest(self, edge: Edge, known: dict[bytes, int]) -> tuple[int, Optional[bytes], list[bytes]]:
        """The greatest stamp that a listed path shows, the first path that does, and the paths that are missing."""
        listing = self.listing(edge)
        if isinstance(listing, Listing):
            numbers = listing.numbers()
            stamps: Sequence[int] = taken(self.table(listing.log).stamps, numbers)
            if stamps and 0 not in stamps:
                greatest = max(stamps)
                return greatest, listing.log.paths[numbers[stamps.index(greatest)]], []
        paths = paths_of(listing)
        stamps = [self.build.visible(it, known) for it in paths]
        greatest = max(stamps, default=0)
        if not stamps:
            return 0, None, []
        missing = [it for it, stamp in zip(paths, stamps) if not stamp and it not in self.build.producer]
        return greatest, paths[stamps.index(greatest)], missing
