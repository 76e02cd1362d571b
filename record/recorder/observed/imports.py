"""Tells the listings by which Python's import looks for modules from those that a program itself asks for.

Python's import reads a folder's names in place of asking for each name that a module's file can have. So such a listing
is no look at all names, but at those that can be modules. Import asks three times whether a folder is there before it
lists it first (the importer of archives, the importer of folders, the folder's stamp). It lists it again only where the
folder has changed, and asks once before. And what it does next is to ask for a module's file in that folder, or for the
next folder. A program's own listing is followed by neither.
"""

from __future__ import annotations

from dataclasses import dataclass, field

_ASKED_FIRST = 3


@dataclass(slots=True)
class Imports:
    """What the import of one Python process did last. `known` has the folders that it listed, each with the number of
    changes in it until then. `pending` is a listing that may be import's."""

    last: int = -1
    asked: int = 0
    known: dict[int, int] = field(default_factory=dict)
    open: int | None = None
    pending: int | None = None

    def stat(self, place: int) -> None:
        """The process asked whether something is there."""
        self.asked = self.asked + 1 if place == self.last else 1
        self.last = place

    def opened(self, place: int, changes: int) -> None:
        """The process opened a folder, in which there were so many changes, or a file."""
        may_be = place == self.last and (self.known[place] != changes if place in self.known
                                         else self.asked >= _ASKED_FIRST)
        self.open = place if may_be else None
        if may_be:
            self.known[place] = changes
        self.last, self.asked = -1, 0

    def lists(self, place: int) -> bool:
        """The process lists a folder; whether that may be import's, which the next question shows."""
        if self.open != place:
            return False
        self.pending = place
        return True

    def decide(self, place: int, folder: int, is_folder: bool) -> tuple[int, bool] | None:
        """The next question, for an entry of a folder: the listing that was open, and whether it was import's."""
        if self.pending is None or place == self.pending:
            return None
        found, self.pending = self.pending, None
        return found, folder == found or is_folder
