"""What mends a finding in GN's files: an item of `deps`."""

from __future__ import annotations

from .edits import Edit, How
from .findings import Finding
from .proposing import CannotEdit, Candidate, Ground, Side


class GNMends:
    """Proposes edits in the files of GN."""

    def __init__(self, ground: Ground) -> None:
        self.ground = ground

    def of(self, finding: Finding, user: Side, maker: Side | None) -> list[Candidate]:
        """The candidates for a finding. Raises CannotEdit."""
        if maker is None or not finding.is_order:
            raise CannotEdit("GN's files are changed for an order alone",
                             "`inputs` of the user, or `outputs` of the maker, is to name the file")
        target, place = user.target, user.target.place
        if place is None or target.name.rpartition(":")[2] != target.variable:
            raise CannotEdit(f"{target.name} is made by a template",
                             f"`deps` of what the template makes is to have \"{maker.target.name}\"")
        self.ground.text(place.file)
        label = maker.target.name
        folder, _, name = label.rpartition(":")
        value = f'":{name}"' if folder == target.name.rpartition(":")[0] else f'"{label}"'
        says = f"{self.ground.shown(place.file)}:{place.line}: deps of {place.call}(\"{target.variable}\") has {value}"
        return [Candidate((Edit(place.file, place.line, How.DEPS, value, call=place.call),), says)]

    def for_next_build(self, finding: Finding, user: Side, maker: Side | None) -> list[Candidate]:
        """GN has no edit for what a next build misses."""
        return []
