"""The manifest of a recording that may come from somebody else: it is read and expanded as far as a build's is."""

from __future__ import annotations

from ..fields import canonical, shown
from ..limits import DEEPEST
from ..manifest import BadManifest, Edge, Lookup, Manifest, Scope
from ..rerun.lines import BadRecording, Fields
from .budget import Budget
from .files import Files

_MOST_READ, _MOST_OF_AN_EDGE, _MOST_EXPANDED = 1 << 29, 1 << 26, 1 << 34
_OF_A_FILE, _OF_A_VALUE = 1 << 14, 256


class RecordedManifest(Manifest):
    """A manifest whose rules are expanded where `value` is asked, since an answer needs few of their values."""

    def __init__(self, name: bytes, files: Files) -> None:
        """Raises BadManifest, BadRecording and Unreadable."""
        self.budget = Budget(_MOST_READ, "the manifest: its values have more than 512 MiB in all")
        self._expanded = Budget(_MOST_EXPANDED, "the manifest: the values of its rules have more than 16 GiB in all")
        super().__init__(name, files.needed)

    def new_scope(self, parent: Scope | None = None) -> Scope:
        """A scope whose values count each time that they are taken."""
        return _Scope(self, parent)

    def value(self, edge: Edge, name: bytes, is_path: bool = False) -> bytes:
        """The value of an edge's binding as Ninja has it: `command` and `rspfile_content`, or a path. Raises
        BadRecording."""
        place = f"{shown(edge.file)}:{edge.line}"
        self.budget = Budget(_MOST_OF_AN_EDGE, f"{place}: its values have more than 64 MiB")
        lookup = _Lookup(edge, as_ninja=True, escape=bytes) if is_path else _Lookup(edge, as_ninja=True)
        lookup.budget = self.budget
        try:
            return lookup.value(name)
        except (BadManifest, RecursionError) as why:
            raise BadRecording(f"{place}: {why}") from why
        finally:
            self._expanded.spend(self.budget.spent)

    def _read(self, name: bytes, scope: Scope, depth: int) -> None:
        if depth > DEEPEST:
            raise BadManifest(f"{shown(name)} is included more than {DEEPEST} deep")
        known = self._known.get(canonical(name))
        self.budget.spend(_OF_A_FILE + (len(known[1]) if known else 0))
        super()._read(name, scope, depth)

    def _end(self, edge: Edge) -> None:
        """Nothing: `value` expands."""


class _Scope(Scope):
    def __init__(self, manifest: RecordedManifest, parent: Scope | None) -> None:
        super().__init__(parent)
        self._manifest = manifest

    def variable(self, name: bytes) -> bytes:
        found: bytes = super().variable(name)
        self._manifest.budget.spend(len(found))
        return found


class _Lookup(Lookup):
    budget: Budget

    def value(self, name: bytes) -> bytes:
        found: bytes = super().value(name)
        self.budget.spend(len(found) + _OF_A_VALUE)
        return found


def read_manifest(files: Files) -> RecordedManifest:
    """The manifest of a recording. Raises BadRecording and Unreadable."""
    name = b"build.ninja"
    lines = Fields("ninja")
    for at, line in enumerate((files.read(b"ninja") or b"").split(b"\n")):
        if line.startswith(b"manifest "):
            name = lines.text(at, line.split(b" ", 1)[1])
    try:
        return RecordedManifest(name, files)
    except (BadManifest, RecursionError) as why:
        raise BadRecording(f"the manifest: {why}") from why
