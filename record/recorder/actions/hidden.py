"""The places that the file `filters` of a recording names: caches, which are neither inputs nor outputs."""

from __future__ import annotations

from ..observed.filters import MOST_BYTES
from ..rerun.lines import BadRecording
from .budget import Budget

_Part = tuple[bytes, ...]


class Filters:
    """The patterns of a file `filters` (docs/FORMATS.md, "Places that are not told of")."""

    def __init__(self, text: bytes, budget: Budget) -> None:
        """Raises BadRecording."""
        if len(text) > MOST_BYTES:
            raise BadRecording(f"filters: it has more than {MOST_BYTES} bytes")
        self._budget = budget
        self._names: set[bytes] = set()
        self._forms: list[_Part] = []
        self._tops: list[list[_Part]] = []
        self._known: dict[bytes, bool] = {}
        for at, line in enumerate(text.split(b"\n"), 1):
            if not line or line.startswith(b"#"):
                continue
            parts = line.split(b"/")
            if b"" in parts[1:]:
                raise BadRecording(f"filters:{at}: a part of the pattern is empty")
            if len(parts) > 1:
                self._tops.append([tuple(it.split(b"*")) for it in parts])
            elif b"*" in line:
                self._forms.append(tuple(line.split(b"*")))
            else:
                self._names.add(line)

    def hide(self, name: bytes) -> bool:
        """Whether a pattern hides a path as `observed` has it. Raises BadRecording."""
        parts = name.split(b"/")
        return any(map(self._is_hidden, parts)) or any(self._begins(parts, it) for it in self._tops)

    def _is_hidden(self, part: bytes) -> bool:
        found = self._known.get(part)
        if found is None:
            self._budget.spend(len(self._forms))
            found = self._known[part] = part in self._names or any(_fits(part, it) for it in self._forms)
        return found

    def _begins(self, parts: list[bytes], form: list[_Part]) -> bool:
        self._budget.spend(1)
        return len(parts) >= len(form) and all(map(_fits, parts, form))


def _fits(part: bytes, form: _Part) -> bool:
    """Whether a component of a path is what a part of a pattern says: its texts in their order, and anything between
    two of them."""
    first, *between = form
    if not between:
        return part == first
    last = between.pop()
    if not part.startswith(first) or not part.endswith(last) or len(part) < len(first) + len(last):
        return False
    at, end = len(first), len(part) - len(last)
    for text in between:
        at = part.find(text, at, end)
        if at < 0:
            return False
        at += len(text)
    return True
