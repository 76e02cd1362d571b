"""Which version of a file a command met or left, where that is certain.

A command met a version where the file did not change from before the command began until it was looked at, when the
command had ended. A version's ctime says when it came; the observer says which commands change an entry, and from when
to when they ran. A command left a version where nobody else changes the entry while it runs, and it was looked at when
the command had ended. In every other case nothing is certain, and the answer is None.
"""

from __future__ import annotations

from bisect import bisect_left
from collections.abc import Iterable

from ..observed.flags import Flag
from .versions import Version
from .watching import NEVER, Run

_LATE = {Flag.LATE, Flag.CUT, Flag.NAMESPACE, Flag.URING, Flag.NOTIFIED}
"""The flags of commands that may change a file when nobody sees it."""


class Changers:
    """The commands that change one entry, in the order in which they began."""

    def __init__(self) -> None:
        self.runs: list[Run] = []
        self._begins: list[int] = []
        self._last: list[Run] = []

    def add(self, run: Run) -> None:
        """One more, which began after all others."""
        self.runs.append(run)
        self._begins.append(run.begin)
        last = self._last[-1] if self._last else run
        self._last.append(run if run.end >= last.end else last)

    def before(self, moment: int) -> Run | None:
        """Of those that began before a moment, the one that ended last."""
        at = bisect_left(self._begins, moment)
        return self._last[at - 1] if at else None

    def after(self, moment: int) -> Run | None:
        """The first that began at a moment or later."""
        at = bisect_left(self._begins, moment)
        return self.runs[at] if at < len(self.runs) else None

    def is_alone(self, run: Run) -> bool:
        """Whether no other one ran while one of them did."""
        other, next_one = self.before(run.begin), self.after(run.begin + 1)
        return (other is None or other.end < run.begin) and (next_one is None or next_one.begin > run.end)


class Moments:
    """The runs of a build, with what each changed. `final` has what stood at an entry when the build had ended."""

    def __init__(self, runs: Iterable[Run], changed: dict[int, Iterable[int]], folders: list[int],
                 final: dict[int, Version | None]) -> None:
        self.final = final
        self._entries: dict[int, Changers] = {}
        self._below: dict[int, Changers] = {}
        for run in sorted(runs, key=lambda it: it.begin):
            places = changed.get(id(run), ())
            for place in places:
                self._entries.setdefault(place, Changers()).add(run)
            for folder in {folders[it] for it in places}:
                self._below.setdefault(folder, Changers()).add(run)

    def is_changed(self, place: int) -> bool:
        """Whether a command changes an entry."""
        return place in self._entries

    def met(self, run: Run, place: int) -> Version | None:
        """The version of a file that a command met, which does not change the file itself."""
        changers = self._entries.get(place)
        version = run.looks.get(place)
        if version is None and (changers is None or changers.after(run.end) is None):
            version = self.final.get(place)
        return version if version is not None and self._stood(run, version, changers, place) else None

    def _stood(self, run: Run, version: Version, changers: Changers | None, place: int) -> bool:
        """Whether a version, which stood there when a command had ended, stood there all the time that it ran."""
        if changers is None:
            return 0 < run.began and version.changed < run.began
        before = changers.before(run.end)
        if before is not None and before.end > run.begin or not _is_before_the_next(version, changers, run):
            return False
        if version.changed < run.began:
            return True
        return before is not None and before.is_settled and before.looks.get(place) == version

    def left(self, run: Run, place: int) -> Version | None:
        """The version of a file that a command left."""
        changers = self._entries.get(place)
        version = run.looks.get(place)
        if changers is None or version is None or not run.is_settled or _LATE & run.command.flags:
            return None
        return version if changers.is_alone(run) and _is_before_the_next(version, changers, run) else None

    def listed(self, run: Run, folder: int) -> Version | None:
        """The version of a folder whose names a command met, but for the names that it changes there itself."""
        changers = self._below.get(folder)
        version = run.looks.get(folder)
        if version is None or not run.is_settled:
            return None
        if changers is None:
            return version if version.changed < run.began else None
        is_own = any(it is run for it in (changers.after(run.begin),))
        if is_own:
            return version if changers.is_alone(run) and _is_before_the_next(version, changers, run) else None
        before = changers.before(run.end)
        if before is not None and before.end > run.begin or not _is_before_the_next(version, changers, run):
            return None
        return version if version.changed < run.began or before is not None and before.end != NEVER else None


def _is_before_the_next(version: Version, changers: Changers, run: Run) -> bool:
    """Whether the next one to change the entry gives it another ctime than that of the version: its command began when
    the kernel's clock had gone on."""
    following = changers.after(run.end)
    return following is None or version.changed < following.began
