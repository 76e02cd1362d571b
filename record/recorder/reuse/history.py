"""What the trace of a recording says: what stood there before, which commands ran, when, and what they left."""

from __future__ import annotations

from ..actions.files import Files
from ..actions.manifest import RecordedManifest
from ..fields import canonical
from ..manifest import Edge
from ..rerun.lines import Fields
from ..times import moments

_MOST_DIGITS = 20


class History:
    """Edges are told by their numbers. `started` are those whose commands ran, in the order of their starts, `failed`
    those whose commands did not end well. `milliseconds` has how long commands ran. Of the time before the build
    `stamps` has the stamp of each path, and `built` those of the build log. `left` has the stamps of a command's
    outputs when it had ended. `ended` is the greatest of these."""

    def __init__(self, files: Files, manifest: RecordedManifest) -> None:
        """Raises BadRecording and Unreadable."""
        self.started: dict[int, None] = {}
        self.failed: set[int] = set()
        self.milliseconds: dict[int, int] = {}
        self.stamps: dict[bytes, int] = {}
        self.built: dict[bytes, int] = {}
        self.left: dict[int, list[int]] = {}
        self.ended = 0
        self._listed: dict[int, tuple[int, int, bytes]] = {}
        self._lines, self._producer = Fields("trace"), manifest.producer
        self._begun: dict[int, int] = {}
        self._read(files.needed(b"trace"), {label: it.moment for label, it in moments(files.read(b"times") or b"")})

    def listed(self, edge: Edge) -> tuple[int, list[bytes]] | None:
        """The deps log's record of an edge before the build: its stamp, and the paths. None where there is none.
        Raises BadRecording."""
        found = self._listed.get(edge.number)
        if found is None:
            return None
        at, stamp, text = found
        return stamp, [canonical(self._lines.text(at, it)) for it in text.split(b" ")] if text else []

    def _read(self, trace: bytes, moments: dict[bytes, int]) -> None:
        lane, places = b"", dict[bytes, int]()
        for at, line in enumerate(trace.split(b"\n")):
            word, _, rest = line.partition(b" ")
            if word == b"lane":
                lane = rest
            elif not lane:
                self._open(at, word, rest)
            elif word:
                place = places[lane] = places.get(lane, 0) + 1
                if word in (b"start", b"finish", b"fail", b"abort"):
                    self._take(at, word, rest.split(b" ", 2), moments.get(b"%s:%d" % (lane, place)))

    def _open(self, at: int, word: bytes, rest: bytes) -> None:
        """A line of what was there before."""
        if word not in (b"stamp", b"built", b"deps"):
            return
        name, *words = rest.split(b" ", 2)
        path = canonical(self._lines.text(at, name))
        stamp = self._stamp(at, words[0] if words else b"")
        if word == b"stamp":
            self.stamps[path] = stamp
        elif word == b"built":
            self.built[path] = stamp
        else:
            edge = self._producer.get(path)
            if edge is not None:
                self._listed[edge.number] = at, stamp, words[1] if len(words) > 1 else b""

    def _take(self, at: int, word: bytes, words: list[bytes], moment: int | None) -> None:
        edge = self._producer.get(canonical(self._lines.text(at, words[0])))
        if edge is None or edge.phony:
            raise self._lines.fault(at, "a command that the manifest does not have")
        if word == b"start":
            self.started[edge.number] = None
            if moment is not None:
                self._begun[edge.number] = moment
            return
        if moment is not None and edge.number in self._begun:
            self.milliseconds[edge.number] = max(0, moment - self._begun[edge.number])
        if word != b"finish":
            self.failed.add(edge.number)
            return
        self.failed.discard(edge.number)
        stamps = [self._stamp(at, it) for it in words[1].split(b",")] if len(words) > 1 else []
        self.left[edge.number] = stamps
        self.ended = max(self.ended, *stamps, 0)

    def _stamp(self, at: int, word: bytes) -> int:
        if not word.isdigit() or len(word) > _MOST_DIGITS:
            raise self._lines.fault(at, "a stamp that is no number")
        return int(word)
