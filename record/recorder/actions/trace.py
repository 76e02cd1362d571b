"""What the trace of a recording says of commands: which ran, which failed, and the lists of their depfiles."""

from __future__ import annotations

from ..depfiles import read_depfile
from ..fields import canonical
from ..manifest import Edge, Manifest
from ..rerun.lines import Fields


class Trace:
    """Edges are told by their numbers. `started` are those whose commands ran, and `failed` those whose commands did
    not end well."""

    def __init__(self, text: bytes, manifest: Manifest) -> None:
        """Raises BadRecording."""
        self.started: set[int] = set()
        self.failed: set[int] = set()
        self._lines, self._producer = Fields("trace"), manifest.producer
        self._lists: dict[int, tuple[int, bytes]] = {}
        for at, line in enumerate(text.split(b"\n")):
            word, _, rest = line.partition(b" ")
            if word in (b"start", b"finish", b"fail", b"abort"):
                self._take(at, word, rest.split(b" ", 2))
            elif word == b"deps" and not self.started:
                words = rest.split(b" ", 2)
                edge = self._producer.get(canonical(self._lines.text(at, words[0])))
                if edge is not None and words[2:]:
                    self._lists[edge.number] = at, b"list " + words[2]

    def names(self, edge: Edge) -> list[bytes]:
        """The paths of the edge's list as they stand there: that of this run, else the one of the deps log. Raises
        BadRecording."""
        at, text = self._lists.get(edge.number, (0, b""))
        kind, _, rest = text.partition(b" ")
        if kind == b"list":
            return [self._lines.text(at, it) for it in rest.split(b" ")] if b"\\" in rest else rest.split(b" ")
        found = read_depfile(self._lines.text(at, rest), frozenset(edge.outputs)) if kind == b"depfile" else []
        if found is None:
            raise self._lines.fault(at, "a depfile that is not understood")
        return found

    def _take(self, at: int, word: bytes, words: list[bytes]) -> None:
        edge = self._edge(at, words[0])
        if word == b"start":
            self.started.add(edge.number)
        elif word != b"finish":
            self.failed.add(edge.number)
        elif words[2:]:
            self._lists[edge.number] = at, words[2]

    def _edge(self, at: int, word: bytes) -> Edge:
        edge = self._producer.get(canonical(self._lines.text(at, word)))
        if edge is None or edge.phony:
            raise self._lines.fault(at, "a command that the manifest does not have")
        return edge
