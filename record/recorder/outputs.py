"""The file `output` of a recording: what commands wrote, as Ninja showed it (docs/FORMATS.md)."""

from __future__ import annotations

from typing import Iterator, Sequence

from .events import Event, Fail, Finish, name_of
from .fields import line
from .said import Said, Written, behind_status_line, texts_of
from .sequence import EdgeRun

MOST_BYTES = 16_777_216
"""How many bytes are kept of all commands together."""


def output_lines(events: Sequence[Event], places: Sequence[int], written: dict[bytes, Written]) -> Iterator[bytes]:
    """A line for each of the events at these places whose command's output is known: its kind, the edge's first output,
    the event's number, how many bytes were left out, and the others."""
    left = MOST_BYTES
    for number, place in enumerate(places, 1):
        event = events[place]
        if not isinstance(event, (Fail, Finish)) or event.output not in written:
            continue
        it = written[event.output]
        text = it.text[: max(0, left)]
        left -= len(text)
        kind = "failed" if isinstance(event, Fail) else "finished"
        yield line(kind, name_of(event), number, it.left_out + len(it.text) - len(text), text)


def of_finished(said: Said, runs: Sequence[EdgeRun]) -> None:
    """Gives each command that ended well what it wrote, where it wrote something.

    A piece of Ninja's output is of a command that ended at its time, and whose status line it begins with; of several
    such commands they are taken in the log's order, which is that of the pieces. At a terminal Ninja writes a status
    line at a start too, so there a piece counts that has more than that line.
    """
    by_end: dict[int, list[EdgeRun]] = {}
    for run in runs:
        if run.word == "finish" and run.edge.pool != b"console":
            by_end.setdefault(run.end, []).append(run)
    is_at_line_begin = True
    for piece in said.pieces:
        if piece.has_failure:
            is_at_line_begin = piece.last.endswith(b"\n")
            continue
        for run in by_end.get(piece.time, ()):
            begin = behind_status_line(piece, texts_of(run.edge), said)
            if not begin:
                continue
            # where the output before had no line end, Ninja has written one
            begin += not said.is_smart and not is_at_line_begin and piece.head[begin : begin + 1] == b"\n"
            if piece.size > begin:
                run.written = piece.written(begin, piece.size)
                is_at_line_begin = piece.last.endswith(b"\n")
            if piece.size > begin or not said.is_smart:
                by_end[piece.time].remove(run)
                break
