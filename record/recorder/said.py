"""What Ninja writes to its standard output: handed on without the recorder's marks, and taken apart at them.

The recorder has Ninja begin each status line with a mark that holds the time (NINJA_STATUS). Ninja shows a command that
ended in one piece: its status line, where it failed `FAILED: OUTPUTS` and the command, then all that it wrote. The next
mark ends that piece. So what a command wrote is known to the byte, whatever it wrote. Two kinds of mark are not Ninja's
own: those of a Ninja that a command runs, whose clock began later and so shows an earlier time, and bytes that only
look like one, which no command is known to write.

Of a command of the console pool Ninja shows nothing at the end but `FAILED: OUTPUTS` and the command: what it wrote
went to the terminal by itself, whenever it was written.
"""

from __future__ import annotations

import itertools
import re
import time
from dataclasses import dataclass, field
from typing import Callable, Iterator, Sequence

from .manifest import Edge, Manifest

BEGIN, END = b"\x1e", b"\x1f"
MARK_COLUMNS = 7  # those of a mark of the first ten seconds
# Up to 1.11 Ninja takes the clock of the day: where that is set back during a build, there are times below 0.
_MARK = re.compile(BEGIN + rb"(-?)(\d+)\.(\d{3})" + END)
_LONGEST_MARK = 32
_COLOUR = re.compile(rb"\x1b\[[0-9;]*[A-Za-z]")
_FAILED_LINE = re.compile(rb"^(?:\x1b\[[0-9;]*m)*FAILED: .*\n", re.MULTILINE)
_FAILED = re.compile(rb"FAILED: (?:\[code=(-?\d+)\] )?(.*?) ?\n")
_STOPPED = b"ninja: build stopped: "
_STOPPED_LINE = re.compile(rb"^ninja: build stopped: (.*)", re.MULTILINE)
_METRICS_LINE = re.compile(rb"^metric *\tcount *\tavg \(us\)", re.MULTILINE)  # what `-d stats` has Ninja end with
_JOBSERVER, _NO_JOBSERVER = b"ninja: Jobserver mode detected: ", b"ninja: error: Could not initialize jobserver"

MOST_WRITTEN = 65_536
"""How many bytes of what a command wrote are kept."""
# Of a piece the first bytes are kept: a status line, `FAILED: OUTPUTS`, a command of at most 131,072 bytes (no longer
# one can be run) and what it wrote; and the last, where Ninja says that it stopped.
_MOST_OF_A_PIECE, _LAST_OF_A_PIECE = 4 * 131_072 + MOST_WRITTEN, 65_536
# Of all pieces together, and what is kept of each behind that.
_MOST_KEPT, _LEAST_OF_A_PIECE = 64 << 20, 256
_MOST_SPACES = 4  # in the part of a status line that is before what it shows of the command
_MOST_CANDIDATES = 3  # a description may have such a line, too
_MOST_AT_CONSOLE = 1000
CLEARED = b"\x1b[K"  # what Ninja ends a status line with on a terminal
_LAST_BYTES = len(b"FAILED: ") - 1


@dataclass(frozen=True)
class Written:
    """What a command wrote: the first bytes, and how many more there were."""

    text: bytes
    left_out: int = 0


@dataclass(frozen=True)
class Failed:
    """A command that Ninja says has failed: its exit status where this Ninja tells it (from 1.13 on), Ninja's time of
    it in milliseconds or None, when the line came (nanoseconds), and what it wrote where Ninja showed that.

    Where there is no time, the command is one of the console pool. It began at `began`, the time of its own status
    line, and ended between `since` and `until`, those of the status lines before and behind, which may be missing.
    """

    edge: Edge
    code: int | None
    time: int | None
    came: int
    written: Written | None = None
    began: int | None = None
    since: int = 0
    until: int | None = None

    def milliseconds(self, begin: int) -> int:
        """Ninja's time of it, where Ninja began at this time (nanoseconds): at the latest when the line came."""
        if self.time is not None:
            return self.time
        came = max(self.since, (self.came - begin) // 1_000_000)
        return came if self.until is None else min(came, self.until)


@dataclass
class Piece:
    """What stands between two of Ninja's own marks: its status line, and what Ninja wrote behind that.

    `time` are the milliseconds of the mark in front of it, -1 where it is the first piece. `head` has its first bytes,
    `tail` the last of those behind them. `came` is when `FAILED: ` came last (nanoseconds), 0 where it did not, and
    `last` the end of what came, in which half of that may stand.
    """

    time: int
    head: bytearray = field(default_factory=bytearray)
    tail: bytes = b""
    last: bytes = b""
    size: int = 0
    came: int = 0
    has_failure: bool = False

    def add(self, text: bytes) -> None:
        if b"FAILED: " in self.last + text:
            self.came = time.time_ns()
        self.last = (self.last + text[-_LAST_BYTES:])[-_LAST_BYTES:]
        self.size += len(text)
        taken = max(0, _MOST_OF_A_PIECE - len(self.head))
        self.head += text[:taken]
        if text[taken:]:
            self.tail = (self.tail + text[taken:])[-_LAST_OF_A_PIECE:]

    def parts(self) -> Iterator[tuple[int, bytes]]:
        """The bytes that are known, with the place of the first."""
        yield 0, bytes(self.head)
        if self.tail:
            yield self.size - len(self.tail), self.tail

    def written(self, begin: int, end: int) -> Written:
        """What stands there."""
        text = bytes(self.head[begin : min(end, begin + MOST_WRITTEN)])
        return Written(text, max(0, end - begin - len(text)))


class Shown:
    """The status lines that Ninja shows, from the first to the last."""

    def __init__(self, is_smart: bool) -> None:
        self.is_smart, self.is_whole, self.count = is_smart, True, 0
        self._lines: set[bytes] = set()
        self._texts: set[bytes] = set()
        self._kept = 0

    def add(self, status: bytes) -> None:
        """Takes a status line; of one with several the last."""
        line = status.rstrip(b"\r").removesuffix(CLEARED).rpartition(b"\n")[2]
        self.count += 1
        # On a terminal Ninja may have cut the middle out.
        self.is_whole = self.is_whole and not (self.is_smart and b"..." in line) and self._kept < _MOST_KEPT
        if self.is_whole and line not in self._lines:
            self._kept += len(line)
            self._lines.add(line)
            self._texts.update(_ends_of(line))

    def lacks(self, edge: Edge) -> bool:
        """Whether Ninja has shown each command that it ran, and not the one of this edge."""
        texts = [text.partition(b"\n")[0] for text in texts_of(edge)]
        if not self.is_whole or not self._lines or not all(texts):
            return False
        return self._texts.isdisjoint(texts) and not any(line.endswith(tuple(texts)) for line in self._lines)


def _ends_of(line: bytes) -> Iterator[bytes]:
    """What stands behind the first spaces of a status line: behind one of them begins what it shows of the command."""
    for _ in range(_MOST_SPACES):
        line = line.partition(b" ")[2]
        if not line:
            return
        yield line


class Said:
    """Takes what Ninja writes as it comes, hands it on without marks, and finds the commands that failed.

    After `end` it has what failed in the order in which Ninja showed it, the jobserver that Ninja said it asks, and the
    reason that Ninja gave for stopping, empty where it gave none. `shown` has the status lines of its commands. Where
    `keeps_all`, `pieces` has all that begin with a mark.
    """

    def __init__(self, manifest: Manifest, status_format: bytes, write: Callable[[bytes], None],
                 is_smart: bool = False, keeps_all: bool = False) -> None:
        self.manifest, self.write, self.is_smart, self.keeps_all = manifest, write, is_smart, keeps_all
        self.format_lines = status_format.count(b"\n")
        self.failed: list[Failed] = []
        self.pieces: list[Piece] = []
        self.jobserver: bytes | None = None
        self.stopped: bytes = b""
        self.shown = Shown(is_smart)
        self._kept = 0
        self._held = b""
        self._piece = Piece(-1)
        self._by_outputs: dict[bytes, list[Edge]] | None = None
        console = [edge for edge in manifest.edges if edge.pool == b"console"][:_MOST_AT_CONSOLE]
        self._console = {edge: texts_of(edge) for edge in console}
        # those texts by their line ends, so that a piece which is of none of them is seen at once
        self._console_texts: dict[int, tuple[bytes, ...]] = {}
        for text in {text for texts in self._console.values() for text in texts}:
            lines = text.count(b"\n")
            self._console_texts[lines] = (*self._console_texts.get(lines, ()), text)
        self._at_console: list[Edge] = []
        self._console_began = 0

    def take(self, data: bytes) -> None:
        """Takes the next bytes. What may be the beginning of a mark waits for the rest of it."""
        data = self._held + data
        at = data.rfind(BEGIN)
        is_cut = at >= 0 and len(data) - at < _LONGEST_MARK and END not in data[at:]
        self._held, data = (data[at:], data[:at]) if is_cut else (b"", data)
        at = 0
        for mark in _MARK.finditer(data):
            self._piece.add(data[at : mark.start()])
            at = mark.end()
            now = int(mark[1] + mark[2] + mark[3])
            if now >= self._piece.time:  # else it is that of a Ninja which a command runs
                self._close(until=now)
                self._piece = Piece(now)
        self._piece.add(data[at:])
        self.write(_MARK.sub(b"", data))

    def end(self) -> None:
        """There is no more."""
        self._piece.add(self._held)
        self.write(self._held)
        self._held = b""
        end = self._piece.size
        for begin, text in self._piece.parts():
            for line in _STOPPED_LINE.finditer(text):
                end, self.stopped = begin + line.start(), line[1]
        if not self.stopped:
            for begin, text in self._piece.parts():
                for line in _METRICS_LINE.finditer(text):
                    end = begin + line.start()
        self._close(end)

    def _close(self, end: int | None = None, until: int | None = None) -> None:
        """The piece is whole. `end` is where Ninja's last words begin, where it is the last piece, and `until` is the
        time of the next one, where there is one."""
        piece = self._piece
        if piece.time < 0:
            self._look_at_first(piece)
        else:
            self.shown.add(_lines_of(piece, self.format_lines + 1)[0])
        if end is None:
            end = piece.size
            if self.is_smart and bytes(piece.tail or piece.head)[-1:] == b"\r":
                end -= 1  # Ninja goes back to the line's beginning before the next status line
        failure, at_console = self._failure(piece), self._console_failure(piece, end)
        if at_console:
            end = min(end, at_console[0])
        if failure:
            edge, code, begin = failure
            self.failed.append(Failed(edge, code, piece.time, piece.came, piece.written(begin, max(begin, end))))
        if self.keeps_all and piece.time >= 0:
            self._keep(piece, end, bool(failure))
        if at_console:
            _, edge, code = at_console
            self.failed.append(Failed(edge, code, None, piece.came, None, self._console_began, piece.time, until))

    def _look_at_first(self, piece: Piece) -> None:
        """Before its first status line Ninja speaks of itself alone."""
        for line in bytes(piece.head).splitlines():
            if line.startswith((_JOBSERVER, _NO_JOBSERVER)):
                self.jobserver = line[len(_JOBSERVER) :].strip() if line.startswith(_JOBSERVER) else None

    def _keep(self, piece: Piece, end: int, has_failure: bool) -> None:
        """Keeps a piece up to its end; of its bytes none where a command failed in it, and as many as there is room
        for."""
        piece.has_failure = has_failure
        if end < piece.size:
            piece.last = bytes(piece.head[:end])[-_LAST_BYTES:] if end <= len(piece.head) else b"\n"
        piece.size = end
        del piece.head[0 if has_failure else end :]
        piece.tail = b""
        if self._kept + len(piece.head) > _MOST_KEPT:
            del piece.head[_LEAST_OF_A_PIECE:]
        self._kept += len(piece.head)
        self.pieces.append(piece)

    def _failure(self, piece: Piece) -> tuple[Edge, int | None, int] | None:
        """The command that failed here, its exit status where that is told, and where what it wrote begins. Its line
        and the command stand right behind its status line, so one that writes such a line is not taken for it."""
        if piece.time < 0 or not piece.came:
            return None
        for outputs, code, line in itertools.islice(_failed_lines(piece.head), _MOST_CANDIDATES):
            for edge in self._edges_with(outputs):
                command = edge.binding(b"command") + b"\n"
                if edge.pool == b"console" or not piece.head.startswith(command, line.end()):
                    continue
                behind = behind_status_line(piece, texts_of(edge), self)
                if behind and piece.head[behind : line.start()] in (b"", b"\n"):
                    return edge, code, line.end() + len(command)
        return None

    def _console_failure(self, piece: Piece, end: int) -> tuple[int, Edge, int | None] | None:
        """The command of the console pool that failed here: where its line begins, and its exit status where that is
        told. It is one that is running. Its line and the command are the last that Ninja wrote here; in the piece that
        begins with its own status line, processes that it left may have written more."""
        begun: list[Edge] = []
        if any(behind_status_line(piece, texts, self) for texts in self._console_texts.values()):
            begun = [edge for edge, shown in self._console.items() if behind_status_line(piece, shown, self)]
            self._console_began = piece.time
        self._at_console = begun or self._at_console
        found = None
        for begin, text in piece.parts() if piece.came else ():
            for outputs, code, line in _failed_lines(text):
                for edge in self._edges_with(outputs) if begin + line.end() < end else ():
                    command = edge.binding(b"command") + b"\n"
                    is_last = begin + line.end() + len(command) == end
                    if edge in self._at_console and text.startswith(command, line.end()) and (is_last or begun):
                        found = begin + line.start(), edge, code
        return found

    def of_inner_ninja(self, edges: dict[int, Edge]) -> dict[int, Edge]:
        """Of the edges in Ninja's log those that another Ninja ran, which this one has not shown. Where Ninja shows its
        commands, it shows each once, and on a terminal each twice that is not of the console pool: so there are some
        where fewer were shown. While a command of the console pool runs, Ninja keeps its status lines back and then
        shows the last of them alone: such a build has none that are known."""
        if any(edge.pool == b"console" for edge in (*edges.values(), *(it.edge for it in self.failed))):
            return {}
        twice = sum(edge.pool != b"console" for edge in edges.values()) if self.shown.is_smart else 0
        if len(edges) + twice <= self.shown.count - len(self.failed):
            return {}
        found = {number: edge for number, edge in edges.items() if self.shown.lacks(edge)}
        return found if len(found) < len(edges) else {}

    def _edges_with(self, outputs: bytes) -> list[Edge]:
        """The edges with a command whose outputs are this text."""
        if self._by_outputs is None:
            self._by_outputs = {}
            for edge in self.manifest.edges:
                if not edge.phony:
                    self._by_outputs.setdefault(b" ".join(edge.outputs), []).append(edge)
        found = self._by_outputs.get(outputs, [])
        # behind the outputs of the manifest stand those that a dyndep file says
        return found or [edge for edge in self.manifest.edges
                         if edge.dyndep and outputs.startswith(b" ".join(edge.outputs) + b" ")]


def texts_of(edge: Edge) -> list[bytes]:
    """What a status line can show of an edge: its description, and with -v or without one its command."""
    return [it for it in (edge.binding(b"description"), edge.binding(b"command")) if it]


def behind_status_line(piece: Piece, shown: Sequence[bytes], said: Said) -> int:
    """The place behind the status line, with one of these texts, that a piece begins with; 0 where it does not. On a
    terminal Ninja may have cut the middle out, and such a line is taken for any."""
    known: dict[int, tuple[bytes, int]] = {}
    for text in shown:
        lines = said.format_lines + text.count(b"\n") + 1
        if lines not in known:
            known[lines] = _lines_of(piece, lines)
        status, end = known[lines]
        if status.endswith(text) or said.is_smart and b"..." in status:
            return end
    return 0


def _lines_of(piece: Piece, count: int) -> tuple[bytes, int]:
    """The first lines of a piece, without the end of the last, and the place behind them."""
    at = 0
    for _ in range(count):
        at = piece.head.find(b"\n", at) + 1
        if not at:
            break
    status = bytes(piece.head[:at] if at else piece.head[:_MOST_OF_A_PIECE])
    return status.removesuffix(b"\n").removesuffix(CLEARED), at or piece.size


def _failed_lines(text: bytes | bytearray) -> Iterator[tuple[bytes, int | None, re.Match[bytes]]]:
    """The lines that say which command failed: its outputs, its exit status where that is told, and the line."""
    for line in _FAILED_LINE.finditer(text):
        found = _FAILED.fullmatch(_COLOUR.sub(b"", line[0]))
        if found:
            yield found[2], int(found[1]) if found[1] else None, line
