"""Reads Ninja's build log, one line at a time: a log has a line for each command of a whole history."""

from __future__ import annotations

import hashlib
import itertools
import os
import re
from dataclasses import dataclass
from typing import BinaryIO, Callable, Container, Iterable, Iterator

from .fields import canonical
from .hashes import murmur_hash

# The first version that has hashes. That before has the commands themselves, and Ninja up to 1.11 takes it.
_FIRST_WITH_HASHES = 5
_HEAD = re.compile(rb"# ninja log v(\d{1,9})")
_TIMES = rb"(\d{1,10})\t(\d{1,10})\t(-?\d{1,19})\t"
_LINE = re.compile(_TIMES + rb"([^\t]*)\t([0-9A-Fa-f]{1,16})")
_LINE_WITH_COMMAND = re.compile(_TIMES + rb"([^\t]*)\t(.*)", re.DOTALL)
_CHUNK = 1 << 16
_LONGEST_LINE = 1 << 18  # Ninja reads no longer one


@dataclass(frozen=True)
class LogEntry:
    """A line of the build log. Times are milliseconds since that Ninja began; the stamp is what that Ninja recorded: of
    the outputs, or from 1.12 on of the moment at which the command began."""

    start: int
    end: int
    stamp: int
    output: bytes
    hash: int


@dataclass
class BuildLog:
    """A build log as far as it can be read: `entries` in the order of its lines, the later of one output counts. They
    can be gone through again and again."""

    version: int
    entries: Iterable[LogEntry]

    def last(self, wanted: Container[bytes] | None = None) -> dict[bytes, LogEntry]:
        """The entry that counts of each output, or of each whose canonical path is wanted."""
        return {it.output: it for it in self.entries if wanted is None or canonical(it.output) in wanted}

    def is_empty(self) -> bool:
        """Whether it has no entry."""
        return next(iter(self.entries), None) is None


@dataclass(eq=False)
class LogFile:
    """The entries of a log's file, which stays open: so they can be read also when Ninja has written the log anew.

    What counts are the lines from `begin` to `end`, behind which a line may be half written; `sum` is that of their
    bytes.
    """

    file: BinaryIO
    begin: int
    entry: Callable[[bytes], LogEntry | None]
    end: int = 0
    sum: bytes = b""

    def __post_init__(self) -> None:
        self.end, self.sum = self._measured(None)

    def _measured(self, end: int | None) -> tuple[int, bytes]:
        """Where the last whole line before `end` ends, and the sum of all bytes up to there."""
        known, last, at = hashlib.blake2b(), self.begin, self.begin
        whole = known.copy()
        while chunk := os.pread(self.file.fileno(), _CHUNK if end is None else min(_CHUNK, end - at), at):
            cut = chunk.rfind(b"\n") + 1
            known.update(chunk[:cut])
            if cut:
                last, whole = at + cut, known.copy()
            known.update(chunk[cut:])
            at += len(chunk)
        return last, whole.digest()

    def __iter__(self) -> Iterator[LogEntry]:
        return self.entries_from(self.begin)

    def entries_from(self, at: int) -> Iterator[LogEntry]:
        """The entries of the lines from this place on."""
        held = b""
        while at < self.end and (chunk := os.pread(self.file.fileno(), min(_CHUNK, self.end - at), at)):
            at += len(chunk)
            *lines, held = (held + chunk).split(b"\n")
            for line in lines:
                entry = self.entry(line) if len(line) <= _LONGEST_LINE else None
                if entry:
                    yield entry
            held = held[: _LONGEST_LINE + 1]

    def continues(self, other: LogFile) -> bool:
        """Whether all lines of the other one, as they were, stand at its beginning."""
        return self.begin == other.begin and self._measured(other.end) == (other.end, other.sum)

    def __del__(self) -> None:
        self.file.close()


def open_build_log(path: bytes) -> BuildLog:
    """The log in a file; empty where there is none, or where it is of a version that no Ninja reads."""
    try:
        file = open(path, "rb")
    except OSError:
        return BuildLog(0, [])
    version, begin = _read_head(file.readline(_CHUNK))
    if version < _FIRST_WITH_HASHES - 1:
        file.close()
        return BuildLog(version, [])
    return BuildLog(version, LogFile(file, begin, _reader(version)))


def read_build_log(content: bytes) -> BuildLog:
    """A log from its bytes. A last line without its line end was being written, and is left out, as by Ninja."""
    head, *lines = content.split(b"\n")
    version, _ = _read_head(head + b"\n" if lines else head)
    if version < _FIRST_WITH_HASHES - 1:
        return BuildLog(version, [])
    return BuildLog(version, [it for it in map(_reader(version), lines[:-1]) if it])


def _read_head(line: bytes) -> tuple[int, int]:
    """The version that the first line names, 0 where it names none, and the line's length."""
    head = _HEAD.fullmatch(line[:-1]) if line.endswith(b"\n") else None
    return int(head[1]) if head else 0, len(line)


def _reader(version: int) -> Callable[[bytes], LogEntry | None]:
    return _entry if version >= _FIRST_WITH_HASHES else _entry_with_command


def _entry(text: bytes) -> LogEntry | None:
    found = _LINE.match(text)
    if not found:
        return None
    start, end, stamp, output, value = found.groups()
    return LogEntry(int(start), int(end), max(0, int(stamp)), output, int(value, 16))


def _entry_with_command(text: bytes) -> LogEntry | None:
    found = _LINE_WITH_COMMAND.fullmatch(text)
    if not found:
        return None
    start, end, stamp, output, command = found.groups()
    return LogEntry(int(start), int(end), max(0, int(stamp)), output, murmur_hash(command))


def new_entries(before: BuildLog, after: BuildLog) -> list[LogEntry]:
    """The entries that a run appended: the log's new lines, also where Ninja wrote the log anew first.

    A log written anew begins with one line for each output that it keeps; the run's own lines follow.
    """
    appended = _appended(before.entries, after.entries)
    if appended is not None:
        return list(appended)
    is_gone = isinstance(before.entries, LogFile) and not before.entries.continues(before.entries)
    kept = {} if is_gone else {hash(it.output): hash(it) for it in before.entries}
    return list(itertools.dropwhile(lambda it: kept.pop(hash(it.output), None) == hash(it), after.entries))


def _appended(before: Iterable[LogEntry], after: Iterable[LogEntry]) -> Iterator[LogEntry] | None:
    """The entries behind those of before, where all of these stand first."""
    if isinstance(before, LogFile) and isinstance(after, LogFile):
        return after.entries_from(before.end) if after.continues(before) else None
    rest = iter(after)
    return rest if all(next(rest, None) == it for it in before) else None
