"""Reads what rebug's own observer writes (record/observer): a line, then blocks of binary records.

    rebug-observer 2 MILLISECONDS RELEASE MACHINE      when it began, since 1970; the kernel's release of its lists

A block is five lengths in bytes, and then so many bytes of texts, ways, calls, commands and events. All numbers are of
32 bits, in the order of this machine's bytes.

    text       length, bytes           the texts have the numbers 1, 2, ... in the order in which they come; 0 is empty
    way        length, numbers         what stands at the last name, its entry, what stands at the end, the entry there,
                                       the folder where it begins, the file (hard links), the process in /proc, three
                                       counts, and as many pairs: links on the way, links from the last name to the end,
                                       entries asked for on the way
    call       kind, result, flags, way, other way, text, name of the system's call
    command    length, bytes           numbered from 1 in each block
    event      process, call, value, milliseconds since the beginning

Ways and calls have numbers too, from 1. A value that is not 0 is the number of a command, for a program that is run, and
the result of all others.
"""

from collections.abc import Iterator
from struct import Struct, error
from typing import BinaryIO

from .calls import Call, Event, Kind
from .ways import Standing, Way

KINDS = (Kind.SPAWN, Kind.EXEC, Kind.EXIT, Kind.UNSHARE, Kind.OPEN, Kind.STAT, Kind.LIST, Kind.LINK, Kind.SYMLINK,
         Kind.RENAME, Kind.EXCHANGE, Kind.UNLINK, Kind.RMDIR, Kind.MKDIR, Kind.MKNOD, Kind.TRUNCATE, Kind.META,
         Kind.SOCKET, Kind.URING, Kind.NAMESPACE, Kind.UNRESOLVED, Kind.TRACE, Kind.CHDIR, Kind.READLINK, Kind.LOAD,
         Kind.MODE, Kind.BIND, Kind.IPC, Kind.LOCK, Kind.SIGNAL, Kind.ATTRIBUTES, Kind.NOTIFIED, Kind.UNKNOWN, Kind.DEEP,
         Kind.LOOKED, Kind.MOVED)
"""The kinds of calls, as the observer numbers them (`enum kind`)."""

FIRST_LINE = b"rebug-observer 2 "

_LENGTH, _SIZES, _CALL, _EVENT, _WAY = Struct("=I"), Struct("=5I"), Struct("=IiI4I"), Struct("=iIiI"), Struct("=10I")
_BROKEN = 0x100
_STANDINGS = tuple(Standing)


class Records:
    """The events of a log. `is_whole`: it ended behind a whole block. `release` and `machine` are known with the first
    event."""

    def __init__(self, log: BinaryIO):
        self.log, self.is_whole, self.began = log, True, 0
        self.release, self.machine = b"", b""
        self.texts: list[bytes] = [b""]
        self.ways: list[Way | None] = [None]
        self.calls: list[Call | None] = [None]

    def events(self) -> Iterator[Event]:
        """The events as they come, to the end of the log or to what cannot be read."""
        line = self.log.readline(128)
        if not line:
            return
        try:
            if not line.startswith(FIRST_LINE):
                raise ValueError("the log's first line is another")
            began, self.release, self.machine = line[len(FIRST_LINE):].split()
            self.began = int(began)
            while sizes := self.log.read(_SIZES.size):
                parts = [self.read(size) for size in _SIZES.unpack(sizes)]
                self.texts += _texts(parts[0])
                self.ways += [self.way(it) for it in _texts(parts[1])]
                self.calls += [self.call(*it) for it in _CALL.iter_unpack(parts[2])]
                yield from self.block(_texts(parts[3]), parts[4])
        except (ValueError, IndexError, error):
            self.is_whole = False

    def read(self, size: int) -> bytes:
        """So many bytes of the log."""
        found = self.log.read(size)
        if len(found) != size:
            raise ValueError("the log ends within a block")
        return found

    def way(self, data: bytes) -> Way:
        """A way by its numbers."""
        texts = self.texts
        standing, entry, end_standing, end, base, inode, process, links, ends, asked = _WAY.unpack_from(data)
        if len(data) != _WAY.size + 8 * (links + ends + asked):
            raise ValueError("a way has another number of pairs")
        way = Way(texts[entry], _STANDINGS[standing & 0xff], texts[end] if end else None, _STANDINGS[end_standing],
                  texts[base], texts[inode], process, bool(standing & _BROKEN))
        if links or ends or asked:
            rest = memoryview(data)[_WAY.size:].cast("I")
            pairs = [(texts[rest[it]], rest[it + 1]) for it in range(0, len(rest), 2)]
            told = [(name, texts[text]) for name, text in pairs[: links + ends]]
            way.links, way.ends = tuple(told[:links]), tuple(told[links:])
            way.asked = tuple((name, _STANDINGS[state]) for name, state in pairs[links + ends :])
        return way

    def call(self, kind: int, result: int, flags: int, way: int, other_way: int, text: int, name: int) -> Call:
        """A call by its numbers."""
        first, second = self.ways[way], self.ways[other_way]
        path = _shown(first) if first else self.texts[text] if KINDS[kind] is Kind.EXEC else b""
        return Call(KINDS[kind], path, other=second.entry if second else b"", flags=flags,
                    result=result, way=first, other_way=second, text=self.texts[text], name=self.texts[name])

    def block(self, commands: list[bytes], events: bytes) -> Iterator[Event]:
        """The events of a block."""
        calls = self.calls
        for process, number, value, _ in _EVENT.iter_unpack(events):
            call = calls[number]
            if call is None:
                raise ValueError("an event of no call")
            if value and call.kind is Kind.EXEC:
                call = Call(call.kind, call.path, result=call.result, command=commands[value - 1], way=call.way,
                            text=call.text, name=call.name)
            elif value:
                call = Call(call.kind, flags=call.flags, result=value)
            yield process, call


def _shown(way: Way) -> bytes:
    """The entry that a call means: what a process's own entry in /proc leads to, else that of the last name."""
    return way.end if way.end is not None and way.standing is Standing.OF_KERNEL else way.entry


def _texts(part: bytes) -> list[bytes]:
    """The texts of a part, each behind its length."""
    found, at = [], 0
    while at < len(part):
        begin = at + 4
        at = begin + _LENGTH.unpack_from(part, at)[0]
        if at > len(part):
            raise ValueError("a text goes beyond its part")
        found.append(part[begin:at])
    return found
