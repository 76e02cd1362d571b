"""Reads what `strace -f` writes, line by line as it comes, and gives the calls of it.

Only lines as strace 5.3 and later write them are read. Everything is bytes: paths need not be UTF-8, and strace's
escapes are taken back exactly. A line that is not understood is told as an UNKNOWN call of its process.
"""

from __future__ import annotations

import errno
import os
import re
import signal
from collections.abc import Callable, Iterator
from dataclasses import replace
from io import BufferedReader
from typing import Any

from .calls import CURRENT, Call, Event, Kind

_MOST_KNOWN = 1 << 16
_LONGEST_KNOWN = 1024

# A line's process and the rest of it. Questions about a descriptor are half of all lines, and are passed over here.
# The C library's realpath asks for each name of a path in turn, with room for 1,023 bytes: that is passed over too.
_OF_DESCRIPTOR = (rb'newfstatat\(\d+, "", |<\.\.\. newfstatat resumed>.*, AT_EMPTY_PATH\)'
                  rb"|readlink\(.*, 1023\) += |<\.\.\. readlink resumed>.*, 1023\) += ")
_LINES = re.compile(rb"(?:\d+ +(?:" + _OF_DESCRIPTOR + rb").*\n)*(\d+) +(.*\n)")
_PART = 1 << 18

_PATH = rb'"((?:[^"\\]|\\.)*)"'
_FOLDER = rb"(AT_FDCWD|-?\d+)"
_CALL = re.compile(rb"(\w+)\((.*)\)\s+= (-?\d+|0x[0-9a-f]+)(?: (E[A-Z0-9]+) \(.*\)| \(.*\))?\n", re.S)
_UNENDED = re.compile(rb".*\)\s+= \?.*\n", re.S)
_EXIT = re.compile(rb"\+\+\+ (?:exited with (\d+)|killed by (\w+)(?: \([^)]*\))?) \+\+\+\n")
_SUPERSEDED = re.compile(rb"\+\+\+ superseded by execve in pid (\d+) \+\+\+\n")
_RESUMED = b" resumed>"
_UNFINISHED = b" <unfinished ...>\n"
_OF_DESCRIPTOR_END = b"AT_EMPTY_PATH) = 0\n"
_LESS, _GREATER, _PLUS, _MINUS, _BRACE, _QUOTE, _BACKSLASH = b'<>+-{"\\'

_AT = re.compile(_PATH)
_AT_FOLDER = re.compile(_FOLDER + rb", " + _PATH)
_TWO = re.compile(_PATH + rb", " + _PATH)
_TWO_FOLDERS = re.compile(rb", ".join([_FOLDER, _PATH, _FOLDER, _PATH]))
_LINK_FOLDER = re.compile(rb", ".join([_PATH, _FOLDER, _PATH]))
_DESCRIPTOR = re.compile(rb"(\d+)")
_DESCRIPTOR_ALONE = re.compile(rb"(\d+), NULL")
_PASSED = re.compile(rb"cmsg_type=SCM_RIGHTS, cmsg_data=\[([\d, ]+)\]")
_OPEN_FLAG = re.compile(rb"\bO_[A-Z]+")
_CLONE_FLAG = re.compile(rb"\bCLONE_[A-Z]+")
_WORDS = re.compile(rb"\[(.*)\], 0x")
_LOCAL = re.compile(rb"sa_family=AF_UNIX, sun_path=(@?)" + _PATH)
_INTERNET = re.compile(rb'sin_port=htons\((\d+)\), sin_addr=inet_addr\("([\d.]+)"\)')
_INTERNET_6 = re.compile(rb'sin6_port=htons\((\d+)\).*inet_pton\(AF_INET6, "([^"]+)"')
_SHELL = re.compile(rb'"/bin/sh", \["/bin/sh", "-c", ' + _PATH + rb"\]")
_ESCAPE = re.compile(rb"\\([0-7]{1,3}|.)", re.S)
_SIMPLE = {b"n": b"\n", b"t": b"\t", b"r": b"\r", b"v": b"\v", b"f": b"\f"}

_CLONE_FLAGS = {b"CLONE_FS": 0x200, b"CLONE_FILES": 0x400, b"CLONE_THREAD": 0x10000, b"CLONE_NEWNS": 0x20000,
                b"CLONE_NEWUSER": 0x10000000, b"CLONE_NEWPID": 0x20000000}
_OPEN_FLAGS = {it.encode(): getattr(os, it) for it in dir(os) if it.startswith("O_")}
_OPEN_FLAGS[b"O_NOFOLLOW"] = os.O_NOFOLLOW


def plain(text: bytes) -> bytes:
    """The bytes that strace wrote as a text with escapes."""
    return _ESCAPE.sub(_unescaped, text) if b"\\" in text else text


def _unescaped(match: re.Match[bytes]) -> bytes:
    it = match[1]
    return bytes([int(it, 8) & 255]) if it[0] in b"01234567" else _SIMPLE.get(it, it)


def _folder(text: bytes) -> int:
    return CURRENT if text == b"AT_FDCWD" else int(text)


def _flags(pattern: re.Pattern[bytes], numbers: dict[bytes, int], text: bytes) -> int:
    found = 0
    for it in pattern.findall(text):
        found |= numbers.get(it, 0)
    return found


def _no_follow(text: bytes) -> int:
    return os.O_NOFOLLOW if b"AT_SYMLINK_NOFOLLOW" in text else 0


class StraceText:
    """The calls of one log. `unread` counts the lines that were not understood.

    What a text tells is kept by the text, since a build asks the same again and again: a call, or None.
    """

    def __init__(self) -> None:
        self.unread = 0
        self._known: dict[bytes, Call | None] = {}
        self._begun: dict[bytes, bytes] = {}
        self._threads: dict[bytes, int] = {}

    def events(self, log: BufferedReader) -> Iterator[Event]:
        """The calls, each with its process, in the order in which they ended."""
        known: Callable[[bytes, Any], Any] = self._known.get
        unknown, begun, rest = object(), self._begun, b""
        while data := log.read1(_PART):
            data = rest + data
            end = data.rfind(b"\n") + 1
            rest = data[end:]
            for number, text in _LINES.findall(data, 0, end):
                if text[-2] == _GREATER and text.endswith(_UNFINISHED):
                    begun[number] = text[: -len(_UNFINISHED)]
                    continue
                if text[0] == _LESS:
                    text = begun.pop(number, b"") + text[text.find(_RESUMED) + len(_RESUMED) :]
                call = known(text, unknown)
                if call is unknown:
                    call = self._look(number, text)
                if call is not None:
                    yield int(number), call

    def _look(self, number: bytes, text: bytes) -> Call | None:
        """The call of a line that was not met before; None where the line tells none."""
        if text.startswith(b"newfstatat("):
            return self._stat(text)
        first = text[0]
        if first == _PLUS:
            return self._end(number, text)
        if first == _MINUS or first == _BRACE and text.endswith(_OF_DESCRIPTOR_END):
            return None
        call = self._keep(text, text)
        if number in self._threads and call is not None and call.kind is Kind.EXEC:
            return replace(call, result=self._threads.pop(number))
        return call

    def _stat(self, text: bytes) -> Call | None:
        """The most frequent call: what it shows of the file's status is cut out, since it differs from time to time."""
        at = text.find(b'", ')
        last = text[at - 1]
        if last == _QUOTE:
            return None  # of a descriptor, not of a path
        end = text.rfind(b") = ")
        if at < 0 or end < 0 or last == _BACKSLASH:
            return self._keep(text, text)
        key = text[: at + 1] + text[text.rfind(b", ", 0, end) :]
        call = self._known[key] if key in self._known else self._keep(key, text)
        if b", {" in text:
            self._known[text] = call
        return call

    def _keep(self, key: bytes, text: bytes) -> Call | None:
        call = self._call(text)
        if len(key) < _LONGEST_KNOWN and (call is None or call.kind is not Kind.UNRESOLVED):
            if len(self._known) >= _MOST_KNOWN:
                self._known.clear()
            self._known[key] = call
        return call

    def _end(self, number: bytes, text: bytes) -> Call | None:
        """The end of a process. A thread that puts a program in the place of its process takes the process's number."""
        superseded = _SUPERSEDED.fullmatch(text)
        if superseded:
            self._begun[number] = self._begun.pop(superseded[1], b"")
            self._threads[number] = int(superseded[1])
            return None
        ended = _EXIT.fullmatch(text)
        self._begun.pop(number, None)
        if not ended:
            return self._not_understood(text)
        return Call(Kind.EXIT, result=int(ended[1]) if ended[1] else -_signal(ended[2]))

    def _not_understood(self, text: bytes) -> Call | None:
        if not text.endswith(b"\n"):
            return None  # the log ends here
        self.unread += 1
        return Call(Kind.UNRESOLVED)

    def _call(self, text: bytes) -> Call | None:
        found = _CALL.fullmatch(text)
        if not found:
            return None if _UNENDED.fullmatch(text) else self._not_understood(text)
        reads = _READERS.get(found[1])
        if reads is None:
            return None
        error = getattr(errno, found[4].decode(), errno.EINVAL) if found[4] else 0
        return reads(found[1], found[2], -error if error else int(found[3], 0))


def _signal(name: bytes) -> int:
    try:
        return signal.Signals[name.decode()].value
    except KeyError:
        return 1


# What a line of each call says. Where the path is no text (NULL, or an address that nobody may read) it says nothing.


def _read_open(name: bytes, text: bytes, result: int) -> Call | None:
    is_at = name.startswith(b"openat")
    found = (_AT_FOLDER if is_at else _AT).match(text)
    if not found:
        return None
    path, folder = plain(found[found.lastindex or 1]), _folder(found[1]) if is_at else CURRENT
    if b"RESOLVE_IN_ROOT" in text:
        path = path.lstrip(b"/") or b"."
    creates = os.O_WRONLY | os.O_CREAT | os.O_TRUNC
    flags = creates if name == b"creat" else _flags(_OPEN_FLAG, _OPEN_FLAGS, text[found.end() :])
    return Call(Kind.OPEN, path, folder, flags=flags, result=result, name=name)


_OF_THE_NAME = (Kind.UNLINK, Kind.RMDIR, Kind.MKDIR, Kind.MKNOD)


def _reader_of_one(kind: Kind, is_at: bool) -> Callable[[bytes, bytes, int], Call | None]:
    """Reads a call on one path."""

    def reads(name: bytes, text: bytes, result: int) -> Call | None:
        found = (_AT_FOLDER if is_at else _AT).match(text)
        if not found:
            alone = _DESCRIPTOR_ALONE.match(text) if kind is Kind.META else None
            return Call(kind, folder=int(alone[1]), result=result, name=name) if alone else None
        path, rest = plain(found[found.lastindex or 1]), text[found.end() :]
        if not path and kind is not Kind.EXEC:
            return None
        flags = os.O_NOFOLLOW if name.startswith(b"l") or kind in _OF_THE_NAME else _no_follow(rest)
        its = Kind.RMDIR if kind is Kind.UNLINK and b"AT_REMOVEDIR" in rest else kind
        return Call(its, path, _folder(found[1]) if is_at else CURRENT, flags=flags, result=min(result, 0), name=name)

    return reads


def _words(text: bytes) -> bytes:
    """The words of a program, with a NUL behind each."""
    return b"".join(plain(it) + b"\0" for it in re.findall(_PATH, text))


def _read_exec(name: bytes, text: bytes, result: int) -> Call | None:
    call = _reader_of_one(Kind.EXEC, name == b"execveat")(name, text, result)
    shell = _SHELL.match(text) if name == b"execve" else None
    if call is None or shell is None:
        words = _WORDS.search(text) if call is not None and call.path.endswith((b"/mkdir", b"/cmake")) else None
        return call if call is None or words is None else replace(call, text=_words(words[1]))
    return Call(Kind.EXEC, call.path, result=result, command=plain(shell[1]), name=name)


def _reader_of_two(kind: Kind, is_at: bool) -> Callable[[bytes, bytes, int], Call | None]:
    """Reads a call on two paths."""

    def reads(name: bytes, text: bytes, result: int) -> Call | None:
        its = Kind.EXCHANGE if b"RENAME_EXCHANGE" in text else kind
        if is_at:
            found = _TWO_FOLDERS.match(text)
            if not found:
                return None
            flags = 0 if b"AT_SYMLINK_FOLLOW" in text else os.O_NOFOLLOW
            return Call(its, plain(found[2]), _folder(found[1]), plain(found[4]), _folder(found[3]), flags, result, name=name)
        found = _TWO.match(text)
        if not found:
            return None
        return Call(its, plain(found[1]), CURRENT, plain(found[2]), CURRENT, os.O_NOFOLLOW, result, name=name)

    return reads


def _read_symlink(name: bytes, text: bytes, result: int) -> Call | None:
    if name == b"symlinkat":
        found = _LINK_FOLDER.match(text)
        if not found:
            return None
        return Call(Kind.SYMLINK, other=plain(found[3]), other_folder=_folder(found[2]), result=result,
                    text=plain(found[1]), name=name)
    found = _TWO.match(text)
    return None if not found else Call(Kind.SYMLINK, other=plain(found[2]), result=result, text=plain(found[1]), name=name)


def _read_mode(name: bytes, text: bytes, result: int) -> Call | None:
    call = _reader_of_one(Kind.MODE, name.startswith(b"faccessat"))(name, text, result)
    return call if call is None or b", F_OK" not in text else replace(call, flags=call.flags | 1)


def _read_readlink(name: bytes, text: bytes, result: int) -> Call | None:
    if text.endswith(b", 1023"):
        return None
    call = _reader_of_one(Kind.READLINK, name == b"readlinkat")(name, text, result)
    return call if call is None else replace(call, flags=os.O_NOFOLLOW)


def _reader_of_descriptor(kind: Kind) -> Callable[[bytes, bytes, int], Call | None]:
    def reads(name: bytes, text: bytes, result: int) -> Call | None:
        found = _DESCRIPTOR.match(text)
        return Call(kind, folder=int(found[1]), result=result, name=name) if found else None

    return reads


def _read_clone(_: bytes, text: bytes, result: int) -> Call | None:
    if b"CLONE_UNTRACED" in text:  # a leak sanitizer's: it is not seen, and its own tracing fails
        return Call(Kind.TRACE, result=-errno.EPERM)
    return Call(Kind.SPAWN, flags=_flags(_CLONE_FLAG, _CLONE_FLAGS, text), result=result)


def _read_unshare(_: bytes, text: bytes, result: int) -> Call | None:
    return Call(Kind.UNSHARE, flags=_flags(_CLONE_FLAG, _CLONE_FLAGS, text), result=result)


def _address(text: bytes) -> bytes:
    """The address in the arguments of a call; empty where no other process has it."""
    found = _LOCAL.search(text)
    if found:
        path = plain(found[2])
        return b"" if b"/nscd/" in path else b"@" + path if found[1] else path
    found = _INTERNET.search(text)
    if found:
        return found[2] + b":" + found[1]
    found = _INTERNET_6.search(text)
    if found:
        return b"[" + found[2] + b"]:" + found[1]
    return b"netlink" if b"AF_NETLINK" in text else b""


def _read_address(name: bytes, text: bytes, result: int) -> Call | None:
    address = _address(text)
    if not address:
        return None
    is_file = b"AF_UNIX" in text and not address.startswith(b"@")
    kind = Kind.BIND if name == b"bind" else Kind.SOCKET
    return Call(kind, address if is_file else b"", result=min(result, 0), text=address, name=name)


def _read_passed(name: bytes, text: bytes, result: int) -> Call | None:
    found = b" ".join(_PASSED.findall(text)).replace(b",", b" ")
    return Call(Kind.RECEIVED, text=found, name=name) if found and result >= 0 else None


def _read_ipc(name: bytes, text: bytes, result: int) -> Call | None:
    path = _AT.match(text)
    return Call(Kind.IPC, result=min(result, 0), text=plain(path[1]) if path else text.split(b",")[0], name=name)


def _read_kill(name: bytes, text: bytes, result: int) -> Call | None:
    number = text.split(b",")[0]
    return None if number == b"0" else Call(Kind.SIGNAL, result=result, text=number, name=name)


def _read_fcntl(name: bytes, text: bytes, result: int) -> Call | None:
    if b"F_DUPFD" in text:
        return _reader_of_descriptor(Kind.DUP)(name, text, result)
    is_lock = b"F_SETLK" in text or b"F_GETLK" in text or b"F_OFD_" in text or b"F_SETLEASE" in text
    return _reader_of_descriptor(Kind.LOCK)(name, text, result) if is_lock else None


def _read_ioctl(name: bytes, text: bytes, result: int) -> Call | None:
    if not re.search(rb"FS_IOC_(?:GET|SET|FSGET|FSSET)|FS_IOC_\w*VERSION", text):
        return None
    return _reader_of_descriptor(Kind.ATTRIBUTES)(name, text, result)


def _read_seccomp(name: bytes, text: bytes, result: int) -> Call | None:
    return Call(Kind.NOTIFIED, result=result, name=name) if b"NEW_LISTENER" in text else None


def _read_ptrace(_: bytes, text: bytes, result: int) -> Call | None:
    begins = text.startswith((b"PTRACE_TRACEME", b"PTRACE_ATTACH", b"PTRACE_SEIZE"))
    return Call(Kind.TRACE, result=min(result, 0)) if begins else None


def _reader_of_flag(kind: Kind) -> Callable[[bytes, bytes, int], Call | None]:
    return lambda name, text, result: Call(kind, result=result, name=name)


def _readers() -> dict[bytes, Callable[[bytes, bytes, int], Call | None]]:
    one, two = _reader_of_one, _reader_of_two
    groups = (
        ("open openat openat2 creat", _read_open),
        ("stat lstat getxattr lgetxattr listxattr llistxattr", one(Kind.STAT, False)),
        ("newfstatat statx", one(Kind.STAT, True)),
        ("access faccessat faccessat2", _read_mode),
        ("readlink readlinkat", _read_readlink),
        ("execve execveat", _read_exec),
        ("clone clone3 fork vfork", _read_clone),
        ("unshare", _read_unshare),
        ("chdir", one(Kind.CHDIR, False)),
        ("fchdir", _reader_of_descriptor(Kind.CHDIR)),
        ("dup dup2 dup3", _reader_of_descriptor(Kind.DUP)),
        ("fcntl", _read_fcntl),
        ("flock", _reader_of_descriptor(Kind.LOCK)),
        ("ioctl", _read_ioctl),
        ("memfd_create", _reader_of_flag(Kind.NO_FILE)),
        ("getdents getdents64", _reader_of_descriptor(Kind.LIST)),
        ("rename", two(Kind.RENAME, False)),
        ("renameat renameat2", two(Kind.RENAME, True)),
        ("link", two(Kind.LINK, False)),
        ("linkat", two(Kind.LINK, True)),
        ("symlink symlinkat", _read_symlink),
        ("unlink", one(Kind.UNLINK, False)),
        ("unlinkat", one(Kind.UNLINK, True)),
        ("rmdir", one(Kind.RMDIR, False)),
        ("mkdir", one(Kind.MKDIR, False)),
        ("mkdirat", one(Kind.MKDIR, True)),
        ("mknod", one(Kind.MKNOD, False)),
        ("mknodat", one(Kind.MKNOD, True)),
        ("truncate", one(Kind.TRUNCATE, False)),
        ("chmod chown lchown utime utimes setxattr lsetxattr removexattr lremovexattr", one(Kind.META, False)),
        ("fchmodat fchmodat2 fchownat utimensat futimesat", one(Kind.META, True)),
        ("fchmod fchown fsetxattr fremovexattr", _reader_of_descriptor(Kind.META)),
        ("connect bind sendto sendmsg sendmmsg", _read_address),
        ("recvmsg", _read_passed),
        ("msgget msgctl msgsnd msgrcv semget semctl semop semtimedop shmget shmctl shmat mq_open mq_unlink", _read_ipc),
        ("kill", _read_kill),
        ("seccomp", _read_seccomp),
        ("statfs inotify_add_watch fanotify_init fanotify_mark name_to_handle_at process_vm_readv process_vm_writev "
         "pidfd_send_signal pidfd_getfd perf_event_open bpf keyctl add_key request_key acct quotactl",
         _reader_of_flag(Kind.UNKNOWN)),
        ("io_uring_setup", _reader_of_flag(Kind.URING)),
        ("mount move_mount pivot_root setns", _reader_of_flag(Kind.NAMESPACE)),
        ("chroot", one(Kind.NAMESPACE, False)),
        ("open_by_handle_at", _reader_of_flag(Kind.UNRESOLVED)),
        ("ptrace", _read_ptrace),
    )
    return {name.encode(): reads for names, reads in groups for name in names.split()}


_READERS = _readers()
CALLS = sorted(it.decode() for it in _READERS)
"""The names of the calls that are asked for."""
