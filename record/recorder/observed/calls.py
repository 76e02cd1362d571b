"""What an observer tells of a build: an event for each call and for each process that begins or ends.

An event is a pair of a process (the number of the thread, as the system gives it) and a `Call`. The first process of
which an observer tells anything is the one that became Ninja. Events stand in the order in which their calls ended, and
nothing but that order is asked for: no event has a time. A child's events may come before its parent's SPAWN.

An observer tells every call that the table below names and that came to an end, also the failed ones, and leaves out
what no line below asks for. Where two records have the same content it may give the same `Call` again: a call is never
changed, and what stands behind it works faster with calls that it has met before.

    kind         path, folder           other, other_folder  flags           result (or -errno)
    SPAWN        -                      -                    CLONE_...       the child
    EXEC         the program            -                    -               0, or the thread in whose place it goes on
    LOAD         what the system loads  -                    -               0 (an interpreter, for a program)
                 besides
    EXIT         -                      -                    -               the status; -SIGNAL where one ended it
    CHDIR        where to (fchdir:      -                    -               0
                 no path)
    UNSHARE      -                      -                    CLONE_...       0
    DUP          the old descriptor     -                    -               the descriptor made (dup, dup2, dup3,
                 (no path)                                                   fcntl F_DUPFD and F_DUPFD_CLOEXEC)
    NO_FILE      -                      -                    -               a descriptor of no file (memfd_create)
    RECEIVED     -                      -                    -               0; `text` has the descriptors that another
                                                                             process passed
    OPEN         what                   -                    O_...           the descriptor, or NOT_ASKED
    STAT         what                   -                    O_NOFOLLOW or 0 0 (stat, statx, getxattr and their kin)
    MODE         what                   -                    O_NOFOLLOW, 1   0 (access and its kin; 1: only whether it is
                                                                             there)
    READLINK     what                   -                    O_NOFOLLOW      0; -EINVAL where no link is there
    LIST         the folder's           -                    -               0 or more (getdents, getdents64)
                 descriptor (no path)
    LINK         the old name           the new name         O_NOFOLLOW or 0 0
    SYMLINK      -                      the link's own name  -               0; `text` is the link's text
    RENAME       the old name           the new name         -               0
    EXCHANGE     one                    the other            -               0 (renameat2 with RENAME_EXCHANGE)
    UNLINK       what                   -                    -               0
    RMDIR        what                   -                    -               0
    MKDIR        what                   -                    -               0
    MKNOD        what                   -                    -               0
    BIND         the socket's file,     -                    -               0; `text` is the address
                 where it has one
    MOVED        what stands below a    -                    -               - (a RENAME of that folder follows)
                 folder's new name
    TRUNCATE     what                   -                    -               0
    META         what                   -                    O_NOFOLLOW or 0 0 (chmod, utimensat, setxattr and their kin)
    SOCKET       -                      -                    -               0 or -EINPROGRESS (connect, or what is sent
                                                                             to an address: `text`)
    IPC          -                      -                    -               0 or more; `text` is the key or the name
    LOCK         the file               -                    -               0 (flock, and fcntl's locks)
    SIGNAL       -                      -                    -               0; `text` is the process it was sent to
    ATTRIBUTES   the file               -                    -               0 (ioctl)
    NOTIFIED     -                      -                    -               0 (seccomp with a listener)
    URING        -                      -                    -               a descriptor (io_uring_setup)
    NAMESPACE    chroot: the new root   -                    -               0 (chroot, mount, pivot_root, setns)
    UNRESOLVED   -                      -                    -               - (a call whose paths cannot be told:
                                                                             open_by_handle_at, 32-bit calls)
    DEEP         -                      -                    -               - (a path of more than 4,096 bytes)
    UNKNOWN      the file, if there is  -                    -               - (a call that is in no list)
                 one
    TRACE        -                      -                    -               0 or -errno (ptrace with PTRACE_ATTACH,
                                                                             PTRACE_SEIZE or PTRACE_TRACEME)
    LOOKED       -                      -                    -               - (no call: a look of the observer's at the
                                                                             beginning or the end of a command)
"""

from collections.abc import Iterator
from dataclasses import dataclass
from enum import IntEnum, auto
from io import BufferedReader
from typing import Protocol

from .ways import Way

CURRENT = -100
"""The folder of a relative path: that of the process (AT_FDCWD)."""

NOT_ASKED = 1 << 30
"""The result of an OPEN that went well, where the observer names folders itself and looks at no descriptor."""

CLONE_FS, CLONE_FILES, CLONE_THREAD = 0x200, 0x400, 0x10000
CLONE_NAMESPACES = 0x00020000 | 0x10000000
"""The flags of clone and unshare that matter: CLONE_NEWNS and CLONE_NEWUSER are the last two."""


class Kind(IntEnum):
    """What a call does, whatever its name is in the system."""

    SPAWN = auto()
    EXEC = auto()
    LOAD = auto()
    EXIT = auto()
    CHDIR = auto()
    UNSHARE = auto()
    DUP = auto()
    NO_FILE = auto()
    OPEN = auto()
    STAT = auto()
    MODE = auto()
    READLINK = auto()
    LIST = auto()
    LINK = auto()
    SYMLINK = auto()
    RENAME = auto()
    EXCHANGE = auto()
    UNLINK = auto()
    RMDIR = auto()
    MKDIR = auto()
    MKNOD = auto()
    BIND = auto()
    TRUNCATE = auto()
    META = auto()
    SOCKET = auto()
    IPC = auto()
    LOCK = auto()
    SIGNAL = auto()
    ATTRIBUTES = auto()
    NOTIFIED = auto()
    URING = auto()
    NAMESPACE = auto()
    UNRESOLVED = auto()
    DEEP = auto()
    UNKNOWN = auto()
    TRACE = auto()
    LOOKED = auto()
    MOVED = auto()
    RECEIVED = auto()


@dataclass(eq=False, slots=True)
class Call:
    """A call that came to its end. Two calls are the same only where they are one object.

    `path` stands as the process gave it: absolute, or relative to `folder`. `folder` is CURRENT or a descriptor of the
    process. A call on a descriptor alone (fchdir, AT_EMPTY_PATH, dup) has an empty path. Where the observer took the
    path name by name itself, `way` and `other_way` have how, and `path` and `other` the entries. `flags` are the
    numbers of this machine, as in `os`. `result` is what the call gave; -errno where it failed. `name` is that of the
    system's call.

    `command` is given for EXEC alone: TEXT, where the words are `/bin/sh`, `-c` and TEXT and no others, as Ninja
    starts a command. `text` of an EXEC has the program's words, with a NUL behind each, where another thing is done
    by them. No field is changed but `memo`, where what stands behind the observers keeps the entry that is asked for
    in vain; observers leave it alone.
    """

    kind: Kind
    path: bytes = b""
    folder: int | bytes = CURRENT
    other: bytes = b""
    other_folder: int | bytes = CURRENT
    flags: int = 0
    result: int = 0
    command: bytes | None = None
    memo: int | None = None
    way: Way | None = None
    other_way: Way | None = None
    text: bytes = b""
    name: bytes = b""


Event = tuple[int, Call]


class Observer(Protocol):
    """A program that runs Ninja and tells what its processes do."""

    name: bytes
    """What stands behind `by` in the file."""

    release: bytes
    """The release of the kernel from which its lists of calls were taken."""

    machine: bytes
    """The kind of the machine, as the file has it."""

    is_late: bool
    """Whether paths are taken name by name when the log is read, and not when the call is made."""

    def refusal(self) -> str | None:
        """Why it cannot observe here, as the rest of a sentence behind "cannot observe: "; None where it can.

        It is asked before Ninja starts. It tries ptrace on a process of its own, and takes less than a second.
        """

    def words(self, log: bytes, ninja: list[bytes]) -> list[bytes]:
        """The words that run Ninja observed, writing to `log`, the path of a pipe that is open for reading already.

        The process that is started by them becomes Ninja: its number is Ninja's, signals sent to it come to Ninja, and
        its status is Ninja's. The observer opens the log itself and keeps it from Ninja. It ends where the last process
        that it observes has ended, be that after Ninja.
        """

    def events(self, log: BufferedReader) -> Iterator[Event]:
        """The events of a log, as they come. What cannot be read is left out and counted in `unread`."""

    unread: int
