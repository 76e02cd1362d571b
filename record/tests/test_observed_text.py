"""What lines of strace say: each line as strace 6.1 wrote it, and the calls that are read."""

import errno
import io
import os
import unittest

from recorder.observed.calls import CURRENT, Call, Kind
from recorder.observed.strace_text import StraceText

FIELDS = ("kind", "path", "folder", "other", "other_folder", "flags", "result", "command",
          "text")


def read(text):
    reader = StraceText()
    found = [(number, {it: getattr(call, it) for it in FIELDS})
             for number, call in reader.events(io.BufferedReader(io.BytesIO(text)))]
    return found, reader.unread


def told(kind, path=b"", folder=CURRENT, other=b"", other_folder=CURRENT, flags=0, result=0, command=None,
         text=b""):
    return dict(zip(FIELDS, (kind, path, folder, other, other_folder, flags, result, command, text)))


LINES = (
    (b'openat(AT_FDCWD, "a b", O_RDONLY|O_CLOEXEC) = 3', told(Kind.OPEN, b"a b", flags=os.O_CLOEXEC, result=3)),
    (b'openat(7, "x", O_WRONLY|O_CREAT|O_TRUNC, 0666) = -1 ENOENT (No such file or directory)',
     told(Kind.OPEN, b"x", 7, flags=os.O_WRONLY | os.O_CREAT | os.O_TRUNC, result=-errno.ENOENT)),
    (b'open("caf\\303\\251 \\377\\"\\\\\\n", O_RDONLY) = 4', told(Kind.OPEN, b'caf\xc3\xa9 \xff"\\\n', result=4)),
    (b'openat2(5, "/in", {flags=O_RDONLY|O_DIRECTORY, resolve=RESOLVE_IN_ROOT}, 24) = 6',
     told(Kind.OPEN, b"in", 5, flags=os.O_DIRECTORY, result=6)),
    (b'creat("c", 0644) = 3', told(Kind.OPEN, b"c", flags=os.O_WRONLY | os.O_CREAT | os.O_TRUNC, result=3)),
    (b'newfstatat(AT_FDCWD, "s", {st_mode=S_IFREG|0644, st_size=5, ...}, 0) = 0', told(Kind.STAT, b"s")),
    (b'newfstatat(AT_FDCWD, "a\\", 0", 0x7ffc, AT_SYMLINK_NOFOLLOW) = -1 ENOENT (No such file or directory)',
     told(Kind.STAT, b'a", 0', flags=os.O_NOFOLLOW, result=-errno.ENOENT)),
    (b'lstat("l", {st_mode=S_IFLNK|0777, st_size=1, ...}) = 0', told(Kind.STAT, b"l", flags=os.O_NOFOLLOW)),
    (b'access("a", R_OK) = -1 ENOENT (No such file or directory)', told(Kind.MODE, b"a", result=-errno.ENOENT)),
    (b'faccessat2(3, "a", F_OK, AT_EACCESS) = 0', told(Kind.MODE, b"a", 3, flags=1)),
    (b'readlink("l", "to", 64) = 2', told(Kind.READLINK, b"l", flags=os.O_NOFOLLOW)),
    (b'execve("/bin/mkdir", ["mkdir", "-p", "a b"], 0x7ffe /* 3 vars */) = 0',
     told(Kind.EXEC, b"/bin/mkdir", text=b"mkdir\0-p\0a b\0")),
    (b"flock(3, LOCK_EX) = 0", told(Kind.LOCK, folder=3)),
    (b"fcntl(3, F_SETLK, {l_type=F_WRLCK}) = 0", told(Kind.LOCK, folder=3)),
    (b"msgget(0x5515, 0666) = 4", told(Kind.IPC, text=b"0x5515")),
    (b'bind(3, {sa_family=AF_UNIX, sun_path=@"x"}, 4) = 0', told(Kind.BIND, text=b"@x")),
    (b'bind(3, {sa_family=AF_UNIX, sun_path="s"}, 4) = 0', told(Kind.BIND, b"s", text=b"s")),
    (b'connect(3, {sa_family=AF_INET, sin_port=htons(53), sin_addr=inet_addr("10.0.0.1")}, 16) = 0',
     told(Kind.SOCKET, text=b"10.0.0.1:53")),
    (b'sendto(3, "x", 1, 0, {sa_family=AF_INET6, sin6_port=htons(9), sin6_flowinfo=htonl(0), '
     b'inet_pton(AF_INET6, "::1", &sin6_addr), sin6_scope_id=0}, 28) = 1', told(Kind.SOCKET, text=b"[::1]:9")),
    (b"kill(77, SIGTERM) = 0", told(Kind.SIGNAL, text=b"77")),
    (b"ioctl(3, FS_IOC_GETFLAGS, [0]) = 0", told(Kind.ATTRIBUTES, folder=3)),
    (b"fchmod(3, 0755) = 0", told(Kind.META, folder=3)),
    (b'setxattr("f", "user.k", "1", 1, 0) = 0', told(Kind.META, b"f")),
    (b'execve("/bin/sh", ["/bin/sh", "-c", "cat \\"a\\" > b"], 0x7ffe /* 3 vars */) = 0',
     told(Kind.EXEC, b"/bin/sh", command=b'cat "a" > b')),
    (b'execve("/bin/sh", ["/bin/sh", "-e", "s"], 0x7ffe /* 3 vars */) = 0', told(Kind.EXEC, b"/bin/sh")),
    (b'execveat(3, "", ["x"], 0x7ffe /* 3 vars */, AT_EMPTY_PATH) = 0', told(Kind.EXEC, b"", 3)),
    (b"clone(child_stack=NULL, flags=CLONE_VM|CLONE_FS|CLONE_FILES|SIGCHLD) = 77",
     told(Kind.SPAWN, flags=0x200 | 0x400, result=77)),
    (b"vfork() = 78", told(Kind.SPAWN, result=78)),
    (b"clone(child_stack=0x7f, flags=CLONE_VM|CLONE_FS|CLONE_FILES|CLONE_UNTRACED) = 79",
     told(Kind.TRACE, result=-errno.EPERM)),
    (b'chdir("d") = 0', told(Kind.CHDIR, b"d")), (b"fchdir(4) = 0", told(Kind.CHDIR, folder=4)),
    (b"dup2(4, 9) = 9", told(Kind.DUP, folder=4, result=9)),
    (b"fcntl(4, F_DUPFD_CLOEXEC, 10) = 10", told(Kind.DUP, folder=4, result=10)),
    (b"getdents64(3, 0x55 /* 5 entries */, 32768) = 144", told(Kind.LIST, folder=3, result=144)),
    (b'rename("a", "b") = 0', told(Kind.RENAME, b"a", other=b"b", flags=os.O_NOFOLLOW)),
    (b'renameat2(3, "a", AT_FDCWD, "b", RENAME_EXCHANGE) = 0', told(Kind.EXCHANGE, b"a", 3, b"b", flags=os.O_NOFOLLOW)),
    (b'linkat(AT_FDCWD, "a", 4, "b", AT_SYMLINK_FOLLOW) = 0', told(Kind.LINK, b"a", other=b"b", other_folder=4)),
    (b'symlink("to", "l") = 0', told(Kind.SYMLINK, other=b"l", text=b"to")),
    (b'symlinkat("to", 4, "l") = 0', told(Kind.SYMLINK, other=b"l", other_folder=4, text=b"to")),
    (b'unlinkat(AT_FDCWD, "d", AT_REMOVEDIR) = 0', told(Kind.RMDIR, b"d", flags=os.O_NOFOLLOW)),
    (b'unlinkat(4, "f", 0) = 0', told(Kind.UNLINK, b"f", 4, flags=os.O_NOFOLLOW)),
    (b'mkdir("d", 0777) = -1 EEXIST (File exists)', told(Kind.MKDIR, b"d", flags=os.O_NOFOLLOW, result=-errno.EEXIST)),
    (b'fchmodat(AT_FDCWD, "m", 0755) = 0', told(Kind.META, b"m")),
    (b"io_uring_setup(4, {flags=0, sq_thread_cpu=0}) = 5", told(Kind.URING, result=5)),
    (b'connect(3, {sa_family=AF_UNIX, sun_path="/s"}, 110) = 0', told(Kind.SOCKET, b"/s", text=b"/s")),
    (b'connect(3, {sa_family=AF_UNIX, sun_path=@"s"}, 5) = 0', told(Kind.SOCKET, text=b"@s")),
    (b"utimensat(7, NULL, NULL, 0) = 0", told(Kind.META, folder=7)),
    (b"recvmsg(3, {msg_name=NULL, msg_control=[{cmsg_len=24, cmsg_level=SOL_SOCKET, cmsg_type=SCM_RIGHTS, "
     b"cmsg_data=[4, 5]}], msg_flags=0}, 0) = 1", told(Kind.RECEIVED, text=b"4  5")),
    (b'chroot("r") = 0', told(Kind.NAMESPACE, b"r")),
    (b"unshare(CLONE_NEWNS|CLONE_FS) = 0", told(Kind.UNSHARE, flags=0x20000 | 0x200)),
    (b"ptrace(PTRACE_TRACEME) = -1 EPERM (Operation not permitted)", told(Kind.TRACE, result=-errno.EPERM)),
    (b"+++ exited with 3 +++", told(Kind.EXIT, result=3)),
    (b"+++ killed by SIGSEGV (core dumped) +++", told(Kind.EXIT, result=-11)),
)
NOTHING = (
    b'readlink("/usr/include", 0x7ffc, 1023) = -1 EINVAL (Invalid argument)',
    b"ioctl(1, TCGETS, {c_iflag=0}) = 0",
    b"fcntl(1, F_GETFD) = 0",
    b"sendto(3, \"x\", 1, 0, NULL, 0) = 1",
    b"kill(0, SIGTERM) = 0",
    b'newfstatat(3, "", {st_mode=S_IFREG|0644, st_size=5, ...}, AT_EMPTY_PATH) = 0',
    b"fcntl(1, F_GETFL) = 0x8001 (flags O_WRONLY|O_LARGEFILE)",
    b"recvmsg(3, {msg_name=NULL, msg_namelen=0, msg_iov=[{iov_base=..., iov_len=1}], msg_controllen=0}, 0) = 1",
    b'connect(3, {sa_family=AF_UNIX, sun_path="/var/run/nscd/socket"}, 110) = -1 ENOENT (No such file or directory)',
    b"--- SIGTERM {si_signo=SIGTERM, si_code=SI_USER, si_pid=1, si_uid=0} ---",
    b'openat(AT_FDCWD, "a", O_RDONLY) = ? ERESTARTSYS (To be restarted if SA_RESTART is set)',
    b"execve(\"/x\", [\"x\"], 0x7f /* 1 var */) = ?",
)


class Lines(unittest.TestCase):
    def test_lines(self):
        for text, call in LINES:
            with self.subTest(text):
                self.assertEqual(read(b"17    " + text + b"\n"), ([(17, call)], 0))
                self.assertEqual(read(b"123456 " + text + b"\n" + b"18    " + text + b"\n"),
                                 ([(123456, call), (18, call)], 0))

    def test_lines_that_say_nothing(self):
        for text in NOTHING:
            with self.subTest(text):
                self.assertEqual(read(b"17    " + text + b"\n"), ([], 0))

    def test_a_call_that_others_stand_within(self):
        text = (b'17 openat(AT_FDCWD, "a", O_RDONLY <unfinished ...>\n18 chdir("d" <unfinished ...>\n'
                b"17 <... openat resumed>) = 3\n18 <... chdir resumed>) = 0\n"
                b'17 newfstatat(3, "",  <unfinished ...>\n18 +++ exited with 0 +++\n'
                b"17 <... newfstatat resumed>{st_mode=S_IFREG|0644, st_size=5, ...}, AT_EMPTY_PATH) = 0\n")
        self.assertEqual(read(text), ([(17, told(Kind.OPEN, b"a", result=3)), (18, told(Kind.CHDIR, b"d")),
                                       (18, told(Kind.EXIT))], 0))

    def test_a_thread_that_runs_a_program(self):
        text = (b'19 execve("/bin/p", ["p"], 0x7f /* 1 var */ <unfinished ...>\n18 +++ exited with 0 +++\n'
                b"17 +++ superseded by execve in pid 19 +++\n17 <... execve resumed>) = 0\n")
        self.assertEqual(read(text), ([(18, told(Kind.EXIT)), (17, told(Kind.EXEC, b"/bin/p", result=19))], 0))

    def test_lines_that_are_not_understood_are_told_and_counted(self):
        self.assertEqual(read(b"17 something else\n"), ([(17, told(Kind.UNRESOLVED))], 1))
        self.assertEqual(read(b'17 openat(AT_FDCWD, "a", O_RD'), ([], 0))  # the log was cut there

    def test_a_log_in_pieces(self):
        text = b"".join(b"17    " + line + b"\n" for line, _ in LINES) * 3
        whole = read(text)
        for size in (7, 4096):
            raw = Pieces(text, size)
            reader = StraceText()
            found = [(number, {it: getattr(call, it) for it in FIELDS}) for number, call in reader.events(raw)]
            self.assertEqual((found, reader.unread), whole)

    def test_what_is_kept_of_texts_is_bounded(self):
        text = b"".join(b'17 access("%d", F_OK) = 0\n' % number for number in range(70_000))
        reader = StraceText()
        self.assertEqual(sum(1 for _ in reader.events(io.BufferedReader(io.BytesIO(text)))), 70_000)
        self.assertLessEqual(len(reader._known), 1 << 16)

    def test_equal_texts_give_one_call(self):
        text = b'17 access("a", F_OK) = 0\n18 access("a", F_OK) = 0\n'
        calls = [call for _, call in StraceText().events(io.BufferedReader(io.BytesIO(text)))]
        self.assertIsInstance(calls[0], Call)
        self.assertIs(calls[0], calls[1])


class Pieces:
    """A log of which each read gives so many bytes."""

    def __init__(self, text, size):
        self.text, self.size, self.at = text, size, 0

    def read1(self, _):
        self.at += self.size
        return self.text[self.at - self.size : self.at]


if __name__ == "__main__":
    unittest.main()
