"""Lock files: two commands that run `flock lock ...` make sure that the file is there, and neither reads or writes it.
What somebody reads, fills or lists besides is told as any other file. A lock is that of the file behind the descriptor,
however the process came by it."""

import shutil
import unittest

import observed_2
from observing import WithRoom

# A pair of commands for each lock file; `third` does something else with it.
MANIFEST = """rule flock
  command = flock $lock cp in $out
rule other
  command = $cmd
build a: flock
  lock = lock
build b: flock
  lock = lock
build read_a: flock
  lock = read.lock
build read_b: flock
  lock = read.lock
build read_third: other | read_a
  cmd = cat read.lock > read_third
build written_a: other
  cmd = flock written.lock sh -c 'echo a > written.lock; cp in written_a'
build written_b: flock
  lock = written.lock
build listed_a: flock
  lock = listed/lock
build listed_b: flock
  lock = listed/lock
build listed_third: other | listed_a
  cmd = ls listed > listed_third
build alone: flock
  lock = alone.lock
"""
FILES = {"in": "1\n", "listed/x": ""}

# How a command comes to a descriptor of the file `$lock`, which another program of it locks. `$out` is its output.
BY_DESCRIPTOR = {"emptied": "(flock 9; cp in $out) 9>$lock",
                 "appended": "exec 9>>$lock; flock 9; cp in $out",
                 "duplicated": "exec 8<>$lock 9>&8 8>&-; flock 9; cp in $out",
                 "lockf": "tools/lock $lock $out",
                 "passed": "tools/pass $lock $out",
                 "taken_away": "(flock 9; cp in $out; rm $lock) 9>$lock",
                 "content": "(flock 9; echo $out >&9; cp in $out) 9>$lock",
                 "counted": "touch $lock; (flock 9; cp in $out) 9<$lock"}
PROGRAMS = {"lockf": (b"fcntl", b"python3"), "passed": (b"flock", b"python3")}
LOCK = """#!/usr/bin/env python3
import fcntl, shutil, sys
with open(sys.argv[1], "a") as file:
    fcntl.lockf(file, fcntl.LOCK_EX)
    shutil.copy("in", sys.argv[2])
"""
PASS = """#!/usr/bin/env python3
import fcntl, os, shutil, socket, sys
one, other = socket.socketpair()
if os.fork() == 0:
    received = socket.recv_fds(other, 1, 1)[1][0]
    fcntl.flock(received, fcntl.LOCK_EX)
    os._exit(0)
file = os.open(sys.argv[1], os.O_RDONLY | os.O_CREAT, 0o666)
socket.send_fds(one, [b"x"], [file])
assert os.wait()[1] == 0
shutil.copy("in", sys.argv[2])
"""
TAKE = "rule c\n  command = $cmd\n"


class Locks(WithRoom):
    first = {"made"}
    """How the command is told that came first: `made` where the observer shows that nothing was there."""

    @classmethod
    def setUpClass(cls):
        if not shutil.which("flock"):
            raise unittest.SkipTest("there is no flock")
        super().setUpClass()
        found = cls.room.build(cls.observer, MANIFEST, FILES, words=("-j", "1"), read=False)
        assert found.status == 0, found.said
        cls.blocks = observed_2.read(found.out / "observed").blocks

    def words(self, command: bytes, path: bytes) -> set[str]:
        """The words of the lines in which a command has a path."""
        return {word for word in observed_2.WORDS if self.blocks[command].has(word, path)}

    def test_who_locks_a_file_makes_sure_that_it_is_there(self):
        found = sorted(map(sorted, (self.words(it, b"lock") for it in (b"a", b"b"))))
        self.assertEqual(found, sorted(map(sorted, (self.first, {"ensured"}))))
        self.assertEqual(self.words(b"alone", b"alone.lock"), self.first)

    def test_the_program_is_named(self):
        texts = {it for name in (b"a", b"b") for it in self.blocks[name].texts}
        self.assertIn(("ensured", b"flock", b"lock"), texts)

    def test_two_commands_synchronize(self):
        for name in (b"a", b"b"):
            self.assertEqual([(it[0], it[1]) for it in self.blocks[name].flags], [(b"ipc", b"flock")])
        self.assertEqual(self.blocks[b"alone"].flags, [])

    def test_what_is_read_written_or_listed_besides(self):
        for path, names in ((b"read.lock", (b"read_a", b"read_b", b"read_third")),
                            (b"written.lock", (b"written_a", b"written_b")),
                            (b"listed/lock", (b"listed_a", b"listed_b"))):
            found = set[str]().union(*(self.words(it, path) for it in names))
            self.assertFalse(found & {"made", "ensured"}, path)
            self.assertTrue(found & {"left", "edited"} and "read" in found, (path, found))


class Descriptors(WithRoom):
    """Locks by descriptors that the locking program did not open itself: two commands for each way."""

    @classmethod
    def setUpClass(cls):
        if not shutil.which("flock"):
            raise unittest.SkipTest("there is no flock")
        super().setUpClass()
        lines = [f"build $out: c\n  cmd = {text}\n".replace("$lock", f"{name}.lock").replace("$out", f"{name}{it}")
                 for name, text in BY_DESCRIPTOR.items() for it in (1, 2)]
        make = lambda folder: [(folder / "tools" / it).chmod(0o755) for it in ("lock", "pass")]
        files = {"in": "1\n", "tools/lock": LOCK, "tools/pass": PASS}
        found = cls.room.build(cls.observer, TAKE + "".join(lines), files, words=("-j", "1"), read=False, before=make)
        assert found.status == 0, found.said
        cls.blocks = observed_2.read(found.out / "observed").blocks

    def pair(self, name: str) -> list[observed_2.Block]:
        return [self.blocks[b"%s%d" % (name.encode(), it)] for it in (1, 2)]

    def words(self, name: str) -> list[list[str]]:
        """The words of the lines in which each of the two commands has the lock file."""
        path = f"{name}.lock".encode()
        return [[word for word in observed_2.WORDS if it.has(word, path)] for it in self.pair(name)]

    def test_each_flag_has_the_files_path(self):
        for name in BY_DESCRIPTOR:
            call, program = PROGRAMS.get(name, (b"flock", b"flock"))
            flag = (b"ipc", call, program, f"{name}.lock".encode())
            due = self.of_passed if name == "passed" and self.of_passed else flag
            with self.subTest(name):
                self.assertEqual([it.flags for it in self.pair(name)], [[due], [due]])

    def test_who_only_locks_a_file_makes_sure_that_it_is_there(self):
        for name in ("emptied", "appended", "duplicated", "lockf", *(() if self.of_passed else ("passed",))):
            with self.subTest(name):
                self.assertEqual(self.words(name), [[self.first], ["ensured"]])

    def test_the_program_that_opened_it_is_named(self):
        self.assertIn(("ensured", b"sh", b"emptied.lock"), self.pair("emptied")[1].texts)

    def test_a_file_that_is_read_filled_or_taken_away_is_told_as_any_other(self):
        for name in ("content", "counted", "taken_away"):
            with self.subTest(name):
                self.assertFalse({"made", "ensured"} & set(sum(self.words(name), [])), self.words(name))
        self.assertEqual(self.words("content"), [["left"], ["left"]])


class ByTheOwnObserver(Locks, unittest.TestCase):
    observer = "own"


class DescriptorsByTheOwnObserver(Descriptors, unittest.TestCase):
    observer = "own"
    first = "made"
    of_passed = None


class DescriptorsByStrace(Descriptors, unittest.TestCase):
    observer = "strace"
    first = "ensured"
    of_passed = (b"unresolved", b"flock", b"python3", b"")
    """strace does not show of which file a descriptor is that another process passed."""


if __name__ == "__main__":
    unittest.main()
