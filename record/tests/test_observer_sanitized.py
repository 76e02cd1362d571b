"""rebug's own observer, built with the sanitizers of addresses and of undefined behaviour: nothing is found,
whatever the processes do that it observes."""

import os
import pathlib
import shutil
import subprocess
import sys
import tempfile
import unittest

import builds
from observed_calls import NO_SUCH_CALL, built, observed
from recorder.observed.calls import Kind
from recorder.observed.own import SOURCE, Own

REFUSED = builds.missing_tools("cc") or Own().refusal()
WORDS = (["copy", "a", "o"], ["vforks", "3", "a", "o"], ["openat2", "d", "a", "1"], ["in-root", "d", "/../a", "/2"],
         ["path", "d", "a", "3"], ["unnamed", "d", "a", "d/n"], ["empty", "a", "4"], ["duplicate", "d", "a", "5"],
         ["thread", "d", "a", "6"], ["ring", "a", "7"], ["hidden", "a", "8"], ["thirty-two", "a"], ["trace", "a", "9"],
         ["signals", "50"], ["renamed", "d", "../d", "../e", "a", "o"])
# Children that make looking calls with arguments by chance: bad addresses, loops of links, the longest paths, other
# processes.
HOSTILE = """
import ctypes, os, random, signal, sys
call, chance = ctypes.CDLL(None).syscall, random.Random()
numbers = [int(it) for it in sys.argv[2].split(",")]
texts = ["a", "d/a", "/proc/self/fd/0", "../" * 1300, "/" * 4095, "/".join(["a" * 200] * 19), "l/" * 2040, "loop/x", "",
         "/proc/self/cwd/loop", "/dev/fd/99", "/proc/thread-self/root/etc/passwd", "/proc/1/root", "far", "x" * 70000]
kept = [ctypes.create_string_buffer(it.encode(), 1 << 17) for it in texts]  # no answer leaves its room
addresses = [0, 1, -1, 0xdeadbeef, *map(ctypes.addressof, kept), ctypes.addressof(kept[-1]) + 69990]
os.symlink("loop", "loop"), os.symlink("../" * 1300 + "x" * 100, "far")
for child in range(60):
    if os.fork():
        os.wait()
        continue
    signal.alarm(5)
    chance.seed(child + 1000 * int(sys.argv[1]))
    for _ in range(60):
        given = [chance.choice([chance.choice(addresses), -100, chance.randrange(64)]) for _ in range(6)]
        call(ctypes.c_long(chance.choice(numbers)), *map(ctypes.c_long, given))
    os._exit(0)
"""
# Calls of x86-64 that only look at files: stat, lstat, access, readlink, statfs, getxattr, lgetxattr, newfstatat,
# readlinkat, faccessat, statx, faccessat2. A call that changes something is never among them: with arguments by chance,
# and as the superuser, such a call changes files of the machine on which the test runs.
X86_64 = "4,6,21,89,137,191,192,262,267,269,332,439"
THREADS = """
import threading
def work(number):
    open(f"t{number % 50}", "a").close()
for _ in range(20):
    threads = [threading.Thread(target=work, args=(it,)) for it in range(500)]
    [it.start() for it in threads], [it.join() for it in threads]
"""


# Commands as Ninja starts them, side by side, with one that changes many files and one that a signal ends. Each file is
# another one as soon as its command has ended.
COMMANDS = '''
import os, subprocess
def start(text):
    return subprocess.Popen(["/bin/sh", "-c", text])
for first in range(0, 40, 4):
    for number, it in [(it, start(f"sh -c 'echo 1 > o{it}'; cat a")) for it in range(first, first + 4)]:
        it.wait()
        with open(f"o{number}", "a") as file:
            file.write("more")
start("for i in `seq 0 299`; do echo > many$i; echo >> many$i; done").wait()
start("kill -9 $$").wait()
'''


@unittest.skipIf(REFUSED, REFUSED)
class Sanitized(unittest.TestCase):
    def setUp(self):
        self.room = pathlib.Path(os.path.realpath(tempfile.mkdtemp(prefix="rebug-sanitized-")))
        self.addCleanup(shutil.rmtree, self.room, ignore_errors=True)
        self.program = self.room / "observer"
        words = ["cc", "-g", "-O1", "-std=c11", "-fsanitize=address,undefined", "-fno-sanitize-recover=undefined",
                 "-o", self.program, SOURCE]
        if subprocess.run(words, capture_output=True).returncode:
            self.skipTest("no program with sanitizers can be built here")
        for name, value in (("ASAN_OPTIONS", f"log_path={self.room}/found:detect_leaks=0"),
                            ("UBSAN_OPTIONS", f"log_path={self.room}/found")):
            self.addCleanup(os.environ.__setitem__, name, os.environ[name]) if name in os.environ else \
                self.addCleanup(os.environ.pop, name, None)
            os.environ[name] = value
        self.folder = self.room / "w"
        (self.folder / "d").mkdir(parents=True)
        (self.folder / "a").write_text("1")
        (self.folder / "d/a").write_text("2")

    def run_observed(self, words, looks=False):
        observer = Own(self.program)
        observer.looks = looks
        found = observed(observer, words, self.folder)
        self.assertEqual([it.read_text() for it in self.room.glob("found*")], [])
        self.assertGreater(len(found.events), 0)
        return found

    def test_calls_that_are_hard_to_follow(self):
        program = str(built(self.room))
        for words in WORDS:
            with self.subTest(words[0]):
                self.assertIn(self.run_observed([program, *words]).status, (0, NO_SUCH_CALL))

    def test_calls_by_chance(self):
        if os.uname().machine != "x86_64":
            self.skipTest("the numbers of calls are those of x86-64")
        for seed in range(3):
            folder = self.folder / str(seed)
            (folder / "d").mkdir(parents=True)
            (folder / "a").write_text("1")
            script = f"import os; os.chdir({str(folder)!r})\n" + HOSTILE
            self.assertEqual(self.run_observed([sys.executable, "-c", script, str(seed), X86_64]).status, 0)

    def test_ten_thousand_threads(self):
        found = self.run_observed([sys.executable, "-c", THREADS])
        self.assertEqual(found.status, 0)

    def test_looks_at_the_ends_of_commands(self):
        found = self.run_observed([sys.executable, "-c", COMMANDS], looks=True)
        self.assertEqual(found.status, 0)
        looks = [call for _, call in found.events if call.kind is Kind.LOOKED]
        paths = [it.text for it in looks if it.text]
        self.assertEqual(sum(not it.text for it in looks), 42)  # one at each beginning
        self.assertEqual(len(set(paths)), len(paths))
        folder = os.fsencode(self.folder)
        self.assertEqual(set(paths), {*(b"%s/o%d" % (folder, it) for it in range(40)),
                                      *(b"%s/many%d" % (folder, it) for it in range(300))})
        sizes = {it.text: int(it.name.split(b" ")[2]) for it in looks if it.text}
        self.assertEqual({sizes[b"%s/o%d" % (folder, it)] for it in range(40)}, {2})


if __name__ == "__main__":
    unittest.main()
