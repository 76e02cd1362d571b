"""A recording is there whole or not at all: the recorder is killed at each call that changes a folder, and then readers
and the next recorder look at what it left."""

import itertools
import os
import pathlib
import re
import shutil
import signal
import subprocess
import sys
import tempfile
import unittest

import builds
from observing import refusal
from recorder.checking import check
from recorder.folders import BadFolder, NotInPlace, OutFolder, whole

# The system's calls that make, move or take away a name; Python makes some of them under either name.
RENAMES = ("rename", "renameat", "renameat2")
CALLS = (*RENAMES, "mkdir", "mkdirat", "unlink", "unlinkat", "rmdir")
# What tells the generation of a recording, in each file that can have it.
TAGGED = {"build.ninja": rb"# generation (\d+)", "r.ninja": rb"# generation (\d+)", "trace": rb"finish o(\d+) ",
          "replay": rb"--manifest build.ninja .* g(\d+)\.ninja"}


class Generations:
    """A build folder whose manifest, included files and outputs are others at each generation. Every other one is
    observed, where that can be."""

    def __init__(self, room):
        self.build, self.out, self.number = room / "build", room / "out", 0
        self.observed = 2 if refusal("own") is None else 0
        self.build.mkdir()
        (self.build / "s").write_text("s")

    def next(self):
        """Writes the next generation: an included file of the same name, one of its own, one in a folder of its own."""
        self.number += 1
        it = self.number
        (self.build / "build.ninja").write_text(
            f"# generation {it}\nrule touch\n  command = touch $out\ninclude r.ninja\ninclude sub/s.ninja\n"
            f"include of{it}/er/deep.ninja\ninclude g{it}.ninja\n")
        (self.build / "r.ninja").write_text(f"# generation {it}\nbuild o{it}: touch s\n")
        for name in (f"g{it}.ninja", f"of{it}/er/deep.ninja", "sub/s.ninja"):
            (self.build / name).parent.mkdir(parents=True, exist_ok=True)
            (self.build / name).write_text(f"# generation {it}\n")

    def is_observed(self, number):
        return self.observed and number % self.observed == 0

    def words(self, *words):
        observing = ["--observe", "--observer", "own"] if self.is_observed(self.number) else []
        return [sys.executable, builds.RECORDER, self.build, self.out, *observing, *(["--", *words] if words else [])]

    def record(self, *words, status=0):
        done = subprocess.run(self.words(*words), capture_output=True, text=True, stdin=subprocess.DEVNULL)
        assert done.returncode == status, done
        return done.stderr

    def killed(self, call, when):
        """Records, and kills the recorder before its call of this number; whether there was such a call."""
        injection = f"inject={call}:signal=KILL:when={when}"
        words = ["strace", "-qq", "-o", "/dev/null", "-e", f"trace={call}", "-e", injection, *self.words()]
        done = subprocess.run(words, capture_output=True, text=True, stdin=subprocess.DEVNULL)
        assert done.returncode in (0, -signal.SIGKILL, 128 + signal.SIGKILL), done
        return done.returncode != 0


def generation_of(folder, of=None):
    """The one generation that all files of a recording are of; `of` says which ones are observed."""
    folder, found = pathlib.Path(folder), set()
    for name, pattern in TAGGED.items():
        numbers = set(map(int, re.findall(pattern, (folder / name).read_bytes())))
        assert len(numbers) == 1, (name, numbers)
        found.update(numbers)
    assert len(found) == 1, f"files of the generations {sorted(found)} in {sorted(os.listdir(folder))}"
    it = found.pop()
    for name in (f"g{it}.ninja", f"of{it}/er/deep.ninja", "sub/s.ninja"):
        assert (folder / name).read_text() == f"# generation {it}\n", name
    trace, times = ((folder / name).read_text() for name in ("trace", "times"))
    assert len(trace.split("lane 0\n")[1].splitlines()) == len(times.splitlines()) - 1
    if of is not None:
        is_there = {name: (folder / name).exists() for name in ("observed", "filters")}
        assert is_there == dict.fromkeys(is_there, bool(of.is_observed(it))), (it, is_there)
        assert not (folder / ".without").exists()
    return it


class Killing(unittest.TestCase):
    """A recorder that strace kills."""

    def setUp(self):
        lacking = builds.missing_tools("ninja", "strace")
        if lacking:
            self.skipTest(lacking)
        room = tempfile.TemporaryDirectory(prefix="rebug-killed-")
        self.addCleanup(room.cleanup)
        self.room = pathlib.Path(room.name)
        self.it = Generations(self.room)
        probe = subprocess.run(["strace", "-qq", "-o", "/dev/null", "-e", "inject=getpid:signal=KILL:when=9", "true"],
                               stderr=subprocess.DEVNULL)
        if probe.returncode:
            self.skipTest("strace cannot trace here")

    def runs(self):
        """Recorders of further generations, each killed before another one of its calls: the call, and whether there
        was such a one. Where there was none, the recorder ended well."""
        for call in CALLS:
            for when in itertools.count(1):
                self.it.next()
                is_killed = self.it.killed(call, when)
                yield call, is_killed
                if not is_killed:
                    break


class Killed(Killing):
    def assert_clean(self):
        if self.it.out.exists():
            self.assertEqual([it for it in os.listdir(self.it.out) if it.startswith(".")], [])

    def next_recorder(self, call):
        """One that records nothing, or what it does before Ninja and after it: it puts all in order."""
        if call in RENAMES:
            self.assertIn("stays (--force replaces it)", self.it.record("nosuchtarget", status=1))
        else:
            with OutFolder(str(self.it.out)):
                pass
        self.assert_clean()

    def test_a_second_recording_is_there_whole_or_not_at_all(self):
        self.it.next()
        self.it.record()
        (self.it.out / "questions").write_text("run\n")
        before, counts = self.it.number, {True: 0, False: 0}
        for call, is_killed in self.runs():
            with whole(str(self.it.out)) as read:
                kept = generation_of(read, self.it)
            self.assertIn(kept, (before, self.it.number) if is_killed else (self.it.number,))
            self.next_recorder(call)
            self.assertEqual(generation_of(self.it.out, self.it), kept)
            self.assertEqual((self.it.out / "questions").read_text(), "run\n")
            counts[kept != before] += is_killed
            before = kept
        # calls of both sides of the switch were met
        self.assertGreater(min(counts.values()), 5, counts)

    def test_a_first_recording_is_there_whole_or_not_at_all(self):
        counts = {True: 0, False: 0}
        for _, is_killed in self.runs():
            with whole(str(self.it.out)) as read:
                is_there = os.path.exists(os.path.join(read, "trace"))
                self.assertTrue(is_there or is_killed)
                if is_there:
                    self.assertEqual(generation_of(read, self.it), self.it.number)
            with OutFolder(str(self.it.out)):
                pass
            self.assert_clean()
            if is_there:
                self.assertEqual(generation_of(self.it.out, self.it), self.it.number)
            else:
                self.assertEqual(list(self.it.out.parent.glob("out/*")), [])
            counts[is_there] += is_killed
            shutil.rmtree(self.it.out, ignore_errors=True)
        self.assertGreater(min(counts.values()), 2, counts)


class Moves(unittest.TestCase):
    """A switch that fails at one of its renames, without Ninja."""

    OLD = {"build.ninja": "old", "r.ninja": "old", "sub/a.ninja": "old", "trace": "old", "replay": "old",
           "mine": "kept"}
    OBSERVED = {"observed": "old", "filters": "old"}
    NEW = {"build.ninja": "new", "r.ninja": "new", "sub/b.ninja": "new", "fresh/c.ninja": "new", "trace": "new",
           "replay": "new"}

    def setUp(self):
        room = tempfile.TemporaryDirectory(prefix="rebug-half-")
        self.addCleanup(room.cleanup)
        self.out = pathlib.Path(room.name) / "out"

    def write(self, files, folder=None):
        for name, text in files.items():
            path = (folder or self.out) / name
            path.parent.mkdir(parents=True, exist_ok=True)
            path.write_text(text)

    def content(self, folder=None):
        folder = pathlib.Path(folder or self.out)
        return {str(it.relative_to(folder)): it.read_text() for it in folder.rglob("*") if it.is_file()}

    def switch(self, moves):
        """Switches, and fails for good at the move of this number after the one that decides."""
        real, count = os.rename, [0]

        def rename(*words, **where):
            count[0] += 1
            if count[0] == moves + 2:
                raise OSError(5, "Input/output error")
            return real(*words, **where)

        os.rename = rename
        try:
            with OutFolder(str(self.out)) as out:
                for name, text in self.NEW.items():
                    with out.staging.create(name.encode()) as file:
                        file.write(text.encode())
                out.switch()
        finally:
            os.rename = real

    def test_what_counts_is_read_and_then_put_in_place(self):
        """Also where the earlier recording had files that the new one does not have, which go with it."""
        together = {**self.OLD, **self.NEW}
        for moves, more in itertools.product(range(6), ({}, self.OBSERVED)):
            with self.subTest(moves=moves, more=more):
                shutil.rmtree(self.out, ignore_errors=True)
                self.write({**self.OLD, **more})
                with self.assertRaises(NotInPlace):
                    self.switch(moves)
                self.assertTrue((self.out / ".moving/replay").exists())
                with whole(str(self.out)) as read:
                    self.assertEqual(self.content(read), together)
                with OutFolder(str(self.out)):
                    pass
                self.assertEqual(self.content(), together)
                self.assertFalse((self.out / ".moving").exists())

    def test_a_failure_before_the_rename_that_decides_changes_nothing(self):
        self.write(self.OLD)
        with self.assertRaises(OSError):
            self.switch(-1)
        self.assertEqual(self.content(), self.OLD)
        self.assertEqual([it for it in os.listdir(self.out) if it.startswith(".")], [])

    def test_a_place_that_is_taken_is_told_before_the_switch(self):
        for place, is_folder in (("trace", True), ("fresh", False)):
            with self.subTest(place=place):
                shutil.rmtree(self.out, ignore_errors=True)
                self.write({name: text for name, text in self.OLD.items() if name != place})
                (self.out / place).mkdir() if is_folder else (self.out / place).write_text("mine")
                before = self.content()
                with self.assertRaises(BadFolder) as caught:
                    self.switch(99)
                self.assertIn(f"{self.out}/{place} is a {'folder' if is_folder else 'file'}", str(caught.exception))
                self.assertEqual(self.content(), before)


REPLAYED = """#!/bin/sh
# stands for rebug: tells what it would read
for it in "$@"; do case $it in --*|/dev/stdin) ;; *) if [ -f "$it" ]; then cat "$it"; fi ;; esac; done
"""


class Readers(Killing):
    """`replay` and --check where they meet a folder whose switch was cut off."""

    def setUp(self):
        super().setUp()
        self.rebug = self.room / "stand in"
        self.rebug.write_text(REPLAYED)
        self.rebug.chmod(0o755)

    def halved(self):
        """Each half-switched folder, from the first move on; the last kill comes before `replay` is moved."""
        self.it.next()
        self.it.record()
        moves = 0
        while True:
            self.it.next()
            if not self.it.killed("renameat2" if self.has_renameat2() else "renameat", moves + 2):
                return
            if not (self.it.out / ".moving/replay").exists():
                return
            moves += 1
            yield self.it.number

    @staticmethod
    def has_renameat2():
        code = ("import os\ntop = os.open('/', 0)\n"
                "try: os.rename('no', 'no', src_dir_fd=top, dst_dir_fd=top)\nexcept OSError: pass")
        said = subprocess.run(["strace", "-e", "trace=renameat,renameat2", sys.executable, "-c", code],
                              capture_output=True, text=True).stderr
        return "renameat2(" in said

    def test_replay_and_check_answer_of_the_one_that_is_whole(self):
        count = 0
        for number in self.halved():
            count += 1
            done = subprocess.run([self.it.out / "replay"], env={**os.environ, "REBUG": str(self.rebug)},
                                  capture_output=True, text=True)
            self.assertEqual((done.returncode, done.stderr.count("\n")), (0, 1), done.stderr)
            self.assertIn("the recorder was ended while it moved", done.stderr)
            self.assertEqual(set(re.findall(r"# generation (\d+)", done.stdout)), {str(number)})
            self.assertIn(f"finish o{number} ", done.stdout)
            said = []
            check(str(self.it.out), str(self.rebug), said.append)
            self.assertIn("from a copy", said[0])
            self.it.record("nosuchtarget", status=1)
            self.assertEqual(generation_of(self.it.out, self.it), number)
        self.assertGreater(count, 4)


if __name__ == "__main__":
    unittest.main()
