"""`replay` and `--check`: from wherever they are called, with questions, with a reader that goes away."""

import os
import pathlib
import shutil
import signal
import subprocess
import sys
import tempfile
import unittest

import builds
from test_replays import program, why_no_lanes, why_not

REASONS = b"why w missing w\nwhy w no-record w\n"
MANIFEST = "rule make\n  command = touch $out\nbuild x: make s\nbuild w: make x\n"


class ReplaysOfQuestions(unittest.TestCase):
    """A recording of two edges, in a folder with a blank in its name."""

    def setUp(self):
        lacking = why_not() or builds.missing_tools("ninja")
        if lacking:
            self.skipTest(lacking)
        room = tempfile.TemporaryDirectory(prefix="rebug-questions-")
        self.addCleanup(room.cleanup)
        self.room = pathlib.Path(room.name)
        self.out, build = self.room / "an out", self.room / "build"
        build.mkdir()
        (build / "s").write_text("")
        (build / "build.ninja").write_text(MANIFEST)
        self.record = lambda *own: subprocess.run([sys.executable, builds.RECORDER, build, self.out, *own], check=True,
                                                  stdin=subprocess.DEVNULL, capture_output=True)
        os.symlink(os.path.abspath(program()), self.room / "the rebug")
        self.record()

    def asked(self, *words, cwd=None, rebug=None, recording=None, path=None):
        """What `replay` writes, what it says, and its status."""
        replay = os.path.relpath((recording or self.out) / "replay", cwd or self.room)
        environment = {it: value for it, value in os.environ.items() if it != "REBUG"}
        environment["PATH"] = path or os.pathsep.join(it for it in os.environ["PATH"].split(os.pathsep)
                                                      if not os.path.exists(f"{it}/rebug"))
        if rebug is not False:
            environment["REBUG"] = rebug or os.path.abspath(program())
        done = subprocess.run([f"./{replay}", *words], cwd=cwd or self.room, stdin=subprocess.DEVNULL, env=environment,
                              capture_output=True)
        return done.stdout, done.stderr, done.returncode

    def checked(self, *words, recording=None):
        whole = [sys.executable, builds.RECORDER, "--check", recording or self.out, *words]
        return subprocess.run(whole, cwd=self.room, stdin=subprocess.DEVNULL, capture_output=True, text=True)

    def test_without_words_the_script_is_run(self):
        said, errors, status = self.asked()
        self.assertEqual((errors, status), (b"", 0))
        self.assertEqual(said.split(b"\n")[:5], [b"%d 0 ok" % it for it in range(1, 6)])
        self.assertTrue(said.endswith(b"mark 0 x done 0\nmark 1 w done 0\n"))

    def test_why_is_asked_after_the_plan(self):
        self.assertEqual(self.asked("why w"), (b"1 0 ok\n" + REASONS, b"", 0))

    def test_other_questions_are_asked_at_the_end(self):
        said, errors, status = self.asked("dependents 2", "why w", "undo 2")
        self.assertEqual((errors, status), (b"", 0))
        self.assertEqual(said, b"1 0 ok\n" + REASONS + b"2 0 ok\n3 0 ok\n4 0 ok\n5 0 ok\n"
                         b"dependents 2 3 4\n6 1 refused 82 3\n")

    def test_a_recording_of_lanes_is_asked(self):
        if why_no_lanes():
            self.skipTest(why_no_lanes())
        shutil.rmtree(self.room / "build/.ninja_log", ignore_errors=True)
        (self.room / "build/s").write_text("again")
        self.record("--lanes")
        said, errors, status = self.asked("why w", "marks")
        self.assertEqual((errors, status), (b"", 0))
        self.assertIn(b"\nwhy w via x\n", said)
        self.assertTrue(said.endswith(b"mark 0 x done 0\nmark 1 w done 0\n"))

    def test_a_question_that_is_none_is_told(self):
        said, _, status = self.asked("what")
        self.assertEqual((said.split(b"\n")[0], status), (b"fault script 3 100", 1))

    def test_a_relative_program(self):
        for rebug, cwd in (("the rebug", None), ("./the rebug", None), ("../the rebug", self.out)):
            self.assertEqual(self.asked("why w", rebug=rebug, cwd=cwd)[1:], (b"", 0))
        done = self.checked("--rebug", "the rebug")
        self.assertEqual((done.stdout, done.returncode), ("rebug accepted every command: 5 of 5\n", 0))

    def test_a_moved_recording(self):
        moved = self.room / "elsewhere/recorded"
        moved.parent.mkdir()
        shutil.move(self.out, moved)
        self.assertEqual(self.asked("why w", recording=moved)[1:], (b"", 0))
        self.assertEqual(self.checked("--rebug", "the rebug", recording=moved).returncode, 0)
        # one whose program does not stand where it was
        text = (moved / "replay").read_text()
        (moved / "replay").write_text(text.replace("program=", "program=/nowhere", 1))
        said, errors, status = self.asked(recording=moved, rebug=False)
        self.assertEqual((said, status), (b"", 3))
        self.assertRegex(errors, rb"^replay: there is no rebug at /nowhere\S*, nor on the PATH: name one, as in "
                                 rb"REBUG=/path/to/rebug \S+\n$")
        # then that of the PATH is taken
        os.symlink(os.path.abspath(program()), self.room / "rebug")
        path = f"{os.environ['PATH']}:{self.room}"
        self.assertEqual(self.asked("why w", recording=moved, rebug=False, path=path), (b"1 0 ok\n" + REASONS, b"", 0))

    def test_a_program_that_is_not_there(self):
        done = self.checked("--rebug", "nowhere/rebug")
        self.assertEqual((done.stdout, done.stderr, done.returncode),
                         ("nowhere/rebug cannot be run: --rebug wants the program rebug\n", "", 2))

    def test_a_reader_that_goes_away(self):
        lines = "".join(f"touch a{it} 5\n" for it in range(60_000))
        with open(self.out / "trace", "a") as trace:
            trace.write(lines)
        command = f"'{self.out}/replay' | head -n 1"
        done = subprocess.run(["sh", "-c", command], env={**os.environ, "REBUG": os.path.abspath(program())},
                              preexec_fn=lambda: signal.signal(signal.SIGPIPE, signal.SIG_DFL), capture_output=True)
        self.assertEqual((done.stdout, done.stderr), (b"1 0 ok\n", b""))
        with open("/dev/full", "wb") as full:
            done = subprocess.run([self.out / "replay"], env={**os.environ, "REBUG": os.path.abspath(program())},
                                  stdout=full, stderr=subprocess.PIPE)
        self.assertEqual(done.returncode, 3)


if __name__ == "__main__":
    unittest.main()
