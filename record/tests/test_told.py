"""What the recorder tells of names, of recordings that are none, and of an interrupt: a sentence, and no more."""

import os
import pathlib
import signal
import subprocess
import sys
import tempfile
import unittest

import builds
from recorder.fields import printable
from recorder.folders import whole
from recorder.replaying import replay_text
from recorder.signals import Ended, Signals

LAUNCHER = pathlib.Path(builds.RECORDER).resolve().parents[1] / "rebug"
# A name that sets a terminal's title, moves its cursor, begins a line and is no UTF-8.
HOSTILE = b"a\x1b]0;x\x07\x9bA\n\xff b"
SHOWN = r"a\x1b]0;x\x07\x9bA\x0a\xff b"
TRACE = "rebug-trace 1\njobs 1\nlane 0\nplan a\n"
# Interrupts Python as it begins, as a user's Ctrl-C can.
INTERRUPTING = "import os, signal\nos.kill(os.getpid(), signal.SIGINT)\n"


class Told(unittest.TestCase):
    """Each test has a room with a recording that rebug can replay."""

    def setUp(self):
        room = tempfile.TemporaryDirectory(prefix="rebug-told-")
        self.addCleanup(room.cleanup)
        self.room = pathlib.Path(room.name)
        self.out = self.room / "out"
        self.out.mkdir()
        replay = replay_text(["build.ninja"], [b"run", b"run", b"marks", b"logs"], False, "rebug")
        manifest = "rule r\n  command = r\nbuild a: r\n"
        for name, text in (("build.ninja", manifest), ("trace", TRACE), ("script", "run\n"), ("replay", replay)):
            (self.out / name).write_text(text)
        # It stands for rebug, and answers by the trace that it is given.
        self.rebug = self.room / "rebug"
        self.rebug.write_text('#!/bin/sh\ncat trace >/dev/null && echo "1 0 ok"\n')
        self.rebug.chmod(0o755)

    def run_recorder(self, *words, **how):
        """The recorder in the room: within half a minute, and with a bound for its memory."""
        def bound():
            import resource
            resource.setrlimit(resource.RLIMIT_AS, (1 << 30, 1 << 30))

        done = subprocess.run([sys.executable, builds.RECORDER, *words], cwd=self.room, stdin=subprocess.DEVNULL,
                              capture_output=True, timeout=300, preexec_fn=bound, **how)
        return done.returncode, done.stdout.decode(), done.stderr.decode()

    def check(self):
        return self.run_recorder("--check", "out", "--rebug", self.rebug)

    # NAMES

    def test_controls_and_other_bytes_are_written_as_numbers(self):
        self.assertEqual(printable(os.fsdecode(HOSTILE)), SHOWN.replace(r"\x9b", r"\x9b"))
        self.assertEqual(printable("plain \u00fc \u2713"), "plain \u00fc \u2713")
        self.assertEqual(printable("\u009b\u0085\x7f"), r"\x9b\x85\x7f")

    def test_no_name_reaches_a_terminal_as_it_is(self):
        for words in ([HOSTILE, b"o"], [b"--from-logs", HOSTILE, b"o"]):
            status, told, said = self.run_recorder(*words)
            self.assertEqual((status, told, said.count("\n")), (2, "", 1), said)
            self.assertIn(SHOWN, said)
        (self.room / os.fsdecode(HOSTILE)).mkdir()
        status, told, said = self.run_recorder(b"--from-logs", HOSTILE, b"o")
        self.assertEqual((told, said.count("\n"), SHOWN in said), ("", 1, True), said)
        status, told, said = self.run_recorder(b"--check", HOSTILE)
        self.assertEqual((status, told.count("\n"), SHOWN in told, said), (3, 1, True, ""), told)

    # RECORDINGS THAT ARE NONE

    def test_a_recording_is_checked(self):
        self.assertEqual(self.check(), (0, "rebug accepted every command: 1 of 1\n", ""))

    def test_what_is_no_file_is_no_part_of_a_recording(self):
        for name in ("replay", "trace", "script", "build.ninja"):
            content = (self.out / name).read_text()
            for make in (os.mkfifo, lambda it: os.symlink("/dev/zero", it), os.mkdir,
                         lambda it: os.symlink("/etc/passwd", it)):
                (self.out / name).unlink()
                make(self.out / name)
                status, told, said = self.check()
                self.assertEqual((status, told.count("\n"), said), (3, 1, ""), told)
                self.assertTrue(told.startswith(f"out has no recording: out/{name} "), told)
                (os.rmdir if (self.out / name).is_dir() else os.unlink)(self.out / name)
                (self.out / name).write_text(content)

    def test_a_replay_without_an_end_is_none(self):
        with open(self.out / "replay", "ab") as file:
            file.truncate(1 << 40)
        status, told, said = self.check()
        self.assertEqual((status, told), (3, "out has no recording: out/replay does not tell one\n"), said)

    def test_a_link_in_the_place_of_what_a_recorder_leaves_is_not_followed(self):
        elsewhere = self.room / "elsewhere"
        elsewhere.mkdir()
        (elsewhere / "replay").write_text("echo of somebody\n")
        (elsewhere / "secret").write_text("of somebody\n")
        (self.out / ".moving").symlink_to("../elsewhere")
        with whole(str(self.out)) as folder:
            self.assertEqual(folder, str(self.out))
        self.assertEqual(self.check(), (0, "rebug accepted every command: 1 of 1\n", ""))
        ran = subprocess.run(["sh", self.out / "replay"], env={**os.environ, "REBUG": str(self.rebug)},
                             capture_output=True, text=True, timeout=300)
        self.assertEqual((ran.stdout, ran.stderr), ("1 0 ok\n", ""))

    # AN INTERRUPT

    def test_an_interrupt_as_python_begins_ends_without_a_traceback(self):
        (self.room / "sitecustomize.py").write_text(INTERRUPTING)
        for words in ([LAUNCHER, "record"], [LAUNCHER, "provoke"], [builds.RECORDER]):
            ran = subprocess.run([*words, "--help"], env={**os.environ, "PYTHONPATH": str(self.room)},
                                 capture_output=True, text=True, timeout=300)
            self.assertEqual((ran.returncode, ran.stdout, ran.stderr), (-signal.SIGINT, "", ""))

    def test_an_interrupt_is_taken_once_the_recorder_works(self):
        program = ("import os, signal, sys\nsys.path.insert(0, sys.argv[1])\nimport recorder\n"
                   "print(signal.pthread_sigmask(signal.SIG_BLOCK, set()))\n")
        ran = subprocess.run(["env", "--block-signal=INT", sys.executable, "-c", program, LAUNCHER.parent / "record"],
                             capture_output=True, text=True, timeout=300)
        self.assertEqual((ran.stdout, ran.stderr), ("set()\n", ""))

    def test_a_second_one_does_not_end_what_is_said_of_the_first(self):
        said = []
        signals = Signals(said.append)
        self.addCleanup(signals.give_back)
        before = {number: signal.getsignal(number) for number in (signal.SIGINT, signal.SIGTERM, signal.SIGHUP)}
        self.addCleanup(lambda: [signal.signal(*it) for it in before.items()])
        signals.install()
        with self.assertRaises(Ended):
            signal.raise_signal(signal.SIGINT)
        for number in (signal.SIGINT, signal.SIGTERM, signal.SIGINT):
            signal.raise_signal(number)
        signals.ended -= 3.0
        with self.assertRaises(Ended) as caught:
            signal.raise_signal(signal.SIGTERM)
        self.assertEqual((caught.exception.number, said), (signal.SIGTERM, []))
