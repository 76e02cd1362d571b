"""How a call of `rebug reuse` can end: a bad recording gets a sentence, nothing that it names is opened, and time is
linear in the recordings."""

from __future__ import annotations

import functools
import os
import pathlib
import random
import resource
import shutil
import signal
import subprocess
import sys
import tempfile
import unittest
import unittest.mock

import builds
from actions_builds import Written
from recorder.actions.files import Files
from recorder.rerun.lines import BadRecording
from recorder.reuse import recording
from recorder.reuse.beside import Without
from recorder.reuse.judging import Judge
from recorder.reuse.recording import Recording
from rerun_builds import body
from reuse_builds import REUSE, Later, Reuse, answered
from shuffled import statement
from test_reuse import Case

SEED, LINES = 29, 40
SOUND = statement("a", "cat in > a", "in") + statement("b", "cat a l > b; ls d > /dev/null", "a")
FILES = {"build/in": "in\n", "build/d/x": "", "build/l": ""}
NAMES = ("first", "second")


@functools.cache
def sound() -> Reuse:
    """A build that is recorded twice, of which each test has copies of the recordings."""
    it = Reuse(SOUND, FILES)
    it.build_as("first")
    it.write("in", "in\n")
    it.build_as("second")
    return it


def tearDownModule() -> None:
    if sound.cache_info().currsize:
        sound().remove()
        sound.cache_clear()


class BadInput(Case):
    def copied(self) -> Reuse:
        it = self.made("", {})
        for name in NAMES:
            shutil.copytree(sound().room / name, it.room / name)
        return it

    def refused(self, it: Reuse, said: str, *words: object, status: int = 2) -> None:
        """One sentence."""
        found = it.reuse(*(words or ("second", "first")))
        self.assertEqual((found.status, found.said.count("\n"), found.commands), (status, 1, {}), found.said)
        self.assertIn(said, found.said)
        self.assertTrue(found.said.startswith("rebug reuse: "), found.said)

    def test_words(self):
        it = self.copied()
        self.assertEqual(it.reuse("second", "first").of("served"), {"a", "b"})
        self.refused(it, "unrecognized arguments: --jso ", "second", "first", "--jso")
        self.refused(it, "expected one argument", "second", "first", "--without")
        for words in ([], ["second"], ["--any-environment"]):
            self.refused(it, "rebug reuse wants a recording and earlier ones", *words or ["--json"])
        for words in ((it.room / "no", "first"), ("second", it.room / "no"), ("second", "first", "no")):
            self.refused(it, "there is no recording at", *words)
        self.refused(it, "is no recording: it has no file build.ninja", it.room, "first")
        done = subprocess.run([*it.words(), "--help"], capture_output=True, text=True)
        self.assertEqual((done.returncode, done.stderr, done.stdout.startswith("usage: rebug reuse")), (0, "", True))
        found = answered(it.words(it.room / "second/build.ninja", it.room / "first/trace", "--json"))
        self.assertEqual((found.status, found.of("served")), (4, {"a", "b"}))
        self.assertEqual(it.reuse("second", "second", "first").of("served"), {"a", "b"})

    def test_files_that_are_missing_or_no_files(self):
        it = self.copied()
        for name, said in (("contents", "has no contents: record the build with --contents"),
                           ("observed", "has no contents: record the build with --contents"),
                           ("trace", "is no recording: it has no file trace"),
                           ("build.ninja", "is no recording: it has no file build.ninja")):
            path = it.room / "second" / name
            kept = path.read_bytes()
            path.unlink()
            self.refused(it, said)
            os.mkfifo(path)
            self.refused(it, f"{name}: it is a pipe, and not a file")
            self.refused(it, f"{name}: it is a pipe, and not a file", "first", "second")
            path.unlink()
            (it.room / "secret").write_bytes(kept)
            path.symlink_to(it.room / "secret")
            self.refused(it, f"{name}: it is a link, and not a file")
            path.unlink()
            path.write_bytes(kept)

    def test_an_observation_of_version_1(self):
        it = self.copied()
        (it.room / "second/observed").write_text("rebug-observed 1\nby ptrace\n")
        self.refused(it, "has no contents: record the build with --contents")
        self.assertEqual(it.reuse("first", "second").reasons(), dict.fromkeys("ab", "no contents"))

    def test_files_that_are_cut(self):
        it = self.copied()
        for folder, words in (("second", ("second", "first")), ("second", ("first", "second"))):
            for name in ("observed", "contents"):
                path = it.room / folder / name
                data = path.read_bytes()
                for text, said in ((data[:-1], "it is cut off"), (data[: len(data) // 2], "it is cut off"),
                                   (data.replace(b"\nedge ", b"\nEdge ", 1), "the digest in its last line is not that"),
                                   (b"rebug-other 1\n" + data, "it does not begin with")):
                    path.write_bytes(text)
                    self.refused(it, f"rebug reuse: {it.room / folder}: {name}:", *words)
                    self.refused(it, said, *words)
                path.write_bytes(data)

    def test_lines_that_say_nothing(self):
        it = self.copied()
        it.out = it.room / "second"
        contents, observed = (body((it.out / name).read_bytes()) for name in ("contents", "observed"))
        for old, new, said in ((b"\nedge 0\n", b"\nedge 99\n", "a number that stands for nothing"),
                               (b"\nedge 0\n", b"\nedge 1\nedge 0\n", "numbers that do not rise"),
                               (b"\nread 0", b"\nread 99999999", "a number that stands for nothing"),
                               (b"\nedge 0\n", b"\nedge 0\nwrites 0\n", "a line that may not stand there")):
            self.assertIn(old, contents)
            it.rewrite(contents=contents.replace(old, new, 1))
            self.refused(it, said)
            self.refused(it, "contents:", "first", "second")
        for old, new, said in ((b"\nedge a\n", b"\nedge nowhere\n", "a command that the manifest does not have"),
                               (b"\nread ", b"\nread 99999 ", "a number that stands for nothing"),
                               (b"\npath in 0", b"\npath in 99", "a number that stands for nothing"),
                               (b"\npath in 0", b"\npath in\\q 0", "an escape that stands for nothing")):
            self.assertIn(old, observed)
            it.rewrite(observed=observed.replace(old, new, 1))
            self.refused(it, said)
            self.refused(it, "observed:", "first", "second")

    def test_lines_of_the_other_files(self):
        it = self.copied()
        for name, text, said in (("trace", b"lane 0\nstart nowhere 0\n", "trace:2: a command that the manifest does"),
                                 ("trace", b"stamp a x\n", "trace:1: a stamp that is no number"),
                                 ("trace", b"stamp a\n", "trace:1: a stamp that is no number"),
                                 ("trace", b"lane 0\nfinish a 1,x\n", "trace:2: a stamp that is no number"),
                                 ("trace", b"lane 0\nfinish a " + b"9" * 30, "trace:2: a stamp that is no number"),
                                 ("trace", b"built a\\q 1 x\n", "trace:1: an escape that stands for nothing"),
                                 ("filters", b"x\na//b\n", "filters:2: a part of the pattern is empty"),
                                 ("build.ninja", b"build a: nothing\n", "build.ninja:1: unknown rule nothing"),
                                 ("build.ninja", b"include ../first/build.ninja\n", "no file of a recording has")):
            path = it.room / "second" / name
            kept = path.read_bytes()
            path.write_bytes(text)
            self.refused(it, said)
            self.refused(it, said, "first", "second")
            path.write_bytes(kept)

    def test_times_that_are_not_there(self):
        it = self.copied()
        (it.room / "second/times").write_text("rebug-times 1\n0:1 -\n0:x 7\n0:2 99999999999999999999\nx\n")
        found = it.reuse("second", "first")
        self.assertEqual((found.of("served"), found.end["without_time"], found.end["milliseconds"]), ({"a", "b"}, 2, 0))
        self.assertEqual(it.told("second", "first")[1].splitlines()[:2], [
            "2 commands ran; of 2 it is not known how long",
            "2 commands would have been served: earlier runs met the same"])

    def test_texts_that_are_dear_for_their_size(self):
        """Phony statements that name each other, and blocks that each name all."""
        it = self.copied()
        manifest = it.room / "second/build.ninja"
        kept = manifest.read_bytes()
        chain = "".join(f"build p{n}: phony p{n + 1} p{n + 1} q{n}\n" for n in range(20_000))
        manifest.write_bytes(chain.encode() + b"build p20000: phony p0\n" + kept.replace(b": r in", b": r in p0"))
        found = it.reuse("second", "first")
        self.assertEqual((found.status, found.said, found.of("served")), (4, "", {"a", "b"}))
        manifest.write_bytes(kept)
        with unittest.mock.patch.object(recording, "_MOST_LOOKS", 5):
            with self.assertRaisesRegex(BadRecording, "says of more than 5 looks and names in all"):
                its = [Recording(Files(str(it.room / name))) for name in NAMES]
                Judge(its[1], its[:1], Without()).cases()

    def test_lines_by_chance(self):
        """Each answer to a recording in which lines are others is an answer or a sentence."""
        it, chance = self.copied(), random.Random(SEED)
        it.out = it.room / "second"
        whole = {name: body((it.out / name).read_bytes()) for name in ("observed", "contents")}
        others = {name: (it.out / name).read_bytes() for name in ("trace", "build.ninja", "times")}
        for _ in range(LINES):
            name = chance.choice((*whole, *others))
            lines = {**whole, **others}[name].splitlines(keepends=True)
            at, other = chance.randrange(1, len(lines)), chance.randrange(1, len(lines))
            kind = chance.randrange(4)
            if kind == 0:
                del lines[at]
            elif kind == 1:
                lines[at], lines[other] = lines[other], lines[at]
            elif kind == 2:
                lines.insert(at, lines[other])
            else:
                lines[at] = lines[at].replace(b" ", b" 7", 1)
            if name in whole:
                it.rewrite(**{name: b"".join(lines)})
            else:
                (it.out / name).write_bytes(b"".join(lines))
            for words in (("second", "first"), ("first", "second")):
                found = it.reuse(*words)
                self.assertIn(found.status, (0, 2, 4, 5), found)
                self.assertNotIn("Traceback", found.said)
            it.rewrite(**whole)
            for name, data in others.items():
                (it.out / name).write_bytes(data)

    def test_names_from_a_terminal_s_view(self):
        """Control characters of a recording do not reach the terminal as they are."""
        it = self.made(statement("a", "cat x* > a", "in"), {"build/x\x1b[31m": "x", "build/in": ""})
        it.build_as("first")
        it.write("x\x1b[31m", "y")
        (it.build / "in").touch()
        it.build_as("second")
        self.assertIn(r"  1 command met something else at x\x1b[31m", it.told("second", "first")[1])
        self.assertIn(r"x\x1b[31m", it.reuse("second", "first").others("a"))


class Large(unittest.TestCase):
    def room(self) -> pathlib.Path:
        folder = pathlib.Path(tempfile.mkdtemp(prefix="rebug-reuse-"))
        self.addCleanup(shutil.rmtree, folder)
        return folder

    def seconds(self, *words: object) -> tuple[float, subprocess.CompletedProcess]:
        """The processor time of a call."""
        before = resource.getrusage(resource.RUSAGE_CHILDREN).ru_utime
        done = subprocess.run([sys.executable, REUSE, *words], stdin=subprocess.DEVNULL, capture_output=True)
        return resource.getrusage(resource.RUSAGE_CHILDREN).ru_utime - before, done

    def test_12_000_commands_with_300_inputs(self):
        """Four times as many commands take about four times as long."""
        taken = []
        for count in (3_000, 12_000):
            room = self.room()
            Written(room / "old", count, 300)
            Later(room / "new", count, 300, count // 10)
            seconds, done = self.seconds(room / "new", room / "old")
            taken.append(seconds)
            self.assertEqual((done.returncode, done.stderr), (4, b""))
            self.assertEqual(done.stdout.decode().splitlines()[:4], [
                f"{count:,} commands ran; of {count:,} it is not known how long",
                f"{count - count // 10:,} commands would have been served: earlier runs met the same",
                f"  rule r: {count - count // 10:,} commands, as o{count // 10} (build.ninja:{5 + count // 10})",
                f"{count // 10:,} commands met something else, and left what was there before"])
        self.assertLess(taken[1], 8 * taken[0] + 1, taken)

    def test_signals_and_readers_that_go_away(self):
        """An answer that nobody reads waits in its pipe; then a signal ends the call, or its reader goes away."""
        room = self.room()
        Written(room / "old", 2_000, 100)
        Later(room / "new", 2_000, 100, 200)
        words = [sys.executable, str(REUSE), str(room / "new"), str(room / "old"), "--json"]
        for number in (signal.SIGINT, signal.SIGTERM, signal.SIGHUP, signal.SIGKILL, None):
            process = subprocess.Popen(words, stdin=subprocess.DEVNULL, stdout=subprocess.PIPE, stderr=subprocess.PIPE)
            self.assertTrue(process.stdout.read(1_000).startswith(b'{"assumed": '))
            if number is None:
                process.stdout.close()
            else:
                builds.wait_until_asleep(process.pid)
                process.send_signal(number)
            said = process.stderr.read().decode()
            status = process.wait(timeout=builds.LONGEST_SECONDS)
            if number is None:
                self.assertEqual((status, said), (3, ""))
            elif number == signal.SIGKILL:
                self.assertEqual((status, said), (-9, ""))
            else:
                self.assertEqual((status, said), (128 + number, f"rebug reuse: ended by {number.name}\n"))
            process.stdout.close()
            process.stderr.close()
        with open("/dev/full", "wb") as full:
            done = subprocess.run(words, stdin=subprocess.DEVNULL, stdout=full, stderr=subprocess.PIPE, text=True)
        self.assertEqual(done.returncode, 3)
        self.assertRegex(done.stderr, r"\Arebug reuse: the answer cannot be written: [^\n]+\n\Z")


if __name__ == "__main__":
    unittest.main()
