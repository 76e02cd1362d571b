"""How a call of `rebug actions` can end: a bad recording gets a sentence, nothing that it names is opened, and time is
linear in what it says."""

from __future__ import annotations

import functools
import gc
import os
import pathlib
import random
import resource
import shutil
import signal
import subprocess
import sys
import tempfile
import unittest
import unittest.mock

import builds
from actions_builds import ACTIONS, Actions, Written, answered
from recorder.actions import recording
from recorder.actions.files import Files
from recorder.actions.judging import Judge
from recorder.rerun.lines import BadRecording
from rerun_builds import body
from shuffled import statement
from test_actions import Case

SEED, LINES = 23, 40
SOUND = statement("a", "cat in > a", "in") + statement("b", "cat a l > b; ls d > /dev/null", "a")
FILES = {"build/in": "in\n", "build/d/x": "", "build/l": ""}


@functools.cache
def sound() -> Actions:
    """A build that is recorded once, of which each test has a copy of the recording."""
    it = Actions(SOUND, FILES)
    it.record()
    return it


def tearDownModule() -> None:
    if sound.cache_info().currsize:
        sound().remove()
        sound.cache_clear()


class BadInput(Case):
    def copied(self) -> Actions:
        it = self.made("", {}, is_recorded=False)
        shutil.copytree(sound().out, it.out)
        return it

    def refused(self, it: Actions, said: str, *words: object, status: int = 2) -> None:
        """One sentence."""
        found = it.actions(*words)
        self.assertEqual((found.status, found.said.count("\n"), found.actions), (status, 1, {}), found.said)
        self.assertIn(said, found.said)
        self.assertTrue(found.said.startswith("rebug actions: "), found.said)

    def test_words(self):
        it = self.copied()
        self.refused(it, "the manifest has no command that makes nowhere", "nowhere")
        self.refused(it, "unrecognized arguments: --jso ", "--jso")
        for words, said in (([], "wants a recording"), ([str(it.room / "no")], "there is no recording at"),
                            ([str(it.room)], "has no contents")):
            done = subprocess.run([*it.words()[:2], *words], capture_output=True, text=True)
            self.assertEqual((done.returncode, done.stdout, done.stderr.count("\n")), (2, "", 1), done.stderr)
            self.assertIn(said, done.stderr)
        done = subprocess.run([*it.words()[:2], "--help"], capture_output=True, text=True)
        self.assertEqual((done.returncode, done.stderr), (0, ""))
        self.assertEqual(answered([*it.words()[:2], str(it.out / "build.ninja"), "--json"]).status, 4)

    def test_a_command_that_did_not_run(self):
        it = self.made(SOUND, FILES, is_recorded=False)
        it.record("a")
        self.refused(it, "the recording does not have the command that makes b", "b")
        self.assertEqual(list(it.actions().actions), ["a"])

    def test_files_that_are_missing_or_no_files(self):
        it = self.copied()
        for name, said in (("contents", "has no contents: record the build with --contents"),
                           ("observed", "has no contents: record the build with --contents"),
                           ("trace", "is no recording: it has no file trace"),
                           ("build.ninja", "is no recording: it has no file build.ninja")):
            kept = (it.out / name).read_bytes()
            (it.out / name).unlink()
            self.refused(it, said)
            os.mkfifo(it.out / name)
            self.refused(it, f"{name}: it is a pipe, and not a file")
            (it.out / name).unlink()
            (it.room / "secret").write_bytes(kept)
            (it.out / name).symlink_to(it.room / "secret")
            self.refused(it, f"{name}: it is a link, and not a file")
            (it.out / name).unlink()
            (it.out / name).write_bytes(kept)
        if os.geteuid():
            (it.out / "trace").chmod(0)
            self.refused(it, "cannot read", status=3)

    def test_an_observation_of_version_1(self):
        it = self.copied()
        (it.out / "observed").write_text("rebug-observed 1\nby ptrace\n")
        self.refused(it, "has no contents: record the build with --contents")

    def test_files_that_are_cut(self):
        it = self.copied()
        for name in ("observed", "contents"):
            data = (it.out / name).read_bytes()
            for text, said in ((data[:-1], "it is cut off"), (data[: len(data) // 2], "it is cut off"),
                               (data.replace(b"\nedge ", b"\nEdge ", 1), "the digest in its last line is not that"),
                               (b"rebug-other 1\n" + data, "it does not begin with")):
                (it.out / name).write_bytes(text)
                self.refused(it, f"rebug actions: {name}:")
                self.refused(it, said)
            (it.out / name).write_bytes(data)

    def test_lines_that_say_nothing(self):
        it = self.copied()
        contents, observed = (body((it.out / name).read_bytes()) for name in ("contents", "observed"))
        for old, new, said in ((b"\nedge 0\n", b"\nedge 99\n", "a number that stands for nothing"),
                               (b"\nedge 0\n", b"\nedge 1\nedge 0\n", "numbers that do not rise"),
                               (b"\nread 0", b"\nread 99999999", "a number that stands for nothing"),
                               (b"\nedge 0\n", b"\nedge 0\nwrites 0\n", "a line that may not stand there")):
            self.assertIn(old, contents)
            it.rewrite(contents=contents.replace(old, new, 1))
            self.refused(it, said)
            self.refused(it, "rebug actions: contents:")
        for old, new, said in ((b"\nedge a\n", b"\nedge nowhere\n", "a command that the manifest does not have"),
                               (b"\nread ", b"\nread 99999 ", "a number that stands for nothing"),
                               (b"\npath in 0", b"\npath in 99", "a number that stands for nothing"),
                               (b"\npath in 0", b"\npath in\\q 0", "an escape that stands for nothing")):
            self.assertIn(old, observed)
            it.rewrite(observed=observed.replace(old, new, 1))
            self.refused(it, said)
            self.refused(it, "rebug actions: observed:")
        it.rewrite(observed=observed)

    def test_lines_of_the_other_files(self):
        it = self.copied()
        for name, text, said in (("trace", b"start nowhere 0\n", "trace:1: a command that the manifest does not have"),
                                 ("trace", b"finish a 1 depfile x\n", "trace:1: a depfile that is not understood"),
                                 ("filters", b"x\na//b\n", "filters:2: a part of the pattern is empty"),
                                 ("filters", b"x" * 20_000, "filters: it has more than 16384 bytes"),
                                 ("names", b"rebug-names 1\na\\q b\n", "names:2: an escape that stands for nothing"),
                                 ("build.ninja", b"build a: nothing\n", "build.ninja:1: unknown rule nothing"),
                                 ("build.ninja", b"\nbuild a\n", "build.ninja:2: expected ':'")):
            kept = (it.out / name).read_bytes() if (it.out / name).exists() else None
            (it.out / name).write_bytes(text)
            self.refused(it, said)
            if kept is None:
                (it.out / name).unlink()
            else:
                (it.out / name).write_bytes(kept)

    def test_a_manifest_that_leads_out_of_the_recording(self):
        it = self.copied()
        kept = (it.out / "build.ninja").read_bytes()
        (it.room / "secret").write_text("x = 1\n")
        (it.out / "folder").symlink_to("..")
        for path in (str(it.room / "secret"), "../secret", "a/../../secret", "/etc/passwd"):
            (it.out / "build.ninja").write_bytes(b"include " + path.encode() + b"\n" + kept)
            self.refused(it, "no file of a recording has this name")
        (it.out / "build.ninja").write_bytes(b"include folder/secret\n" + kept)
        self.refused(it, "folder/secret: a link or a file is on the way to it")
        (it.out / "build.ninja").write_bytes(kept)
        (it.out / "ninja").write_bytes(b"rebug-ninja 1\nmanifest ../secret\n")
        self.refused(it, "no file of a recording has this name")

    def test_texts_that_are_dear_for_their_size(self):
        """Values that double, files that include each other, and blocks that each name all."""
        it = self.copied()
        kept = (it.out / "build.ninja").read_bytes()
        doubled = "a0 = " + "x" * 1000 + "\n" + "".join(f"a{n + 1} = $a{n}$a{n}\n" for n in range(60))
        rule = "rule d\n" + "".join(f"  b{n + 1} = $b{n}$b{n}\n" for n in range(60)) + "  command = $b60\n"
        for text in (doubled, "include build.ninja\n", "subninja build.ninja\nsubninja build.ninja\n",
                     rule + "build x: d\n"):
            (it.out / "build.ninja").write_bytes(text.encode() + kept.replace(b"command = $c", b"command = $b60"))
            found = it.actions()
            self.assertNotIn("Traceback", found.said)
            self.assertEqual((found.status, found.said.count("\n")), (2, 1) if text[0] != "r" else (4, 0), found.said)
        (it.out / "build.ninja").write_bytes(kept)
        with unittest.mock.patch.object(recording, "_MOST_LOOKS", 5):
            with self.assertRaisesRegex(BadRecording, "the recording says of more than 5 looks and names in all"):
                list(Judge(recording.Recording(Files(str(it.out)))).actions(None))

    def test_a_folder_is_closed_once_nobody_reads_it(self):
        before = len(os.listdir("/proc/self/fd"))
        files = Files(str(sound().out))
        self.assertEqual(len(os.listdir("/proc/self/fd")), before + 1)
        del files
        gc.collect()
        self.assertEqual(len(os.listdir("/proc/self/fd")), before)

    def test_lines_by_chance(self):
        """Each answer to a recording in which lines are others is an answer or a sentence."""
        it, chance = self.copied(), random.Random(SEED)
        whole = {name: body((it.out / name).read_bytes()) for name in ("observed", "contents")}
        others = {name: (it.out / name).read_bytes() for name in ("trace", "build.ninja")}
        for _ in range(LINES):
            name = chance.choice((*whole, *others))
            lines = {**whole, **others}[name].splitlines(keepends=True)
            at, other = chance.randrange(1, len(lines)), chance.randrange(1, len(lines))
            kind = chance.randrange(4)
            if kind == 0:
                del lines[at]
            elif kind == 1:
                lines[at], lines[other] = lines[other], lines[at]
            elif kind == 2:
                lines.insert(at, lines[other])
            else:
                lines[at] = lines[at].replace(b" ", b" 7", 1)
            if name in whole:
                it.rewrite(**{name: b"".join(lines)})
            else:
                (it.out / name).write_bytes(b"".join(lines))
            found = it.actions()
            self.assertIn(found.status, (0, 2, 4), found)
            self.assertNotIn("Traceback", found.said)
            it.rewrite(**whole)
            for name, data in others.items():
                (it.out / name).write_bytes(data)

    def test_names_from_a_terminal_s_view(self):
        """Control characters of a recording do not reach the terminal as they are."""
        it = self.made(statement("a", "cat x* > a"), {"build/x\x1b[31m": "x"})
        self.assertIn(r"  read x\x1b[31m", it.told()[1])
        self.assertEqual(it.actions().all_undeclared(), {"a": [".", r"x\x1b[31m"]})


class Large(unittest.TestCase):
    def room(self) -> pathlib.Path:
        folder = pathlib.Path(tempfile.mkdtemp(prefix="rebug-actions-"))
        self.addCleanup(shutil.rmtree, folder)
        return folder

    def seconds(self, folder: pathlib.Path, *words: str) -> tuple[float, subprocess.CompletedProcess]:
        """The processor time of a call."""
        before = resource.getrusage(resource.RUSAGE_CHILDREN).ru_utime
        done = subprocess.run([sys.executable, ACTIONS, folder, *words], stdin=subprocess.DEVNULL, capture_output=True)
        return resource.getrusage(resource.RUSAGE_CHILDREN).ru_utime - before, done

    def test_20_000_commands_with_300_inputs(self):
        """Four times as many commands take about four times as long."""
        for is_phony in (False, True):
            taken = []
            for count in (5_000, 20_000):
                folder = self.room() / "out"
                Written(folder, count, 300, is_phony)
                seconds, done = self.seconds(folder)
                taken.append(seconds)
                lines = done.stdout.decode().splitlines()
                self.assertEqual((done.returncode, len(lines), done.stderr), (4, 3 + count // 50, b""), lines[:3])
                self.assertEqual(lines[:3], [
                    f"{count // 100} of {count:,} commands met files of the project that they do not declare",
                    "o0 (build.ninja:" + f"{5 + is_phony}) met 1 that it does not declare", "  read more"])
                self.assertIn("302 files (3,020 bytes) of the project, 0 files (0 bytes) of the system", lines[-1])
            self.assertLess(taken[1], 8 * taken[0] + 1, taken)

    def test_signals_and_readers_that_go_away(self):
        """An answer that nobody reads waits in its pipe; then a signal ends the call, or its reader goes away."""
        folder = self.room() / "out"
        Written(folder, 2_000, 300)
        words = [sys.executable, str(ACTIONS), str(folder), "--json"]
        for number in (signal.SIGINT, signal.SIGTERM, signal.SIGHUP, signal.SIGKILL, None):
            process = subprocess.Popen(words, stdin=subprocess.DEVNULL, stdout=subprocess.PIPE, stderr=subprocess.PIPE)
            self.assertTrue(process.stdout.read(1_000).startswith(b'{"build": '))
            if number is None:
                process.stdout.close()
            else:
                builds.wait_until_asleep(process.pid)
                process.send_signal(number)
            said = process.stderr.read().decode()
            status = process.wait(timeout=builds.LONGEST_SECONDS)
            if number is None:
                self.assertEqual((status, said), (3, ""))
            elif number == signal.SIGKILL:
                self.assertEqual((status, said), (-9, ""))
            else:
                self.assertEqual((status, said), (128 + number, f"rebug actions: ended by {number.name}\n"))
            process.stdout.close()
            process.stderr.close()
        with open("/dev/full", "wb") as full:
            done = subprocess.run(words, stdin=subprocess.DEVNULL, stdout=full, stderr=subprocess.PIPE, text=True)
        self.assertEqual(done.returncode, 3)
        self.assertRegex(done.stderr, r"\Arebug actions: the answer cannot be written: [^\n]+\n\Z")

    def test_a_group_that_many_commands_wait_for(self):
        """Each phony statement is looked through once."""
        folder = self.room() / "out"
        Written(folder, 100, 300, is_phony=True)
        chain = "".join(f"build p{it}: phony p{it + 1} h{it}\n" for it in range(30_000))
        manifest = folder / "build.ninja"
        manifest.write_text(chain + manifest.read_text().replace(" || group", " || p0"))
        seconds, done = self.seconds(folder)
        self.assertEqual((done.returncode, done.stderr), (4, b""))
        self.assertLess(seconds, 20)


if __name__ == "__main__":
    unittest.main()
