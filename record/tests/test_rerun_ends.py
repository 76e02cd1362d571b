"""How a call of `rebug rerun` can end: bad input gets a sentence and nothing runs, and whatever ends a call nothing of
it is left."""

from __future__ import annotations

import contextlib
import os
import pathlib
import pty
import random
import shutil
import signal
import subprocess
import unittest
import uuid

import builds
from builds import wait_until
from rerun_builds import Rerun, body
from shuffled import statement
from test_rerun import Case
from test_shuffle_ends import MARK, processes

SEED, LINES = 11, 10
SOUND = statement("a", "cat in > a", "in") + statement("b", "cat a > b; ls d > /dev/null", "a")
FILES = {"build/in": "in\n", "build/d/x": ""}


class BadInput(Case):
    def refused(self, it: Rerun, said: str, *words: object, **how: object) -> None:
        """One sentence, and no command has run."""
        before = it.everything()
        found = it.rerun(*words, **how)
        self.assertEqual((found.status, found.said.count("\n"), found.commands), (2, 1, {}), found.said)
        self.assertIn(said, found.said)
        self.assertTrue(found.said.startswith("rebug rerun: "), found.said)
        self.assertEqual(it.everything(), before)

    def test_words_and_folders(self):
        it = self.made(SOUND, FILES)
        self.refused(it, "the manifest has no command that makes nowhere", "nowhere")
        self.refused(it, "so many seconds", "--limit", "0")
        self.refused(it, "unrecognized arguments: --stamp ", "--stamp")
        self.refused(it, "cannot read", "-f", "other")
        for words, said in (([], "wants a build folder"), ([str(it.build)], "wants a build folder"),
                            ([str(it.build), str(it.room / "no")], "there is no recording at"),
                            ([str(it.room / "no"), str(it.out)], "is no folder"),
                            ([str(it.room), str(it.out)], "the recording is of a build in"),
                            ([str(it.build), str(it.room)], "has no file observed")):
            done = subprocess.run([*it.words()[:2], *words], capture_output=True, text=True)
            self.assertEqual((done.returncode, done.stdout, done.stderr.count("\n")), (2, "", 1), done.stderr)
            self.assertIn(said, done.stderr)
        self.assertEqual(subprocess.run([*it.words()[:2], "--help"], capture_output=True).returncode, 0)

    def test_recordings_without_contents(self):
        it = self.made(SOUND, FILES)
        (it.out / "contents").unlink()
        self.refused(it, "has no contents: record the build with --contents")
        (it.out / "observed").unlink()
        self.refused(it, "is no recording that was made with --contents: it has no file observed")
        os.mkfifo(it.out / "observed")
        self.refused(it, "observed: it is a pipe, and not a file")

    def test_files_that_are_not_whole(self):
        it = self.made(SOUND, FILES)
        for name in ("observed", "contents"):
            data = (it.out / name).read_bytes()
            for text, said in ((data[:-1], "it is cut off"), (data[: len(data) // 2], "it is cut off"),
                               (data.replace(b"\nedge ", b"\nEdge ", 1), "the digest in its last line is not that"),
                               (b"rebug-other 1\n" + data, "it does not begin with")):
                (it.out / name).write_bytes(text)
                self.refused(it, f"rebug rerun: {name}:")
                self.refused(it, said)
            (it.out / name).write_bytes(data)

    def test_an_observation_of_another_build(self):
        it, other = self.made(SOUND, FILES), self.made(statement("a", "cat in > a"), FILES)
        shutil.copy(other.out / "observed", it.out / "observed")
        self.refused(it, "contents: it is of another file `observed`")

    def test_lines_that_say_nothing(self):
        it = self.made(SOUND, FILES)
        contents = body((it.out / "contents").read_bytes())
        for old, new, said in ((b"\nby sha256\n", b"\nby md5\n", "its digests are of a kind"),
                               (b"\nbuild /", b"\nbuild /\nbuild /", "`build` does not stand there once"),
                               (b"\nedge 0\n", b"\nedge 99\n", "a number that stands for nothing"),
                               (b"\nread 0", b"\nread 99999999", "a number that stands for nothing"),
                               (b"\nread 0", b"\nread 0 0 0", "numbers that do not rise"),
                               (b"\npath ", b"\npath 0 a/b\npath ", "a name that no entry of a folder has"),
                               (b"\npath ", b"\npath 0 ..\npath ", "a name that no entry of a folder has"),
                               (b"\nversion ", b"\nversion 0 x y\nversion ", "a size that is no number"),
                               (b"\nversion ", b"\nversion 0\nversion ", "a content with other fields"),
                               (b"\nedge 0\n", b"\nedge 0\nwrites 0\n", "a line that may not stand there")):
            self.assertIn(old, contents)
            it.rewrite(contents=contents.replace(old, new, 1))
            self.refused(it, said)
        it.rewrite(contents=contents.replace(b"\nbuild " + os.fsencode(it.build), b"\nbuild /", 1))
        self.refused(it, "is no path of a folder that can be emptied")

    def test_lines_by_chance(self):
        """Each answer to a recording in which lines are others is an answer or a sentence, and nothing is changed."""
        it, chance = self.made(SOUND, FILES), random.Random(SEED)
        whole = {name: body((it.out / name).read_bytes()) for name in ("observed", "contents")}
        for _ in range(LINES):
            name = chance.choice(("observed", "contents"))
            lines = whole[name].splitlines(keepends=True)
            at, other = chance.randrange(1, len(lines)), chance.randrange(1, len(lines))
            kind = chance.randrange(4)
            if kind == 0:
                del lines[at]
            elif kind == 1:
                lines[at], lines[other] = lines[other], lines[at]
            elif kind == 2:
                lines.insert(at, lines[other])
            else:
                lines[at] = lines[at].replace(b" ", b" 7", 1)
            it.rewrite(**{name: b"".join(lines)})
            before = it.everything()
            found = it.rerun("a")
            self.assertIn(found.status, (0, 2, 4, 5), found)
            self.assertNotIn("Traceback", found.said)
            self.assertEqual(it.everything(), before)
            it.rewrite(**whole)

    def test_a_system_that_makes_no_namespaces(self):
        """By a filter of calls, as a container has it: unshare is refused."""
        it = self.made(SOUND, FILES)
        compiler = shutil.which("cc") or shutil.which("gcc")
        if not compiler:
            self.skipTest("not on this machine: cc")
        source = pathlib.Path(__file__).parent / "programs/deny_unshare.c"
        subprocess.run([compiler, "-o", it.room / "deny", source], check=True)
        done = subprocess.run([it.room / "deny", *it.words()], capture_output=True, text=True)
        self.assertEqual((done.returncode, done.stdout, done.stderr.count("\n")), (2, "", 1), done.stderr)
        self.assertIn("this system makes no copy of a folder in which a command can be run: it allows no namespaces", done.stderr)


class Ends(Case):
    def made_slow(self) -> Rerun:
        """A command that waits without an end where it is run again, since the file is not there by which it ends."""
        it = self.made(statement("slow", "test -e in && cat in > slow || sleep 1000") + SOUND, FILES)
        it.forget("slow", "in")
        return it

    def test_signals_while_a_command_runs(self):
        it = self.made_slow()
        for number in (signal.SIGINT, signal.SIGTERM, signal.SIGHUP, signal.SIGKILL):
            mark, before = str(uuid.uuid4()), it.everything()
            process = subprocess.Popen(it.words(), stdin=subprocess.DEVNULL, stdout=subprocess.DEVNULL,
                                       stderr=subprocess.PIPE, text=True, env={**os.environ, MARK: mark},
                                       start_new_session=True)
            wait_until(lambda: self.is_asleep(mark), "no command is run")
            process.send_signal(number)
            said = process.communicate()[1]
            self.assertEqual(process.returncode, -9 if number == signal.SIGKILL else 128 + number, said)
            self.assertEqual(said, "" if number == signal.SIGKILL else
                             f"rebug rerun: ended by {signal.Signals(number).name}\n")
            wait_until(lambda: not processes(mark), "processes of an ended call do not end")
            self.assertEqual(it.everything(), before, number)
            self.assertNotIn(str(it.room), pathlib.Path("/proc/self/mounts").read_text())

    def is_asleep(self, mark: str) -> bool:
        """Whether the command that waits runs."""
        for process in processes(mark):
            with contextlib.suppress(OSError):
                if b"sleep\x001000" in pathlib.Path("/proc", str(process), "cmdline").read_bytes():
                    return True
        return False

    def test_a_terminal_is_shown_how_far_it_is(self):
        it = self.made_slow()
        mark = str(uuid.uuid4())
        ours, theirs = pty.openpty()
        process = subprocess.Popen(it.words(), stdin=subprocess.DEVNULL, stdout=subprocess.DEVNULL, stderr=theirs,
                                   env={**os.environ, MARK: mark}, start_new_session=True)
        os.close(theirs)
        said = b""
        while b" of 3 commands, " not in said:
            said += os.read(ours, 4096)
        process.send_signal(signal.SIGTERM)
        self.assertEqual(process.wait(timeout=builds.LONGEST_SECONDS), 128 + signal.SIGTERM)
        wait_until(lambda: not processes(mark), "processes of an ended call do not end")
        os.close(ours)


if __name__ == "__main__":
    unittest.main()
