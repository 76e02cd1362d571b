"""How a call of `rebug causes` can end: a bad recording gets a sentence, nothing that it names is opened, and time is
linear in the recordings."""

from __future__ import annotations

import os
import random
import subprocess
import sys
import time
import unittest
import unittest.mock

from causes_recordings import CAUSES, Command, Recording, answered, called, ended, told
from recorder.actions.files import Unreadable
from recorder.causes.words import BadWords, HelpWanted
from recorder.rerun.lines import BadRecording
from recorder.reuse import recording
from test_causes import Written, chain

SEED, LINES = 31, 60
COMMANDS = 300


class BadInput(Written):
    def setUp(self) -> None:
        super().setUp()
        self.pair(chain("1"), chain("2"))

    def refused(self, said: str, *words: object) -> None:
        """A recording gets a sentence, in both places."""
        for names in (("one", "two"), ("two", "one")):
            with self.assertRaises(BadRecording) as why:
                told(*names, *words)
            self.assertIn(said, str(why.exception))

    def test_words(self):
        for words, said in (((), "wants two recordings"), (("one",), "wants two recordings"),
                            (("one", "two", "three"), "wants two recordings"),
                            (("one", "two", "--wy", "app"), "unrecognized arguments: --wy"),
                            (("one", "two", "--why"), "expected one argument"),
                            (("one", "two", "--files", "one"), "expected 2 arguments"),
                            (("one", "two", "--files", "one", "nowhere"), "--files wants two folders, and nowhere is")):
            with self.assertRaises(BadWords) as why:
                told(*words)
            self.assertIn(said, str(why.exception))
        with self.assertRaises(HelpWanted) as help_wanted:
            told("--help")
        self.assertTrue(str(help_wanted.exception).startswith("usage: rebug causes RECORDING OTHER"))
        self.assertEqual(answered("one/build.ninja", "two/trace").of("first cause"), {"number"})

    def test_outputs_that_are_not_there(self):
        for it in ("nothing", "gen.py", "", "../x", "a/b", "\0"):
            with self.assertRaisesRegex(BadRecording, "no command that ran in both builds left"):
                told("one", "two", "--why", it)
        manifest = self.room / "one/build.ninja"
        manifest.write_text(manifest.read_text() + "build all: phony app\n")
        with self.assertRaisesRegex(BadRecording, "no command that ran in both builds left all"):
            told("one", "two", "--why", "all")

    def test_recordings_that_are_not_there(self):
        for names in (("one", "no"), ("no", "two")):
            with self.assertRaisesRegex(BadRecording, "there is no recording at no"):
                told(*names)
        with self.assertRaisesRegex(BadRecording, "is no recording: it has no file build.ninja"):
            told("one", ".")

    def test_files_that_are_missing_or_not_files(self):
        for name, said in (("contents", "has no contents: record the build with --contents"),
                           ("observed", "has no contents: record the build with --contents"),
                           ("trace", "is no recording: it has no file trace")):
            path = self.room / "two" / name
            kept = path.read_bytes()
            path.unlink()
            self.refused(said)
            os.mkfifo(path)
            self.refused(f"{name}: it is a pipe, and not a file")
            path.unlink()
            (self.room / "secret").write_bytes(kept)
            path.symlink_to(self.room / "secret")
            self.refused(f"{name}: it is a link, and not a file")
            path.unlink()
            path.write_bytes(kept)

    def test_files_that_are_cut(self):
        for name in ("observed", "contents"):
            path = self.room / "two" / name
            data = path.read_bytes()
            for text, said in ((data[:-1], "it is cut off"), (data[: len(data) // 2], "it is cut off"),
                               (data.replace(b"\nedge ", b"\nEdge ", 1), "the digest in its last line is not that"),
                               (b"rebug-other 1\n" + data, "it does not begin with")):
                path.write_bytes(text)
                self.refused(f"two: {name}:")
                self.refused(said)
            path.write_bytes(data)

    def test_contents_of_another_observation(self):
        (self.room / "two/contents").write_bytes((self.room / "one/contents").read_bytes())
        other = chain("2")
        other[0].missing, other[0].there = [], ["local.py"]
        (self.room / "two/observed").write_text(Recording(other).observed())
        self.refused("contents: it is of another file `observed`")

    def test_lines_that_say_nothing(self):
        path = self.room / "two/contents"
        whole = path.read_text().splitlines()[:-1]
        at = next(at for at, it in enumerate(whole) if it.startswith("edge "))
        for line, said in (("changed 99", "a number that stands for nothing"), ("changed", "no number"),
                           ("changed 1 0", "numbers that do not rise"), ("changed x", "a number that stands for nothing"),
                           ("version 99 1 " + "0" * 64, "a number that stands for nothing"),
                           ("version 0 x " + "0" * 64, "a size that is no number"),
                           ("names 0 1", "a content with other fields"), ("path 99 x", "a number that stands for"),
                           ("path 0 ..", "a name that no entry of a folder has"),
                           ("edge 99", "a number that stands for nothing")):
            path.write_text(ended([*whole[:at], line, *whole[at:]], 0, 0))
            self.refused(f"two: contents:{at + 1}: {said}")

    def test_lines_by_chance(self):
        """Each answer to a recording in which lines are others is an answer or a sentence."""
        by_chance = random.Random(SEED)
        names = ("observed", "contents", "trace", "build.ninja", "filters")
        whole = {name: (self.room / "two" / name).read_bytes() for name in names}
        for _ in range(LINES):
            name = by_chance.choice(names[:4])
            lines = whole[name].decode().splitlines()
            last = lines.pop() if name in ("observed", "contents") else None
            at, other = by_chance.randrange(1, len(lines)), by_chance.randrange(1, len(lines))
            kind = by_chance.randrange(4)
            if kind == 0:
                del lines[at]
            elif kind == 1:
                lines[at], lines[other] = lines[other], lines[at]
            elif kind == 2:
                lines.insert(at, lines[other])
            else:
                lines[at] = lines[at].replace(" ", " 7", 1)
            text = "".join(f"{it}\n" for it in lines) if last is None else ended(lines, 0, 0)
            (self.room / "two" / name).write_text(text)
            if name == "observed":
                contents = whole["contents"].decode().splitlines()[:-1]
                contents[2] = f"of {text.split()[-1]}"
                (self.room / "two/contents").write_text(ended(contents, 0, 0))
            for pair in (("one", "two"), ("two", "one")):
                try:
                    self.assertIn(answered(*pair).status, (0, 4, 5))
                    told(*pair, "--all")
                except (BadRecording, Unreadable):
                    pass
            for it, data in whole.items():
                (self.room / "two" / it).write_bytes(data)

    def test_texts_that_are_dear_for_their_size(self):
        with unittest.mock.patch.object(recording, "_MOST_LOOKS", 5):
            self.refused("says of more than 5 looks and names in all")

    def test_names_from_a_terminal_s_view(self):
        """Control characters of a recording do not reach the terminal as they are."""
        one, two = ([Command("a", read={"x\x1b[31m": it}, left={"a": it})] for it in "12")
        self.pair(one, two)
        self.assertFalse([it for it in self.words() if "\x1b" in it])
        self.assertIn(r"    a (build.ninja:3): x\x1b[31m differs", self.words())
        self.assertEqual(self.answer().differs("a"), [r"x\x1b[31m"])


class Processes(Written):
    def test_statuses_of_a_process(self):
        self.pair(chain("1"), chain("2"))
        found = called(self.room, "one", "two")
        self.assertEqual((found.status, found.said, found.of("first cause")), (4, "", {"number"}))
        found = called(self.room, "one", "nowhere")
        self.assertEqual((found.status, found.said), (2, "rebug causes: nowhere: there is no recording at nowhere\n"))
        with open("/dev/full", "wb") as full:
            done = subprocess.run([sys.executable, str(CAUSES), "one", "two"], stdin=subprocess.DEVNULL, stdout=full,
                                  stderr=subprocess.PIPE, text=True, check=False)
        self.assertEqual(done.returncode, 3)
        self.assertRegex(done.stderr, r"\Arebug causes: the answer cannot be written: [^\n]+\n\Z")


class Large(Written):
    def test_four_times_as_many_commands_take_about_four_times_as_long(self):
        taken = []
        for count in (COMMANDS, 4 * COMMANDS):
            headers = {f"h{it}": "h" for it in range(100)}
            one, two = ([Command("n", left={"n": number}),
                         *(Command(f"o{it}", read={**headers, "n": number}, left={f"o{it}": number if it % 2 else "o"})
                           for it in range(count))] for number in "12")
            self.pair(one, two)
            before = time.process_time()
            status, lines = told("one", "two", "--json")
            taken.append(time.process_time() - before)
            self.assertEqual((status, len(lines)), (4, count + 2))
        self.assertLess(taken[1], 8 * taken[0] + 1, taken)


if __name__ == "__main__":
    unittest.main()
