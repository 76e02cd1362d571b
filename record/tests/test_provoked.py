"""Races made to happen by real Ninja, with a stand-in for the program that tells them; and that nothing is left
changed, also where a signal ends it at any moment."""

import contextlib
import fcntl
import os
import pathlib
import pty
import random
import signal
import subprocess
import sys
import tempfile
import time
import unittest

from builds import LONGEST_SECONDS, missing_tools, read_terminal, wait_until
from provoked import FAINT, GEN, NOBODY, PLANTED, PROVOKE, STAND_IN, USE, Made, Planted, python_for_all
from recorder.manifest import Manifest
from recorder.provoke.copies import Refused, in_copy
from recorder.provoke.in_place import OWN, put_back
from recorder.provoke.orders import waits, with_order
from recorder.provoke.races import NotAsked, Observed, Recording, name_of, shown_name
from recorder.provoke.words import BadWords, HelpWanted, Options, read_words

SEED = 7
# How many calls a signal ends, and how many at most where none of them was at work as it came.
RUNS, MOST_RUNS = 20, 200
FAILS_SO = 4
# The projects that leave files in another folder than those of build and sources.
ELSEWHERE = ("behind_a_link", "logs_elsewhere", "statement_elsewhere")
OURS = OWN.decode()


def why_no_copy():
    """Why this system makes no copies, or None."""
    with tempfile.TemporaryDirectory() as folder:
        try:
            in_copy([os.fsencode(os.path.realpath(folder))], lambda: None)
        except Refused as why:
            return f"this system makes no copies: {why}"
    return None


LACKING = missing_tools("ninja") or why_no_copy()


class Words(unittest.TestCase):
    def refused(self, *words):
        with self.assertRaises(BadWords) as caught:
            read_words(words)
        return str(caught.exception)

    def test_what_each_word_asks_for(self):
        self.assertEqual(read_words(["b", "r", "3"]), Options("b", "r", 3))
        self.assertEqual(read_words(["b", "--stale", "r", "--all", "--", "-v", "--all"]),
                         Options("b", "r", None, stale=True, for_ninja=["-v", "--all"]))
        self.assertEqual(read_words(["b", "r", "1", "--in-place", "--rebug", "p"]),
                         Options("b", "r", 1, in_place=True, rebug="p"))
        with self.assertRaises(HelpWanted) as caught:
            read_words(["-h"])
        self.assertIn("exit status:", str(caught.exception))

    def test_the_launcher_hands_its_words_on(self):
        launcher = pathlib.Path(PROVOKE).parent.parent / "rebug"
        done = [subprocess.run([*words, "--help"], capture_output=True, text=True) for words in
                ([launcher, "provoke"], [sys.executable, PROVOKE])]
        self.assertEqual(*((it.returncode, it.stdout, it.stderr) for it in done))
        self.assertEqual((done[0].returncode, done[0].stdout[:26]), (0, "usage: rebug provoke BUILD"))

    def test_words_that_are_not_taken_are_named(self):
        for words, said in ((["b"], "wants a build folder and a recording"), ([], "wants a build folder"),
                            (["b", "r"], "or --all"), (["b", "r", "1", "--all"], "or --all"),
                            (["b", "r", "0"], "from 1"), (["b", "r", "x"], "from 1"),
                            (["b", "r", "1", "--stal"], "--stal is not a word"),
                            (["b", "r", "1", "2"], "2 is not a word")):
            with self.subTest(words=words):
                self.assertIn(said, self.refused(*words))


class Orders(unittest.TestCase):
    """Where an order goes in a statement, and what a patch changes."""

    def test_an_order_stands_behind_the_statement(self):
        for before, after in (
                ("build a: r b\n", "build a: r b || x$ y\n"), ("build a: r b || c\n", "build a: r b || c x$ y\n"),
                ("build a: r b |@ v\n", "build a: r b || x$ y |@ v\n"),
                ("build a: r b || c |@ v\n", "build a: r b || c x$ y |@ v\n"),
                ("build a: r b|@ v\n", "build a: r b || x$ y |@ v\n"),
                ("build a: r b  \n  k = v\n", "build a: r b || x$ y  \n  k = v\n"),
                ("build a: r b\r\n", "build a: r b || x$ y\r\n"),
                ("build a: r $\n  b $\n\n", "build a: r $\n  b || x$ y $\n\n"),
                ("build a: r b$$\n", "build a: r b$$ || x$ y\n"),
                ("build a: r b||c\n", "build a: r b||c x$ y\n"), ("build a: r\n", "build a: r || x$ y\n")):
            with self.subTest(before=before):
                got = with_order(b"# first\n" + before.encode() + b"z = |@\n", 2, b"x y")
                self.assertEqual(got, b"# first\n" + after.encode() + b"z = |@\n")
        self.assertEqual(with_order(b"build a: r b | c", 1, b"x"), b"build a: r b | c || x")

    def test_who_waits(self):
        text = b"rule r\n  command = r\nbuild a: r |@ d\nbuild b: phony a\nbuild c: r || b\nbuild d: r\n"
        manifest = Manifest(b"build.ninja", lambda _: text)
        edge = manifest.producer.__getitem__
        self.assertTrue(waits(manifest, edge(b"c"), edge(b"a")))
        self.assertFalse(waits(manifest, edge(b"a"), edge(b"c")))
        self.assertFalse(waits(manifest, edge(b"a"), edge(b"d")))

    def test_names_and_observations(self):
        for name in (b"a b", b"\xff\\\t\x01$", b"plain"):
            self.assertEqual(name_of(shown_name(name)), name)
        found = Observed.read(b"rebug-observed 1\nby x\npath a\\sb\npath c\npath d\npath e\nedge a\\sb cut\nreads 1\n"
                              b"writes 0-3\nedits 2\nedge c\nwrites 9\n")
        self.assertEqual(found.left_by(b"a b"), [b"a b", b"e"])
        self.assertEqual(found.written_by(b"a b"), [b"a b", b"c", b"d", b"e"])
        self.assertEqual(found.left_by(b"c"), [])

    def test_an_observation_of_version_2(self):
        found = Observed.read(b"rebug-observed 2\nby x 6.1 x86-64\npath .\npath a\\sb 0\npath c 0\npath d 0\npath e 0\n"
                              b"path f 0\nninja\nleft 4\nedge a\\sb\nflag cut \\0 sh \\0\nread 2\nleft 1 4\nedited 3\n"
                              b"linked to\\sd 5\nedge c\ntaken 3\ntemps 4\nremoved 5\noutside 7\n"
                              b"edge d\nread 1-4294967295\nend 6 3 19 0\n")
        self.assertEqual(found.left_by(b"a b"), [b"a b", b"e", b"f"])
        self.assertEqual(found.written_by(b"a b"), [b"a b", b"d", b"e", b"f"])
        self.assertEqual(found.changed_by(b"c"), [b"d", b"f"])
        self.assertEqual(found.left_alone_by([b"a b"]), [b"a b"])
        self.assertEqual(found.leaving(b"e"), [b"a b"])
        many = b"".join(b"linked %d 0-4294967295\n" % it for it in range(10_000))
        found = Observed.read(b"".join(b"path %d\n" % it for it in range(10_000)) + b"edge f\n" + many)
        self.assertEqual(len(found.written_by(b"f")), 10_000)

    def test_an_observation_that_names_more_than_it_says(self):
        """Ten thousand commands that each leave ten thousand files, in a text of 200 kB; and ranges without an end."""
        lines = [b"rebug-observed 1", b"by test", *(b"path %d" % it for it in range(10_000))]
        lines += [b"edge e%d\nwrites 0-9999" % it for it in range(10_000)]
        found = Observed.read(b"\n".join([*lines, b"edge f\nwrites " + b"0-4294967295 " * 100_000]))
        self.assertEqual(found.left_alone_by([b"e1", b"e2"]), [])
        self.assertEqual((len(found.written_by(b"f")), len(found.leaving(b"7"))), (10_000, 10_001))


class Told(unittest.TestCase):
    """What a program that tells races may write."""

    EDGES = ('"maker": {"output": "v\\\\s.h", "file": "build.ninja", "line": 3}, '
             '"user": {"output": "m.o", "file": "sub/x.ninja", "line": 4}')

    def asked(self, text, status=4):
        with tempfile.TemporaryDirectory() as folder:
            program = pathlib.Path(folder) / "program"
            program.write_text(f"#!/bin/sh\ncat <<'END'\n{text}\nEND\nexit {status}\n")
            program.chmod(0o755)
            return Recording(str(program), folder).findings().races

    def test_races_of_a_build_that_passed_are_counted(self):
        lines = [f'{{"kind": "{kind}", "path": "v\\\\s.h", {self.EDGES}, "mend": "v\\\\s.h"}}' for kind in
                 ("race", "cycle", "own")]
        hints = [f'{{"kind": "hint", "path": "x", "output": "y", {self.EDGES}}}', '{"kind": "not judged", "user": {}}']
        found = self.asked("\n".join([lines[0], hints[0], lines[1], hints[1], lines[2]]))
        self.assertEqual([(it.number, it.kind) for it in found], [(1, "race"), (2, "cycle"), (3, "own")])
        it = found[0]
        self.assertEqual((it.path, it.maker, it.user, it.mend), (b"v .h", b"v .h", b"m.o", b"v .h"))
        self.assertEqual((it.maker_place, it.user_place), ("build.ninja:3", "sub/x.ninja:4"))

    def test_suspects_of_a_build_that_failed_have_numbers(self):
        lines = ['{"kind": "replayed", "refused": 0}', '{"kind": "failed", "user": {"output": "m.o"}, "at": 9}',
                 f'{{"kind": "race", "number": 1, "path": "w.h", {self.EDGES}, "mend": "w.h"}}',
                 f'{{"kind": "suspect", "number": 2, "path": "v.h", {self.EDGES}, "mend": "v.h"}}',
                 f'{{"kind": "suspect", "number": 3, "path": null, {self.EDGES}, "mend": null}}']
        for status in (4, 5):
            found = self.asked("\n".join(lines), status)
            self.assertEqual([(it.number, it.path, it.mend, it.is_told) for it in found],
                             [(1, b"w.h", b"w.h", True), (2, b"v.h", b"v.h", True), (3, b"v .h", None, False)])

    def test_what_is_no_answer_is_a_sentence(self):
        for text, status, due in (("", 1, (1, "")), ("", 2, (2, "")), ("", 9, (3, "it ended with 9")),
                                  ("no json", 0, (3, "is not understood"))):
            with self.assertRaises(NotAsked) as caught:
                self.asked(text, status)
            self.assertEqual((caught.exception.status, due[1] in str(caught.exception)), (due[0], True))
            self.assertEqual(not due[1], not str(caught.exception))  # what rebug has said is not said again


@unittest.skipIf(LACKING, LACKING)
class Provoked(unittest.TestCase):
    def made(self, name, planted=None):
        found = Made(name, planted or PLANTED[name])
        self.addCleanup(found.remove)
        return found

    def test_each_planted_race(self):
        for place, (name, planted) in enumerate(PLANTED.items()):
            for more in ([], ["--in-place"]) if place % 4 == 1 and name not in ELSEWHERE else ([],):
                with self.subTest(name=name, more=more):
                    it = self.made(name)
                    if name == "fails_in_any_order":
                        (it.build / "no").write_text("")
                    before = it.everything()
                    status, said = it.provoke(*more)
                    self.assertEqual((status, said.splitlines()[-1:]), (FAINT.get(name, 4), [planted.due]), said)
                    self.assertEqual(it.everything(), before)
                    if name not in FAINT:
                        self.assertIn("both: refused as a cycle, ", said)
                        self.assertRegex(said, r"(?m)^  mended \(.*\): built$")

    def test_in_place_nothing_elsewhere_is_moved(self):
        for name in ELSEWHERE:
            it = self.made(name)
            before = it.everything()
            status, said = it.provoke("--in-place")
            self.assertEqual((status, said.count("\n")), (2, 1), said)
            self.assertRegex(said, r"the build leaves files in .*/elsewhere(/logs)?, of which no copy is made")
            self.assertEqual(it.everything(), before)

    def test_with_the_mend_it_cannot_come_in_front(self):
        for name in ("order_only_missing", "maker_in_a_subninja", "odd_names", "statement_of_three_lines",
                     "maker_with_orders"):
            with self.subTest(name=name):
                it = self.made(name)
                user = next(e for e in self.manifest(it).edges if e.rule in (b"use", b"odd"))
                path = it.build / os.fsdecode(user.file)
                maker = b"v $v.h" if name == "odd_names" else b"v.h"
                path.write_bytes(with_order(path.read_bytes(), user.line, maker))
                before = it.everything()
                status, said = it.provoke()
                self.assertEqual(status, 0, said)
                self.assertIn("is another than the one that was recorded", said)
                self.assertIn("refused as a cycle, ", said)
                self.assertRegex(said, r"it is mended: the user waits for the maker, so it cannot come in front\n\Z")
                self.assertEqual(it.everything(), before)

    def manifest(self, it):
        return Manifest(b"build.ninja", lambda name: (it.build / os.fsdecode(name)).read_bytes())

    def test_a_stale_file_is_last_times(self):
        it = self.made("order_only_missing")
        self.assertEqual(it.provoke("--stale")[0], 0)  # last time's is this time's
        (it.build / "v.in").write_text("#define V 2\n")
        before = it.everything()
        for more in ([], ["--in-place"]):
            status, said = it.provoke("--stale", *more)
            self.assertEqual((status, said.splitlines()[-1]), (4, "it gives other bytes so"), said)
            self.assertIn("other bytes: m.o\n", said)
        self.assertEqual(it.everything(), before)

    def test_a_header_that_no_line_declares_needs_the_observation(self):
        """What the maker leaves beside its outputs goes, too, where it was observed."""
        text = ("rule both\n  command = cp v.in v.h && cp n.c x.h\nbuild v.h: both v.in\nbuild m.o: use m.c\n"
                "  reads = v.h x.h\n")
        observed = (b"rebug-observed 1\nby test\npath v.in\npath v.h\npath x.h\npath n.c\nedge v.h\nreads 0 3\n"
                    b"writes 1-2\n")
        it = self.made("beside", Planted(text, ["v.h"]))
        it.provoke()
        (it.build / "v.h").chmod(0o444)
        (it.recording / "observed").write_bytes(observed)
        status, said = it.provoke()
        self.assertEqual((status, "x.h: No such file" in said, "v.h: No such file" in said), (4, True, True), said)

    def test_all_of_them_and_a_table(self):
        text = (PLANTED["order_only_missing"].text + "build n.o: soft n.c\n  reads = v.h\n"
                "build o.o: soft n.c\n  reads = o.o\nbuild w.h: gen v.in | p.o\nbuild p.o: soft n.c\n  reads = w.h\n")
        it = self.made("several", Planted(text, ["v.h"]))
        before = it.everything()
        status, said = it.provoke("--all")
        lines = said.splitlines()
        self.assertEqual((status, lines[-1]), (4, "2 of 4 races were made to happen"), said)
        for line in ("   1  it fails so              v.h by v.h, used by m.o",
                     "   2  it gives other bytes so  v.h by v.h, used by n.o",
                     "   3  no order mends it        o.o by o.o, used by o.o",
                     "   4  no order mends it        w.h by w.h, used by p.o"):
            self.assertIn(line, lines)
        for number, why in (("3", "lists its own output"), ("4", "the maker waits for the user")):
            status, said = it.provoke(number)
            self.assertEqual((status, said.count("\n"), why in said), (2, 1, True), said)
        self.assertEqual(it.everything(), before)

    def test_a_race_that_cannot_be_tried_ends_not_the_others(self):
        """A file that is read twice has two edges at one line, so no line there puts one of them behind the user."""
        text = ("at = a\nsubninja sub/twice.ninja\nat = b\nsubninja sub/twice.ninja\n" + GEN + USE
                + "build n.o: use n.c\n  reads = a.h\n")
        it = self.made("twice", Planted(text, ["v.h", "a.h"], files={"sub/twice.ninja": "build $at.h: gen v.in\n"}))
        before = it.everything()
        status, said = it.provoke("--all")
        self.assertRegex(said, r"(?m)^ +1  nothing can be told +a.h by a.h, used by n.o$")
        self.assertRegex(said, r"(?m)^ +2  it fails so +v.h by v.h, used by m.o$")
        self.assertEqual((status, it.everything()), (4, before), said)
        status, said = it.provoke("1")
        self.assertEqual((status, said.count("\n")), (2, 1), said)

    def test_what_the_maker_waits_for_is_built_before(self):
        """A maker behind the true one is not it: with the true one there, the user does not fail."""
        text = ("rule list\n  command = cat $in w.h > $out && echo \"$out: $in v.h w.h\" > $out.d\n  depfile = $out.d\n"
                "  deps = gcc\nbuild w.h: gen v.in\nbuild v.h: gen w.h\nbuild n.o: list m.c\n")
        it = self.made("behind", Planted(text, ["v.h"]))
        for path in ("v.h", "w.h", "n.o"):
            (it.build / path).unlink()
        before = it.everything()
        status, said = it.provoke("--all")
        self.assertRegex(said, r"(?m)^ +\d  it fails so +w.h by w.h, used by n.o$")
        self.assertRegex(said, r"(?m)^ +\d  no difference seen +v.h by v.h, used by n.o$")
        self.assertEqual((status, it.everything()), (4, before))

    def test_at_a_terminal_a_line_tells_what_is_done(self):
        it = self.made("order_only_missing")
        outer, inner = pty.openpty()
        done = subprocess.run(it.words("--all"), stdin=subprocess.DEVNULL, stdout=subprocess.PIPE, stderr=inner,
                              text=True)
        os.close(inner)
        said = b""
        while data := read_terminal(outer):
            said += data
        os.close(outer)
        self.assertEqual(said.decode(), "".join(f"rebug provoke: race 1 of 1: {what} ..\r\x1b[K" for what in
                                       ("the user first", "mended", "both")))
        self.assertNotIn("\r", done.stdout)
        self.assertEqual(done.returncode, 4)

    def test_sound_projects(self):
        """A build without races stays as it is."""
        for name in ("order_only_missing", "group_lacks_it", "maker_in_a_subninja", "restat", "into_the_sources"):
            with self.subTest(name=name):
                planted = PLANTED[name]
                header = "../src/v.h" if planted.sources else "v.h"
                text = planted.text.replace("m.c\n", f"m.c | {header}\n").replace("m.c ||", f"m.c | {header} ||")
                it = self.made(name, Planted(text, planted.first, files=planted.files, sources=planted.sources))
                before = it.everything()
                self.assertEqual(it.provoke("--all"), (0, "no race\n"))
                status, said = it.provoke("1")
                self.assertEqual((status, said), (2, "rebug provoke: there is no race 1: the recording has 0\n"))
                self.assertEqual(it.everything(), before)

    def test_faults_are_one_sentence(self):
        it = self.made("order_only_missing")
        before = it.everything()
        self.assertEqual(it.provoke("2")[0], 2)
        for words, status, said in (
                ([it.room / "no", it.recording, "1"], 2, "is no folder"),
                ([it.build, it.room / "no", "1"], 2, "there is no recording"),
                ([it.source, it.recording, "1"], 2, "cannot read"),
                ([it.build, it.recording, "1", "--rebug", "/no/program"], 2, "cannot be run"),
                ([it.build, it.recording, "1", "--", "-n"], 2, "-n runs no command")):
            program = [] if "--rebug" in words else ["--rebug", STAND_IN]
            done = subprocess.run([sys.executable, PROVOKE, *program, *words], stdin=subprocess.DEVNULL,
                                  capture_output=True, text=True)
            self.assertEqual((done.returncode, done.stdout, done.stderr.count("\n")), (status, "", 1), done.stderr)
            self.assertIn(said, done.stderr)
        self.assertEqual(it.everything(), before)

    def test_an_answer_that_cannot_be_written(self):
        it = self.made("order_only_missing")
        with open("/dev/full", "wb") as full:
            done = subprocess.run(it.words(), stdin=subprocess.DEVNULL, stdout=full, stderr=subprocess.PIPE, text=True)
        self.assertEqual((done.returncode, done.stderr),
                         (3, "rebug provoke: cannot write the answer: No space left on device\n"))
        reader, writer = os.pipe()
        os.close(reader)
        done = subprocess.run(it.words(), stdin=subprocess.DEVNULL, stdout=writer, stderr=subprocess.PIPE, text=True)
        os.close(writer)
        self.assertEqual((done.returncode, done.stderr), (128 + signal.SIGPIPE, ""))

    def test_no_name_moves_a_cursor(self):
        it = self.made("order_only_missing")
        for name in (b"\x1b[2Jno", b"\xffno", b"\rno"):
            done = subprocess.run([sys.executable, PROVOKE, os.fsencode(it.room) + b"/" + name, it.recording, "1"],
                                  stdin=subprocess.DEVNULL, capture_output=True)
            self.assertEqual((done.returncode, done.stderr.count(b"\n")), (2, 1))
            self.assertTrue(done.stderr.strip().isascii() and b"\x1b" not in done.stderr and b"\r" not in done.stderr,
                            done.stderr)

    def test_where_copies_are_refused_a_sentence_says_so(self):
        it = self.made("order_only_missing")
        before = it.everything()
        lines = ["import os, sys", "sys.dont_write_bytecode = True", f"sys.path.insert(0, {str(PROVOKE.parent)!r})",
                 "from recorder.provoke import copies",
                 "def refuse(): raise copies.Refused('it allows no user namespaces')",
                 "copies._unshare = refuse", "from recorder.provoke.main import main", "sys.exit(main(sys.argv[1:]))"]
        words = [sys.executable, "-c", "\n".join(lines), *it.words()[2:]]
        done = subprocess.run(words, stdin=subprocess.DEVNULL, capture_output=True, text=True)
        self.assertEqual((done.returncode, done.stdout, done.stderr.count("\n")), (2, "", 1), done.stderr)
        self.assertIn("in which a build can be tried: it allows no user namespaces. Nothing was changed", done.stderr)
        self.assertIn("--in-place", done.stderr)
        self.assertEqual(it.everything(), before)
        self.assertEqual(subprocess.run([*words, "--in-place"], capture_output=True).returncode, 4)
        self.assertEqual(it.everything(), before)

    @unittest.skipIf(os.geteuid(), "only root can become nobody")
    def test_as_nobody(self):
        python = python_for_all()
        if python is None:
            self.skipTest("nobody cannot run Python here")
        for more in ([], ["--in-place"]):
            it = self.made("order_only_missing")
            subprocess.run(["chown", "-R", f"{NOBODY}:{NOBODY}", it.room], check=True)
            before = it.everything()
            status, said = it.provoke(*more, python=python, user=NOBODY, group=NOBODY, extra_groups=[])
            if "makes no copy" in said:
                self.skipTest(said)
            self.assertEqual((status, said.splitlines()[-1]), (4, "it fails so"), said)
            self.assertEqual(it.everything(), before)


@unittest.skipIf(LACKING, LACKING)
@unittest.skipIf(os.environ.get("REBUG_TESTS_WITH_ONE_NINJA") == "other", "done with the first Ninja")
class UnderSignals(unittest.TestCase):
    """Ended at random moments, twenty by each signal: what stands in the folders is what stood there."""

    def ended(self, number, status, *more):
        """Sends the signal at random moments; gives the statuses. `status` is that of a call which the signal ended at
        work. Where no moment was one of these, there are more of them: how long a call takes is the machine's."""
        slow = PLANTED["order_only_missing"].text.replace("build m.o", "build slow: link v.in\nbuild m.o")
        it = Made("slow", Planted(slow, ["v.h"]))
        self.addCleanup(it.remove)
        with contextlib.suppress(FileNotFoundError):
            (it.build / "sub").mkdir()
            (it.build / "sub/link").symlink_to("../m.c")
        before, dice = it.everything(), random.Random(SEED)
        begun = time.monotonic()
        it.provoke(*more)
        longest, statuses = time.monotonic() - begun, []
        self.assertEqual(it.everything(), before)
        while len(statuses) < RUNS or status not in statuses and len(statuses) < MOST_RUNS:
            process = subprocess.Popen(it.words(*more), stdin=subprocess.DEVNULL, stdout=subprocess.DEVNULL,
                                       stderr=subprocess.DEVNULL, start_new_session=True)
            delay = dice.uniform(0.05, longest)
            time.sleep(delay)
            process.send_signal(number)
            statuses.append(process.wait(LONGEST_SECONDS))
            if statuses[-1] == FAILS_SO:  # it had ended by itself: the first one took longer, on a machine at work
                longest = max(delay, 0.1)
            self.wait_until_put_back(it)
            if number == signal.SIGKILL:  # it may have come before the process began that puts things back
                put_back(os.fsencode(os.path.realpath(it.build)))
            self.assertEqual(it.everything(), before, f"{more} {statuses}")
        return statuses

    def wait_until_put_back(self, it):
        """Waits until no process is at work there any more: the one that puts things back has ended."""
        room = str(it.room).encode()
        wait_until(lambda: not any(room in self.words_of(it) for it in pathlib.Path("/proc").glob("[0-9]*")),
                   "a process goes on", every=0.02)

    def words_of(self, process):
        try:
            return (process / "cmdline").read_bytes()
        except OSError:
            return b""

    def test_interrupts(self):
        for more in ([], ["--in-place"]):
            statuses = self.ended(signal.SIGINT, 130, *more)
            self.assertLessEqual(set(statuses), {130, FAILS_SO, -2, 1}, more)  # 1 is that of a Python which is starting
            self.assertIn(130, statuses)

    def test_kills(self):
        for more in ([], ["--in-place"]):
            statuses = self.ended(signal.SIGKILL, -9, *more)
            self.assertLessEqual(set(statuses), {-9, FAILS_SO}, more)
            self.assertIn(-9, statuses)

    def test_what_was_left_by_a_kill_of_all_is_put_back_by_the_next_call(self):
        """Also where the process that puts things back was killed."""
        late = "rule late\n  command = sleep 60; cp $in $out\nbuild w.h: late v.in\n"
        slow = PLANTED["order_only_missing"].text + late
        for more in ([], ["--in-place"]):
            it = Made("left", Planted(slow, ["v.h"], own=["--", "app"]))
            manifest = (it.build / "build.ninja").read_text()
            (it.build / "build.ninja").write_text(manifest.replace("build v.h: gen v.in", "build v.h: gen v.in | w.h"))
            self.addCleanup(it.remove)
            before = it.everything()
            process = subprocess.Popen(it.words("--in-place"), stdin=subprocess.DEVNULL, stdout=subprocess.DEVNULL,
                                       stderr=subprocess.DEVNULL)
            wait_until(lambda it=it: (it.build / OURS / "working").exists(), "nothing is moved aside", every=0.02)
            keeper = self.child_of(process.pid)
            os.kill(keeper, signal.SIGKILL)
            process.kill()
            process.wait()
            self.wait_until_put_back(it)
            self.assertNotEqual(it.everything(), before)
            status, said = it.provoke("2", *more)
            self.assertEqual((status, "there is no race 2" in said), (2, True), said)
            self.assertEqual(it.everything(), before)

    def child_of(self, process):
        found = [line for line in pathlib.Path(f"/proc/{process}/task/{process}/children").read_text().split()]
        self.assertEqual(len(found), 1)
        return int(found[0])

    def test_two_do_not_work_in_one_place(self):
        it = Made("two", PLANTED["order_only_missing"])
        self.addCleanup(it.remove)
        before = it.everything()
        held = os.open(it.build, os.O_RDONLY)
        self.addCleanup(os.close, held)
        fcntl.flock(held, fcntl.LOCK_EX)
        status, said = it.provoke("--in-place")
        self.assertEqual((status, said.count("\n"), "another call works in" in said), (2, 1, True), said)
        self.assertEqual(it.everything(), before)


if __name__ == "__main__":
    unittest.main()
