"""The recorder's own words: what each asks for, the sentence for those that it does not take, and the text of help."""

import contextlib
import os
import pathlib
import subprocess
import sys
import unittest

import builds
from recorder.options import BadOptions, Checking, HelpWanted, Options, read_words


class Words(unittest.TestCase):
    def refused(self, *words):
        with self.assertRaises(BadOptions) as caught:
            read_words(words)
        return str(caught.exception)

    def test_folders_and_words_may_be_mixed(self):
        self.assertEqual(read_words(["b", "--lanes", "-j4", "o", "--verbose"]),
                         Options("b", "o", ["-j", "4"], lanes=True, verbose=True))
        self.assertEqual(read_words(["-j", "8", "b", "--jobs-as-run", "o", "--force", "--anyway"]),
                         Options("b", "o", ["-j", "8"], jobs_as_run=True, force=True, anyway=True))

    def test_whose_output_is_kept(self):
        self.assertEqual(read_words(["b", "o"]).output, "failed")
        for what in ("none", "failed", "all"):
            self.assertEqual(read_words(["b", "--output", what, "o"]), Options("b", "o", output=what))
        self.assertIn("--output", self.refused("b", "o", "--output", "some"))

    def test_what_stands_behind_two_dashes_is_for_ninja(self):
        self.assertEqual(read_words(["b", "o", "-j1", "--", "--check", "-v", "--", "--help"]),
                         Options("b", "o", ["-j", "1", "--check", "-v", "--", "--help"]))

    def test_a_check_names_one_recording(self):
        self.assertEqual(read_words(["--check", "o"]), Checking("o"))
        self.assertEqual(read_words(["o", "--rebug", "p", "--check"]), Checking("o", "p"))
        self.assertIn("OUT_DIR", self.refused("--check"))
        self.assertIn("q does not go with --check", self.refused("--check", "o", "q"))
        self.assertIn("--lanes does not go with --check", self.refused("--check", "o", "--lanes"))

    def test_words_that_are_not_taken_are_named(self):
        for words, said in ((["b", "o", "--lane"], "--lane is not a word"), (["b", "o", "-k0"], "-k0 is not a word"),
                            (["b", "o", "--lanes=2"], "--lanes"), (["b", "o", "--rebug", "p"], "--rebug goes with"),
                            (["b"], "OUT_DIR"), ([], "BUILD_DIR, OUT_DIR"),
                            (["b", "o", "all", "x"], "as in `-- all x`")):
            with self.subTest(words=words):
                self.assertIn(said, self.refused(*words))

    def test_a_number_of_jobs_is_digits(self):
        for words in (["-j"], ["-jx"], ["-j", "-4"], ["-j="], ["-j", "\u0663"]):
            with self.subTest(words=words):
                self.assertIn("-j", self.refused("b", "o", *words))

    def test_help_tells_each_word(self):
        for words in (["--help"], ["-h"], ["b", "o", "--help"], ["--check", "-h"]):
            with self.subTest(words=words), self.assertRaises(HelpWanted) as caught:
                read_words(words)
            for word in ("--lanes", "--jobs-as-run", "--anyway", "--force", "--verbose", "--check", "--rebug", "-j N"):
                self.assertIn(word, str(caught.exception))


class Statuses(unittest.TestCase):
    """What the command line writes where no Ninja is needed."""

    def run_recorder(self, *words, **how):
        return subprocess.run([sys.executable, builds.RECORDER, *words], capture_output=True, text=True, **how)

    def test_help_goes_to_standard_output(self):
        done = self.run_recorder("--help")
        self.assertEqual((done.returncode, done.stderr, done.stdout[:26]), (0, "", "usage: rebug record BUILD_"))
        self.assertIn("exit status:", done.stdout)

    def test_faults_are_one_line_on_standard_error(self):
        for words in ([], ["a", "b", "--none"], ["a", "b", "c"], ["--check"], ["a", "b", "-j", "many"]):
            with self.subTest(words=words):
                done = self.run_recorder(*words)
                self.assertEqual((done.returncode, done.stdout, done.stderr.count("\n")), (2, "", 1), done.stderr)
                self.assertTrue(done.stderr.startswith("rebug-record: "), done.stderr)

    def test_help_that_nobody_reads(self):
        outer, inner = os.pipe()
        os.close(outer)
        with contextlib.closing(os.fdopen(inner, "wb")) as gone:
            done = subprocess.run([sys.executable, builds.RECORDER, "--help"], stdout=gone, stderr=subprocess.PIPE)
        self.assertEqual((done.returncode, done.stderr), (0, b""))

    def test_the_launcher_hands_its_words_on(self):
        launcher = pathlib.Path(builds.RECORDER).parent.parent / "rebug"
        done = subprocess.run([launcher, "record", "--help"], capture_output=True, text=True)
        self.assertEqual((done.returncode, done.stderr, done.stdout), (0, "", self.run_recorder("--help").stdout))


if __name__ == "__main__":
    unittest.main()
