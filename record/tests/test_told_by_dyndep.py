"""What dyndep files say, and how it stands in a manifest's text. And bodies of the recorder that are wrong on purpose:
the tests of recorded builds refuse each."""

from __future__ import annotations

import contextlib
import pathlib
import tempfile
import unittest

import builds
import test_recordings_of_dyndep as of_cases
from dyndep_cases import Runner, cases
from recorder.dyndep.reading import BadDyndep, Told, Unresolvable, read_dyndep
from recorder.dyndep.resolving import Resolving, what_cannot_be_resolved
from recorder.manifest import Manifest
from versions import since

VERSION = b"ninja_dyndep_version = 1\n"
RULE = "rule r\n  command = c\n"

# The Ninja manual's "Dynamic Dependencies", and the tests of Ninja's own reader (src/dyndep_parser_test.cc).
READ = {
    b"ninja_dyndep_version = 1.0\n": {},
    b"# a comment\nninja_dyndep_version = 1\n": {},
    VERSION + b"build o: dyndep\n": {b"o": Told()},
    VERSION + b"build o | a ./b: dyndep | c$ d\n": {b"o": Told((b"a", b"b"), (b"c d",))},
    VERSION + b"build o: dyndep\n  restat = 1\nbuild p: dyndep\n  restat =\n": {b"o": Told(restat=True), b"p": Told()},
    VERSION + b"build o$\n | a: $\n dyndep\n": {b"o": Told((b"a",))},
}
REFUSED = (b"", b"build o: dyndep\n", b"ninja_dyndep_version = 2\n", b"other = 1\n", VERSION + VERSION,
           VERSION + b"rule r\n", VERSION + b"build o\n", VERSION + b"build o: touch\n",
           VERSION + b"build o p: dyndep\n", VERSION + b"build o: dyndep in\n",
           VERSION + b"build o: dyndep || in\n", VERSION + b"build | o: dyndep\n",
           VERSION + b"build o: dyndep\n  other = 1\n", VERSION + b"build o: dyndep\nbuild o: dyndep\n",
           VERSION + b"build o: dyndep |@ v\n", VERSION + b"include x\n")

# Statement, what the file says of `o`, and the statement as it is recorded.
RESOLVED = (
    ("build o: r a || dd\n  dyndep = dd\n", " | m: dyndep | i j\n",
     "build o | m : r a  | i j || dd\n  resolved_dyndep = dd\n"),
    ("build o | p: r a | b dd\n  dyndep = dd\n  x = 1\n", " | m$ n: dyndep | i\n",
     "build o | p  m$ n : r a | b dd  i \n  resolved_dyndep = dd\n  x = 1\n"),
    ("build o: r a || dd\n  dyndep = $\n    dd\n", ": dyndep\n  restat = 1\n",
     "build o: r a || dd\n  restat = 1$\n\n"),
    ("build o: r a || dd\n  restat =\n  dyndep = dd\n", ": dyndep\n  restat = 1\n",
     "build o: r a || dd\n  restat = 1\n  resolved_dyndep = dd\n"),
)

WORDS = "import sys; sys.path.insert(0, {top!r}); {plant}; from recorder.main import main; sys.exit(main(sys.argv[1:]))"
# A wrong body, and a case of which a build then is not as Ninja's own log and the loaded files have it.
PLANTED = {
    "a file of yesterday": ("DiscoverNewOutput", "from recorder.dyndep import build as b; it = b.Dyndeps; "
                            "it._content = lambda self, after, ended: self.contents.get"),
    "restat from the start": ("Restat", "from recorder.dyndep.build import Dyndeps as it; "
                              "it._restat_told_late = lambda self, looked: []"),
    "no file that is made in the build": ("DiscoverNewInput", "from recorder.dyndep.looking import Look as it; "
                                          "it.at_end_of = lambda self, files: None"),
    "no order of the look": ("StaticUserFirst", "from recorder.dyndep.looking import Look as it; "
                             "it._part = lambda self, file: None"),
}


def read(text: str) -> Manifest:
    return Manifest(b"build.ninja", lambda name: text.encode())


class ToldByDyndep(unittest.TestCase):
    def test_files_that_are_read(self):
        for text, told in READ.items():
            with self.subTest(text=text):
                self.assertEqual(read_dyndep(b"dd", text), told)

    def test_files_that_are_refused(self):
        for text in REFUSED:
            with self.subTest(text=text), self.assertRaises(BadDyndep):
                read_dyndep(b"dd", text)

    def test_statements_as_they_are_recorded(self):
        for statement, said, wanted in RESOLVED:
            with self.subTest(statement=statement):
                it = Resolving(read(RULE + statement))
                it.load(b"dd", VERSION + b"build o" + said.encode())
                found = it.finish()
                self.assertEqual(found.files[0][1].decode(), RULE + wanted)
                again, edge = read(RULE + wanted).edges[0], found.edges[0]
                self.assertEqual([edge.outputs, edge.implicit, edge.order_only, edge.restat, edge.command],
                                 [again.outputs, again.implicit, again.order_only, again.restat, again.command])

    def test_an_output_with_two_producers_changes_nothing(self):
        it = Resolving(read(RULE + "build o: r || dd\n  dyndep = dd\nbuild p: r || dd\n  dyndep = dd\nbuild m: r\n"))
        for said in (b"build o | m: dyndep\nbuild p: dyndep\n", b"build o | x: dyndep\nbuild p | x: dyndep\n",
                     b"build o | x x: dyndep\nbuild p: dyndep\n", b"build o: dyndep\n", b"build m: dyndep\n"):
            with self.subTest(said=said), self.assertRaises(BadDyndep):
                it.load(b"dd", VERSION + said)
            self.assertEqual([edge.outputs for edge in it.manifest.edges], [[b"o"], [b"p"], [b"m"]])
            self.assertNotIn(b"x", it.manifest.producer)

    def test_what_cannot_be_resolved(self):
        for text in ("dyndep = dd\nbuild o: r || dd\n", "build o: r || $dyndep\n  dyndep = dd\n",
                     "build o: phony || dd\n  dyndep = dd\n"):
            with self.subTest(text=text):
                self.assertEqual(len(what_cannot_be_resolved(read(RULE + text))), 1)
        it = Resolving(read("rule r\n  command = c\n  dyndep = dd\nbuild o: r || dd\n"))
        with self.assertRaises(Unresolvable):
            it.load(b"dd", VERSION + b"build o: dyndep\n  restat = 1\n")


@unittest.skipIf(since((1, 12)), "the cases have the statuses of Ninja 1.11")
class Planted(unittest.TestCase):
    def test_a_file_that_was_not_loaded_is_not_resolved(self):
        failed = of_cases.recorded("FailsBefore", 1)[1].out
        self.assertIn("not-loaded dd\n", (failed / "dyndep/notes").read_text())
        self.assertNotIn(" | m", (failed / "build.ninja").read_text())

    def test_wrong_bodies_are_refused(self):
        for name, (case, plant) in PLANTED.items():
            with self.subTest(name), tempfile.TemporaryDirectory(prefix="rebug-planted-") as room:
                words = WORDS.format(top=str(builds.RECORDER.parent), plant=plant)
                runner = Runner(cases()[case], pathlib.Path(room) / "case", 1)
                runner.program = ("-c", words)
                found, left_out = of_cases.RecordingsOfDyndep("look_at"), of_cases.NOT_RECORDED.get((case, 1), {})
                refused = 0
                for step in runner.run():
                    if step.number in left_out:
                        refused += (step.out / "replay").exists()
                        continue
                    with contextlib.suppress(AssertionError, FileNotFoundError, KeyError):
                        found.look_at(step)
                        continue
                    refused += 1
                self.assertGreater(refused, 0)


if __name__ == "__main__":
    unittest.main()
