"""What Ninja does for a command before that begins is in the command's block: the folders that Ninja makes, the links
through which it comes, and the folder of the response file."""

import os
import pathlib
import tempfile
import unittest
from types import SimpleNamespace

import observed_2
from observing import WithRoom
from recorder.observed.before import Preparing
from recorder.observed.places import Places
from recorder.observed.shares import Changes

RULE = "rule sh\n  command = $do\n"


class Before(WithRoom, unittest.TestCase):
    observer = "own"

    def blocks(self, text: str, before=None) -> dict[bytes, observed_2.Block]:
        """The blocks of a build that ends well, one command after the other; `in` is a source."""
        found = self.room.build(self.observer, RULE + text, {"in": "x\n"}, words=("-j", "1"), before=before, read=False)
        self.assertEqual(found.status, 0, found.said)
        return observed_2.read(found.out / "observed").blocks

    def test_the_folder_of_outputs_is_made_by_each_command_that_has_it(self):
        its = self.blocks("build d/one: sh in\n  do = cp in d/one\nbuild d/e/two: sh in\n  do = cp in d/e/two\n")
        self.assertEqual(its[b"d/one"].of("prepared"), {b"d"})
        self.assertEqual(its[b"d/e/two"].of("prepared"), {b"d", b"d/e"})
        self.assertEqual(its[b""].of("made"), set())

    def test_the_folder_of_the_log_is_made_by_ninja(self):
        its = self.blocks("builddir = log\nbuild d/one: sh in\n  do = cp in d/one\n")
        self.assertEqual(its[b""].of("made"), {b"log"})

    def test_a_folder_that_was_taken_away_is_made_for_the_next_command(self):
        text = ("build clean: sh in\n  do = rm -rf d; touch clean\n"
                "build d/one: sh in || clean\n  do = cp in d/one\n")
        its = self.blocks(text, lambda folder: (folder / "d").mkdir())
        self.assertEqual(its[b"clean"].of("removed"), {b"d"})
        self.assertEqual(its[b"d/one"].of("prepared"), {b"d"})
        self.assertEqual(its[b""].of("made"), set())

    def test_a_link_that_nobody_moves_leads_to_what_is_made(self):
        def before(folder: pathlib.Path) -> None:
            (folder / "real").mkdir()
            (folder / "out").symlink_to("real")
        its = self.blocks("build out/d/one: sh in\n  do = cp in out/d/one\n", before)
        self.assertEqual(its[b"out/d/one"].of("prepared"), {b"real/d"})
        self.assertEqual(its[b""].of("made"), set())

    def test_a_link_that_another_command_moves_is_looked_at(self):
        def before(folder: pathlib.Path) -> None:
            for name in ("v1", "v2"):
                (folder / name).mkdir()
            (folder / "cur").symlink_to("v1")
        text = ("build move: sh in\n  do = ln -sfn v2 cur; touch move\n"
                "build cur/d/one: sh in || move\n  do = true\n"
                "build v1/d/two: sh in\n  do = cp in v1/d/two\n")
        its = self.blocks(text, before)
        looks = {it for it in its[b"cur/d/one"].texts if it[0] == "link"}
        self.assertEqual(looks, {("link", b"v1", b"cur"), ("link", b"v2", b"cur")})
        self.assertEqual(its[b"cur/d/one"].of("prepared"), {b"v2/d"})
        self.assertEqual(its[b"v1/d/two"].of("prepared"), {b"v1/d"})
        self.assertEqual(its[b""].of("made"), {b"v1/d", b"v2/d"})  # of which command it made them is not known

    def test_a_folder_in_the_place_of_a_link_is_asked_for(self):
        def before(folder: pathlib.Path) -> None:
            (folder / "v1").mkdir()
            (folder / "cur").symlink_to("v1")
        its = self.blocks("build move: sh in\n  do = rm cur; mkdir cur; touch move\n"
                          "build cur/one: sh in || move\n  do = true\n", before)
        self.assertEqual(its[b"cur/one"].of("prepared"), set())
        self.assertIn(b"cur", its[b"cur/one"].of("folder"))
        self.assertIn(("link", b"v1", b"cur"), its[b"cur/one"].texts)

    def test_a_folder_where_a_link_came_and_went_is_asked_for(self):
        its = self.blocks("build link: sh in\n  do = mkdir v1; ln -s v1 cur; touch link\n"
                          "build move: sh in || link\n  do = rm cur; mkdir cur; touch move\n"
                          "build cur/one: sh in || move\n  do = true\n")
        self.assertEqual(its[b"cur/one"].of("prepared"), set())
        self.assertIn(b"cur", its[b"cur/one"].of("folder"))

    def test_the_end_of_a_link_is_asked_for_where_it_is_made(self):
        text = "build a: sh in\n  do = mkdir none; touch a\nbuild cur/d/one: sh in || a\n  do = true\n"
        its = self.blocks(text, lambda folder: (folder / "cur").symlink_to("none"))
        self.assertIn(b"none", its[b"cur/d/one"].of("folder"))
        self.assertEqual(its[b"cur/d/one"].of("prepared"), {b"none/d"})

    def test_the_folder_of_a_response_file_is_asked_for(self):
        text = ("rule by_file\n  command = cp d/rsp $out\n  rspfile = d/rsp\n  rspfile_content = x\n"
                "build d/one: sh in\n  do = cp in d/one\n"
                "build two: by_file in || d/one\n")
        its = self.blocks(text)
        self.assertIn(b"d", its[b"two"].of("folder"))
        self.assertEqual(its[b"two"].of("prepared"), set())


class BeforeByStrace(Before):
    observer = "strace"


class Depfiles(unittest.TestCase):
    """Ninja makes the folder of a depfile from 1.13 on."""

    def prepared(self, makes_folders_of_depfiles: bool, depfile: bytes) -> set[bytes]:
        """The paths of the folders that are made for an edge with such a depfile, in a build folder that has none."""
        with tempfile.TemporaryDirectory() as room:
            places, build = Places(), os.fsencode(os.path.realpath(room))
            edge = SimpleNamespace(outputs=[b"d/one"], depfile=depfile, rspfile=b"", phony=False)
            preparing = Preparing(places, build, makes_folders_of_depfiles)
            preparing.begin([edge])
            missing = [places.number(build + b"/" + it) for it in (b"d", b"e", b"e/f")]
            found = preparing.before(edge, Changes([], places, missing))
            self.assertEqual((found.links, found.asked), (set(), set()))
            return {places.paths[it][len(build) + 1 :] for it in found.made}

    def test_the_folder_of_a_depfile_is_made_from_1_13_on(self):
        self.assertEqual(self.prepared(False, b"e/one.d"), {b"d"})
        self.assertEqual(self.prepared(True, b"e/one.d"), {b"d", b"e"})

    def test_the_path_of_a_depfile_is_taken_as_it_stands(self):
        self.assertEqual(self.prepared(True, b"e/f/../one.d"), {b"d", b"e", b"e/f"})

    def test_an_edge_may_have_no_depfile(self):
        self.assertEqual(self.prepared(True, b""), {b"d"})


if __name__ == "__main__":
    unittest.main()
