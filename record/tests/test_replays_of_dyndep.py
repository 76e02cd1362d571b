"""rebug accepts each event of the recorded builds with dyndep files, finds the `use` that a scanner does not see, and
takes no order for certain that Ninja does not keep."""

from __future__ import annotations

import json
import os
import pathlib
import shutil
import subprocess
import sys
import tempfile
import unittest

import builds
from dyndep_cases import JOBS
from recorder.checking import check
from test_recordings_of_modules import HIDDEN_BY, RECORDINGS, write
from test_replays import program, why_not
from test_replays_of_races import program as asking

PROVOKE = builds.RECORDER.parent / "rebug-provoke"
NOT_CERTAIN = 4


class ReplaysOfDyndep(unittest.TestCase):
    def folder(self, name: str) -> pathlib.Path:
        folder = builds.recordings() / name
        unable = why_not() or (None if folder.is_dir() else "no such build was recorded on this machine")
        if unable:
            self.skipTest(unable)
        return folder

    def asked(self, *words: object) -> tuple[int, str]:
        if not os.access(asking(), os.X_OK):
            self.skipTest(f"the program is not built: there is no {asking()}")
        done = subprocess.run([asking(), *words], stdin=subprocess.DEVNULL, capture_output=True, text=True)
        return done.returncode, done.stdout

    def replay(self, folder: pathlib.Path, least: int) -> None:
        found = [it.parent for it in sorted(folder.glob("*/*/replay"))]
        found = [it for it in found if b"\nfinish " in (it / "trace").read_bytes()]
        self.assertGreater(len(found), least)
        for recording in found:
            with self.subTest(recording=str(recording.relative_to(folder))):
                said: list[str] = []
                self.assertEqual(check(str(recording), program(), said.append), 0, said)

    def test_no_event_of_a_case_is_refused(self):
        self.replay(self.folder("dyndep"), 150)

    def test_no_event_of_modules_is_refused(self):
        self.replay(self.folder(RECORDINGS), 3)

    def test_each_resolved_manifest_is_that_of_its_files(self):
        for name in ("dyndep", RECORDINGS):
            found = [it.parents[1] for it in sorted(self.folder(name).rglob("dyndep/notes"))]
            # Lanes without a plan are for the first program, which runs them side by side.
            found = [it for it in found if b"\nplan\n" in (it / "trace").read_bytes()]
            self.assertTrue(found)
            for recording in found:
                # Ninja refused some builds before it began a command, and so does the program.
                due = ("none refused\n",)
                if (recording / "trace").read_bytes().endswith(b"\nplan\n"):
                    due = ("none refused\n", "1 event, 1 refused\n")
                with self.subTest(recording=str(recording)):
                    status, said = self.asked("replay", recording)
                    self.assertEqual((status, said.endswith(due)), (0, True), said)

    def test_an_order_that_ninja_does_not_keep_is_not_certain(self):
        folder = self.folder(RECORDINGS)
        for jobs in JOBS:
            if (folder / f"order.{jobs}").is_dir():
                status, said = self.asked("certify", folder / f"order.{jobs}/anyway")
                self.assertEqual((status, said.split(":")[0]), (NOT_CERTAIN, "not certain"), said)

    def hidden(self) -> list[tuple[pathlib.Path, str]]:
        """The recordings of a hidden `use`, and the manifest of each."""
        folder = self.folder(RECORDINGS)
        found = [(folder / name, manifest) for name, manifest in HIDDEN_BY.items()]
        return [it for it in found if (it[0] / "mended").is_dir()]

    def test_a_hidden_use_is_a_race_until_it_is_mended(self):
        for folder, _ in self.hidden():
            with self.subTest(folder.name):
                said = self.asked("races", "--json", folder / "hidden")[1]
                races = [it for it in map(json.loads, said.splitlines()) if it.get("kind") == "race"]
                self.assertEqual([(it["path"], it["maker"]["output"], it["user"]["output"], it["mend"])
                                  for it in races], [("base.mod", "base.o", "a.o", "base.o")])
                status, said = self.asked("certify", folder / "mended")
                self.assertNotIn("base.mod", said)

    def test_a_hidden_use_is_provoked(self):
        for folder, manifest in self.hidden():
            with self.subTest(folder.name), tempfile.TemporaryDirectory(prefix="rebug-hidden-") as room:
                build = pathlib.Path(room) / "build"
                shutil.copytree(folder / "build", build)
                write(build, **{"build.ninja": manifest})
                subprocess.run(["ninja", "-j1", "app"], cwd=build, check=True, stdout=subprocess.DEVNULL)
                done = subprocess.run([sys.executable, PROVOKE, "--rebug", asking(), build, folder / "hidden", "1"],
                                      stdin=subprocess.DEVNULL, capture_output=True, text=True)
                self.assertEqual(done.returncode, 4, done.stdout + done.stderr)
                self.assertIn("it fails so", done.stdout)
                self.assertNotIn("another than the one", done.stdout + done.stderr)


if __name__ == "__main__":
    unittest.main()
