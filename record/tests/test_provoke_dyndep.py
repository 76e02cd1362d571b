"""What `rebug provoke` does with commands of which dyndep files say outputs and inputs."""

from __future__ import annotations

import json
import pathlib
import shutil
import subprocess
import sys
import tempfile
import unittest

import builds
from provoked import PROVOKE
from recorder.dyndep.reading import Told
from recorder.provoke.races import NotAsked, Recording
from test_provoked import LACKING

PROJECT = builds.RECORDER.parent.parent / "tests/dyndep/hidden_use"
"""A `use` behind an include, which its scanner does not see."""


def edge(output: str, line: int) -> dict[str, object]:
    return {"output": output, "file": "build.ninja", "line": line}


RACE = {"kind": "race", "number": 1, "path": "base.mod", "maker": edge("base.o", 10), "user": edge("a.o", 12),
        "mend": "base.o", "dyndep": "modules.dd"}


@unittest.skipIf(LACKING, LACKING)
class OfDyndep(unittest.TestCase):
    def setUp(self) -> None:
        room = tempfile.TemporaryDirectory(prefix="rebug-provoke-")
        self.addCleanup(room.cleanup)
        self.room = pathlib.Path(room.name).resolve()
        self.build, self.recording = self.room / "build", self.room / "recorded"
        shutil.copytree(PROJECT, self.build)

    def record(self, jobs: int, status: int) -> None:
        words = [sys.executable, builds.RECORDER, self.build, self.recording, "--", f"-j{jobs}"]
        done = subprocess.run(words, stdin=subprocess.DEVNULL, capture_output=True, text=True)
        self.assertEqual(done.returncode, status, done.stderr)

    def provoke(self) -> tuple[int, str]:
        program = self.room / "program"
        program.write_text(f"#!/bin/sh\ncat <<'END'\n{json.dumps(RACE)}\nEND\nexit 4\n")
        program.chmod(0o755)
        done = subprocess.run([sys.executable, PROVOKE, "--rebug", program, self.build, self.recording, "1"],
                              stdin=subprocess.DEVNULL, capture_output=True, text=True)
        return done.returncode, done.stdout + done.stderr

    def test_the_module_goes_that_a_dyndep_file_says(self):
        """The module of the recorded build would hide the race, and Ninja's record of it would make a cycle."""
        for jobs, status in ((1, 0), (4, 1)):
            with self.subTest(jobs=jobs):
                self.record(jobs, status)
                before = sorted(path.name for path in self.build.iterdir())
                status, said = self.provoke()
                self.assertEqual((status, said.splitlines()[-1]), (4, "it fails so"), said)
                self.assertIn("cat: base.mod: No such file or directory", said)
                self.assertNotIn("another than the one", said)
                self.assertEqual(sorted(path.name for path in self.build.iterdir()), before)
                shutil.rmtree(self.build)
                shutil.copytree(PROJECT, self.build)

    def test_a_use_that_the_scanner_sees_is_mended(self):
        (self.build / "a").write_text("use base\nmodule am\n")
        self.record(1, 0)
        self.assertEqual(Recording("", str(self.recording)).told(), {
            b"base.o": Told((b"base.mod",)), b"a.o": Told((b"am.mod",), (b"base.mod",)),
            b"c.o": Told((), (b"base.mod", b"am.mod"))})
        status, said = self.provoke()
        self.assertEqual((status, said.splitlines()[-1].split(":")[0]), (0, "it is mended"), said)

    def test_a_kept_file_that_is_none_is_a_sentence(self):
        self.record(1, 0)
        (self.recording / "dyndep/files/1").write_text("build base.o: dyndep\n")
        with self.assertRaises(NotAsked) as caught:
            Recording("", str(self.recording)).told()
        self.assertEqual(caught.exception.status, 1)
        self.assertIn("dyndep/files/1: ", str(caught.exception))


if __name__ == "__main__":
    unittest.main()
