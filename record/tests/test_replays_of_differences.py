"""rebug does what docs/NINJA.md says of it."""

import os
import pathlib
import subprocess
import tempfile
import unittest

import differences
from recorder.checking import check
from test_replays import program, why_not


class ReplaysOfDifferences(unittest.TestCase):
    @classmethod
    def setUpClass(cls):
        cls.unable = why_not()

    def setUp(self):
        if self.unable:
            self.skipTest(self.unable)

    def report(self, manifest):
        with tempfile.TemporaryDirectory() as folder:
            for name, text in (("build.ninja", manifest), ("trace", "rebug-trace 1\nlane 0\n"), ("script", "plan\n")):
                (pathlib.Path(folder) / name).write_text(text)
            words = [program(), "--manifest", "build.ninja", "--trace", "trace", "--script", "script"]
            return subprocess.run(words, cwd=folder, stdin=subprocess.DEVNULL, capture_output=True, text=True).stdout


def _build_test(name):
    _, row = differences.BUILDS[name]

    def test(self):
        lacking = differences.lacking(name)
        if lacking:
            self.skipTest(lacking)
        said = []
        status = check(str(differences.made(name) / "recorded"), program(), said.append)
        if row.refusal is None:
            self.assertEqual(status, 0, said)
        else:
            self.assertIn(f"refused {' '.join(map(str, row.refusal))}:", said[0])

    return test


def _reason_test(name):
    def test(self):
        if differences.lacking(name):
            self.skipTest(differences.lacking(name))
        done = subprocess.run(["sh", differences.made(name) / "recorded/replay", "why o"], stdin=subprocess.DEVNULL,
                              env={**os.environ, "REBUG": os.path.abspath(program())}, capture_output=True, text=True)
        self.assertEqual(done.stdout, f"1 0 ok\n{differences.OLDER[name]}\n")

    return test


def _line_test(name):
    manifest, _, rebug = differences.LINES[name]
    return lambda self: self.assertEqual(self.report(manifest), rebug + "\n")


for _name in differences.BUILDS:
    setattr(ReplaysOfDifferences, f"test_{_name}", _build_test(_name))
for _name in differences.OLDER:
    setattr(ReplaysOfDifferences, f"test_reason_of_{_name}", _reason_test(_name))
for _name in differences.LINES:
    setattr(ReplaysOfDifferences, f"test_line_{_name.replace(' ', '_')}", _line_test(_name))
