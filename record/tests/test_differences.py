"""Ninja does what docs/NINJA.md says of it, and the recorder tells where rebug's rules differ."""

import json
import tempfile
import unittest

import differences
from builds import missing_tools


class Differences(unittest.TestCase):
    def setUp(self):
        lacking = missing_tools("ninja")
        if lacking:
            self.skipTest(lacking)


def _build_test(name):
    _, row = differences.BUILDS[name]

    def test(self):
        if differences.lacking(name):
            self.skipTest(differences.lacking(name))
        folder = differences.made(name)
        lines = (folder / "recorded/trace").read_text().split("\n")
        said = (folder / "recorded.said").read_text()
        starts = [it for it in lines if it.startswith("start ")]
        self.assertEqual(starts[:1], [row.event] if row.event else [])
        if row.refusal is None or not row.is_told:
            self.assertNotIn("rules differ", said)
            self.assertEqual("The opening has the stamp of the log" in said, name in differences.OLDER)
        else:
            self.assertIn(f"({' '.join(map(str, row.refusal))})", said)

    return test


def _line_test(name):
    manifest, ninja, _ = differences.LINES[name]

    def test(self):
        with tempfile.TemporaryDirectory() as folder:
            self.assertIn(ninja, differences.ninja_says(manifest, folder))

    return test


def _stamp_test(name):
    """The opening has the log's stamp of the output, and the disk's of all else."""

    def test(self):
        if differences.lacking(name):
            self.skipTest(differences.lacking(name))
        folder = differences.made(name)
        stamps = dict(it.split(" ")[1:] for it in (folder / "recorded/trace").read_text().split("\n")
                      if it.startswith("stamp "))
        built = {it.split(" ")[1]: it.split(" ")[2] for it in (folder / "recorded/trace").read_text().split("\n")
                 if it.startswith("built ")}
        self.assertEqual(stamps["o"], built["o"])
        expected = json.loads((folder / "recorded.expected").read_text())["stamps"]
        unchanged = [it for it in stamps if "CMakeFiles/3" in it or it.endswith((".c", "CMakeLists.txt"))]
        self.assertEqual({it: stamps[it] for it in unchanged}, {it: str(expected[it]) for it in unchanged})

    return test


for _name in differences.BUILDS:
    setattr(Differences, f"test_{_name}", _build_test(_name))
for _name in differences.OLDER:
    setattr(Differences, f"test_opening_of_{_name}", _stamp_test(_name))
for _name in differences.LINES:
    setattr(Differences, f"test_line_{_name.replace(' ', '_')}", _line_test(_name))
