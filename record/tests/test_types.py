"""mypy takes the recorder's hints, where mypy is there."""

from __future__ import annotations

import os
import subprocess
import unittest

import builds


class Types(unittest.TestCase):
    def test_mypy_finds_nothing(self):
        lacking = builds.missing_tools("mypy")
        if lacking:
            self.skipTest(lacking)
        done = subprocess.run(["mypy", f"--cache-dir={os.devnull}"], cwd=builds.RECORDER.parent, capture_output=True,
                              text=True)
        self.assertEqual((done.returncode, done.stderr), (0, ""), done.stdout)
        self.assertRegex(done.stdout, r"no issues found in (?:[3-9]\d|\d{3,}) source files")


if __name__ == "__main__":
    unittest.main()
