"""The builds of mended projects, judged by the program: what it tells before the mend is what was mended, and the build
after it is certain."""

import json
import os
import subprocess
import unittest

import builds
from mended import PROJECTS, STAND_IN
from test_mend import LEFT
from test_replays_of_races import program

# Kinds that no order mends, or that the stand-in does not tell.
OF_ORDERS = ("race", "cycle")


class MendedByRebug(unittest.TestCase):
    def setUp(self):
        self.folder = builds.recordings() / "mends"
        if not os.access(program(), os.X_OK):
            self.skipTest(f"the program is not built: there is no {program()}")
        if not self.folder.is_dir():
            self.skipTest("the mends were not tried on this machine")

    def told(self, words, recording):
        ran = subprocess.run([*words, recording], stdin=subprocess.DEVNULL, capture_output=True, text=True)
        return ran.returncode, ran.stdout

    def orders(self, words, recording):
        """The orders that are told: kind, maker and user."""
        objects = map(json.loads, self.told([*words, "races", "--json"], recording)[1].splitlines())
        return {(it["kind"], it["maker"]["output"], it["user"]["output"]) for it in objects if it["kind"] in OF_ORDERS}

    def test_the_program_tells_the_same_races(self):
        for it in sorted(self.folder.iterdir()):
            if it.name != "c16-cycle-of-targets":  # its build fails
                with self.subTest(project=it.name):
                    self.assertEqual(self.orders([program()], it / "before"), self.orders([STAND_IN], it / "before"))

    def test_what_was_mended_is_certain(self):
        names = [it.name for it in sorted(self.folder.iterdir()) if it.name not in LEFT]
        self.assertEqual({it for it in names if it not in PROJECTS}, set())
        for name in names:
            with self.subTest(project=name):
                status, said = self.told([program(), "certify"], self.folder / name / "after")
                self.assertEqual((status, said.split(":")[0]), (0, "certain"), said)


if __name__ == "__main__":
    unittest.main()
