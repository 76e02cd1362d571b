"""Races made to happen with the program that tells them, and by its own patches."""

import os
import unittest

from provoked import PLANTED, Made
from test_provoked import LACKING
from test_replays_of_races import program

NAMES = ("group_lacks_it", "maker_in_a_subninja", "other_bytes")


@unittest.skipIf(LACKING, LACKING)
class ProvokedByRebug(unittest.TestCase):
    def test_three_of_them(self):
        if not os.access(program(), os.X_OK):
            self.skipTest(f"the program is not built: there is no {program()}")
        for name in NAMES:
            with self.subTest(name=name):
                it = Made(name, PLANTED[name])
                self.addCleanup(it.remove)
                before = it.everything()
                status, said = it.provoke(program=program())
                self.assertEqual((status, said.splitlines()[-1:]), (4, [PLANTED[name].due]), said)
                self.assertIn("both: refused as a cycle, ", said)
                self.assertEqual(it.everything(), before)


if __name__ == "__main__":
    unittest.main()
