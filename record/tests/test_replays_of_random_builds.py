"""rebug accepts each command of random builds, and its rules are those of the recorder: on these builds as they were
recorded, and with some of their events changed, so that rules refuse."""

import random
import unittest

import builds
import test_recordings_of_random_builds as random_recordings
from held import differences
from recorder.checking import check
from test_replays import program, why_not


class ReplaysOfRandomBuilds(unittest.TestCase):
    def setUp(self):
        lacking = why_not() or builds.missing_tools("ninja")
        if lacking:
            self.skipTest(lacking)
        self.folders = sorted(it for it in random_recordings.made().iterdir() if it.is_dir())
        self.assertEqual(len(self.folders), random_recordings.RUNS)

    def test_every_command_is_accepted(self):
        for folder in self.folders:
            said = []
            self.assertEqual(check(str(folder), program(), said.append), 0, said)

    def test_the_rules_are_rebugs(self):
        for place, folder in enumerate(self.folders):
            self.assertEqual(differences(folder, program(), random.Random(place)), [])


if __name__ == "__main__":
    unittest.main()
