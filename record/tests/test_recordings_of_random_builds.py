"""Random builds are recorded, each run with another of the Ninjas that are there, and nothing of them is refused."""

import os
import shutil
import unittest

import builds
from random_builds import Builds
from versions import VERSION

RUNS = 12


def made():
    """The folder of the recordings, which are made where they are not there yet; what was refused is in `faults`."""
    folder = builds.recordings() / "random"
    if not folder.exists():
        folder.mkdir(parents=True)
        it = Builds(sum(VERSION), [shutil.which("ninja"), *builds.other_ninjas()], is_replayed=False)
        it.recordings = folder
        it.run(RUNS)
        (folder / "faults").write_text("\n".join(it.faults))
    return folder


class RecordingsOfRandomBuilds(unittest.TestCase):
    def test_nothing_is_refused(self):
        if builds.missing_tools("ninja"):
            self.skipTest(builds.missing_tools("ninja"))
        folder = made()
        self.assertEqual((folder / "faults").read_text(), "")
        self.assertEqual(len(os.listdir(folder)), RUNS + 1)


if __name__ == "__main__":
    unittest.main()
