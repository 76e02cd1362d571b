"""What the recorder does with processes that are left of those that it started."""

import os
import pathlib
import subprocess
import sys
import tempfile
import unittest
from types import SimpleNamespace

sys.path.insert(0, str(pathlib.Path(__file__).resolve().parent.parent))
from recorder.running import run_ninja  # noqa: E402

# Leaves a stopped child with the words of the process that ends, as strace does where a signal ends it at once.
LEAVES = 'echo begun; (kill -STOP "$BASHPID"; echo never) & sleep 0.2; exit 143'
MANIFEST = SimpleNamespace(edges=[])
NINJA = SimpleNamespace(status_of_interrupt=2)


def states(words):
    """The states of the processes that have these words."""
    ran = subprocess.run(["ps", "-ewwo", "stat=,args="], capture_output=True, text=True, check=True)
    return [line.split()[0] for line in ran.stdout.splitlines() if line.endswith(" ".join(words))]


class LeftBehind(unittest.TestCase):
    def setUp(self):
        room = tempfile.TemporaryDirectory()
        self.addCleanup(room.cleanup)
        self.folder = room.name

    def run_words(self, words):
        signals = SimpleNamespace(hand_on=None, has_run=False)
        return run_ninja(NINJA, words, self.folder, signals, MANIFEST)

    def test_a_stopped_copy_of_what_ended_does_not_hold_the_output(self):
        words = ["/bin/bash", "-c", LEAVES, self.folder]
        ran = self.run_words(words)
        self.assertEqual(ran.status, 143)
        self.assertEqual(states(words), [])

    def test_what_lives_on_and_writes_is_waited_for(self):
        path = os.path.join(self.folder, "written")
        words = ["/bin/bash", "-c", f"(sleep 2.5; echo late; touch {path}) & exit 0"]
        self.assertEqual(self.run_words(words).status, 0)
        self.assertTrue(os.path.exists(path))


if __name__ == "__main__":
    unittest.main()
