"""Runs on threads: of one lane they report what a run without threads reports, byte for byte; of many lanes the
journal, said again one command after another, has the same replies and leads to the same state."""

import os
import pathlib
import subprocess
import tempfile
import unittest

import many_lanes
import one_lane
from test_replays import program, why_no_lanes, why_not

EXAMPLES = pathlib.Path(__file__).resolve().parents[2] / "examples"
STORED = pathlib.Path(__file__).resolve().parents[2] / "crates/rebug/data"
QUESTIONS = b"run\nkept\nmarks\nstamps\nlogs\n"


class ReplaysOfLanes(unittest.TestCase):
    def setUp(self):
        unable = why_not() or why_no_lanes()
        if unable:
            self.skipTest(unable)
        self.program = os.path.abspath(program())

    def report(self, folder, trace, script, *options):
        files = sorted({"rules.ninja"} & set(os.listdir(folder)))
        if (folder / "CMakeFiles").exists():
            files.append("CMakeFiles/rules.ninja")
        words = [self.program, "--manifest", "build.ninja", "--trace", trace, "--script", script, *files, *options]
        done = subprocess.run(words, cwd=folder, stdin=subprocess.DEVNULL, capture_output=True)
        return done.stdout, done.returncode

    def test_many_lanes(self):
        program = os.environ.get("REBUG_PROGRAM") or self.program
        for seed in range(60):
            self.assertEqual(many_lanes.differences(program, many_lanes.Case(seed)), [], f"seed {seed}")

    def test_one_lane_of_generated_builds(self):
        program = os.environ.get("REBUG_PROGRAM") or self.program
        for seed in range(40):
            alone, on_threads = one_lane.reports(program, one_lane.case_of(many_lanes.Case(seed)))
            self.assertEqual(on_threads, alone, f"seed {seed}")
            self.assertEqual(alone[1], 0)


def _one_lane_test(folder):
    def test(self):
        with tempfile.TemporaryDirectory() as room:
            script = pathlib.Path(room) / "script"
            script.write_bytes(QUESTIONS)
            alone = self.report(folder, "trace", str(script))
            self.assertEqual(self.report(folder, "trace", str(script), "--workers"), alone)
            self.assertGreater(len(alone[0]), 20)

    return test


for _trace in sorted([*EXAMPLES.glob("**/trace"), STORED / "trace"]):
    if _trace.read_bytes().count(b"\nlane ") == 1:
        _name = "_".join(_trace.parent.relative_to(EXAMPLES.parent).parts[-2:])
        setattr(ReplaysOfLanes, f"test_one_lane_of_{_name}", _one_lane_test(_trace.parent))
