"""A command that runs Ninja in the folder of the build: the inner Ninja writes into the same log, by its own clock."""

import os
import pathlib
import subprocess
import sys
import tempfile
import unittest

import builds

MANIFEST = """rule cp
  command = cp $in $out
  description = CP $out
rule inner
  command = sleep 0.05; ninja b$quiet && touch $out
  description = INNER $out
build a: cp in
build b: cp a
build c: cp in
build d: cp c
build deploy: inner d
build e: cp deploy
default e
"""


class InnerNinjas(unittest.TestCase):
    def setUp(self):
        lacking = builds.missing_tools("ninja")
        if lacking:
            self.skipTest(lacking)
        room = tempfile.TemporaryDirectory(prefix="rebug-inner-")
        self.addCleanup(room.cleanup)
        self.build = pathlib.Path(room.name).resolve() / "build"
        self.build.mkdir()
        (self.build / "in").write_text("in")

    def record(self, manifest, *words):
        (self.build / "build.ninja").write_text(manifest)
        out = self.build.parent / "out"
        done = subprocess.run([sys.executable, builds.RECORDER, self.build, out, "--", *words], capture_output=True,
                              text=True, env={**os.environ, "NINJA_STATUS": "%f/%t "})
        self.assertEqual(done.returncode, 0, done.stdout + done.stderr)
        return (out / "trace").read_text().split("\nlane 0\n")[1], done.stderr

    def starts(self, trace):
        return [line.split(" ")[1] for line in trace.splitlines() if line.startswith("start ")]

    def test_what_it_runs_is_a_part_of_the_command_that_runs_it(self):
        for quiet in ("", " > /dev/null"):
            with self.subTest(quiet=quiet):
                for name in "abcde":
                    (self.build / name).unlink(missing_ok=True)
                (self.build / ".ninja_log").unlink(missing_ok=True)
                trace, said = self.record(MANIFEST.replace("$quiet", quiet))
                self.assertEqual(self.starts(trace), ["c", "d", "deploy", "e"])
                during = trace[trace.index("start deploy") : trace.index("finish deploy")]
                self.assertTrue("touch a " in during and "touch b " in during, trace)
                self.assertIn("Ninja's log has commands that this Ninja did not show: a, b.", said)
                self.assertNotIn("refuse", said)

    def test_commands_that_this_ninja_shows_are_its_own(self):
        own = MANIFEST.replace("default e", "default b e").replace("ninja b$quiet", "ninja -n b")
        for odd in ("CP $out", "$$ \x1b[32mCP\x1b[0m  $out]", "CP", "two$\n lines $out"):
            with self.subTest(description=odd):
                for name in ("a", "b", "c", "d", "e", ".ninja_log"):
                    (self.build / name).unlink(missing_ok=True)
                trace, said = self.record(own.replace("CP $out", odd), "-v" if odd == "CP" else "-j2")
                self.assertEqual(sorted(self.starts(trace)), ["a", "b", "c", "d", "deploy", "e"])
                self.assertNotIn("did not show", said)

    def test_commands_beside_one_at_the_console_are_its_own(self):
        held = """rule cp
  command = cp $in $out
  description = CP $out
rule hold
  command = sleep 0.5 && touch $out
  pool = console
build long: hold in
build a: cp in
build b: cp a
build c: cp b
build all: phony long c
default all
"""
        trace, said = self.record(held, "-j4")
        self.assertEqual(sorted(self.starts(trace)), ["a", "b", "c", "long"])
        self.assertNotIn("did not show", said)


if __name__ == "__main__":
    unittest.main()
