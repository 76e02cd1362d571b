"""`names` has other names of files: absolute ones and those through a link, and no hard links."""

import os
import pathlib
import subprocess
import sys
import tempfile
import unittest

import builds

MANIFEST = """rule gen
  command = echo > gen/a; echo > b.h
rule use
  command = touch $out && echo '$out: s $lists' > $out.d
  depfile = $out.d
  deps = gcc
build gen/a b.h: gen
build all.h: phony b.h
build o: use s || gen/a b.h
  lists = $top/b.h linked/a ../build/b.h b.h hard.h s2 gone.h
build p: use s || b.h
  lists = b.h
"""

OF_SOURCES = """rule use
  command = cat $in > $out
build o: use ../src/x.h
build p: use $top/src/x.h
build q: use linked/x.h
build r: use l.h only.h
build $top/build/s: use /$top/src/z.h o
build all: phony s p q r
"""


class Names(unittest.TestCase):
    def setUp(self):
        lacking = builds.missing_tools("ninja")
        if lacking:
            self.skipTest(lacking)

    def test_other_names_of_sources(self):
        with tempfile.TemporaryDirectory(prefix="rebug-names-") as room:
            top = pathlib.Path(room).resolve()
            for folder in ("build", "src"):
                (top / folder).mkdir()
            for name in ("x.h", "y.h", "z.h"):
                (top / "src" / name).write_text(name)
            (top / "build/linked").symlink_to("../src")
            (top / "build/l.h").symlink_to("../src/x.h")
            (top / "build/only.h").symlink_to("../src/y.h")
            (top / "build/build.ninja").write_text(OF_SOURCES.replace("$top", str(top)))
            self.record(top, "o", "p", "q", "r", f"{top}/build/s")
            lines = (top / "out/names").read_text().splitlines()
        self.assertEqual(lines, ["rebug-names 1", f"{top}/src/x.h ../src/x.h", "l.h ../src/x.h",
                                 "linked/x.h ../src/x.h", f"only.h {top}/src/y.h", f"s {top}/build/s"])

    def record(self, top, *words):
        done = subprocess.run([sys.executable, builds.RECORDER, top / "build", top / "out", "--", *words],
                              capture_output=True)
        self.assertEqual(done.returncode, 0, done.stdout + done.stderr)

    def test_the_name_of_the_manifest(self):
        with tempfile.TemporaryDirectory(prefix="rebug-names-") as room:
            top = pathlib.Path(room).resolve()
            (top / "build").mkdir()
            (top / "build/other.ninja").write_text("rule touch\n  command = touch $out\nbuild a: touch\n")
            self.record(top, "-f", "other.ninja")
            found = (top / "out/ninja").read_text().splitlines()
            (top / "build/build.ninja").write_text("include other.ninja\n")
            self.record(top)
            other = (top / "out/ninja").read_text().splitlines()
        self.assertIn("manifest other.ninja", found)
        self.assertFalse([it for it in other if it.startswith("manifest")])

    def test_other_names_of_outputs(self):
        with tempfile.TemporaryDirectory(prefix="rebug-names-") as room:
            build = pathlib.Path(room).resolve() / "build"
            (build / "gen").mkdir(parents=True)
            (build / "linked").symlink_to("gen")
            for name in ("s", "s2", "b.h"):
                (build / name).write_text(name)
            os.link(build / "b.h", build / "hard.h")
            text = MANIFEST.replace("$top", str(build))
            (build / "build.ninja").write_text(text)
            done = subprocess.run([sys.executable, builds.RECORDER, build, build.parent / "out"], capture_output=True)
            self.assertEqual(done.returncode, 0, done.stdout + done.stderr)
            lines = (build.parent / "out/names").read_text().splitlines()
        self.assertEqual(lines, ["rebug-names 1", "../build/b.h b.h", f"{build}/b.h b.h", "linked/a gen/a"])


if __name__ == "__main__":
    unittest.main()
