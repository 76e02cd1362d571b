"""Both observers give the same footprints: four projects, built from nothing by one job, observed by the one and by the
other in a folder of the same name."""

import pathlib
import re
import shutil
import subprocess
import unittest

import builds
import projects
from observing import KINDS, Room, refusal

REFUSED = refusal("own") or refusal("strace")

GENERATE = """import glob, os, pathlib, shutil, sys, tempfile
out, *names = sys.argv[1:]
import helper
with tempfile.NamedTemporaryFile("w", dir=".", delete=False) as file:
    for it in sorted(glob.glob("parts/*.txt")) + names:
        file.write(helper.line(it) if os.path.exists(it) else f"no {it}\\n")
os.rename(file.name, out)
os.makedirs("kept/deep", exist_ok=True)
shutil.copytree("parts", "kept/deep/parts", dirs_exist_ok=True)
os.replace("kept/deep/parts", "kept/moved") if not os.path.isdir("kept/moved") else None
"""
SCRIPTS = """rule sh
  command = $cmd
rule generate
  command = ./generate.py $out $in
rule keep
  command = cmp -s $in $out || cp -p $in $out
  restat = 1
build names.txt: generate one two gone | generate.py
  command = ./generate.py names.txt one two gone
build packed: sh names.txt
  cmd = tar cf packed names.txt parts && mkdir -p un && tar xf packed -C un && find un -name '*.txt' | xargs cat > all
build kept.txt: keep one
build edited: sh packed
  cmd = cp one edited && sed -i s/1/2/ edited && echo more >> edited && rm -f nothing all
build linked: sh edited
  cmd = ln -sf edited link && ln -f edited hard && cat link hard > linked && mv link other && test -e link || true
build sub: sh | linked
  cmd = (cd parts && cat ../one x.txt > ../sub); for i in 1 2 3; do cat one > t$$i & done; wait; cat t? >> sub; rm t?
build inner: sh | sub
  cmd = ninja -f inner.ninja --quiet && touch inner
build all: phony names.txt packed kept.txt edited linked sub inner
default all
"""
INNER = "rule c\n  command = cat $in > $out\nbuild in1: c one\nbuild in2: c in1\n"


def scripts(folder: pathlib.Path) -> pathlib.Path:
    """A manifest by hand: Python, tar, find, sed, links, temporaries, renamed folders, an inner Ninja."""
    build = folder / "build"
    (build / "parts").mkdir(parents=True)
    texts = {"build.ninja": SCRIPTS.replace("  command = ./generate.py names.txt one two gone\n", ""),
             "inner.ninja": INNER, "one": "1\n", "two": "2\n", "gone": "", "parts/x.txt": "x\n", "parts/y.txt": "y\n",
             "helper.py": "import json\ndef line(it):\n    return json.dumps(open(it).read()) + '\\n'\n",
             "generate.py": "#!/usr/bin/env python3\n" + GENERATE}
    for name, text in texts.items():
        (build / name).write_text(text)
    (build / "generate.py").chmod(0o755)
    return build


def by_hand(folder: pathlib.Path) -> pathlib.Path:
    """A manifest by hand: depfiles, response files, restat, pools, names outside of ASCII."""
    build = folder / "b\u00fcild"
    build.mkdir(parents=True)
    for name, text in projects.c_sources().items():
        path = folder / "src" / name
        path.parent.mkdir(exist_ok=True)
        for header in ("step", "kept", "version"):
            text = text.replace(f'"{header}.h"', f'"../b\u00fcild/{header}.h"')
        path.write_text(text)
    (build / "build.in").write_text(projects.HAND)
    (build / "build.ninja").write_text(projects.HAND)
    subprocess.run(["ninja", "build.ninja"], cwd=build, check=True, capture_output=True)
    return build


def by_cmake(folder: pathlib.Path) -> pathlib.Path:
    """A project of CMake's."""
    words = ("cmake", "-G", "Ninja", "-S", "src \u00fc", "-B", "b\u00fcild it")
    return _generated(folder, "CMakeLists.txt", projects.CMAKE, *words)


def by_meson(folder: pathlib.Path) -> pathlib.Path:
    """A project of Meson's."""
    return _generated(folder, "meson.build", projects.MESON, "meson", "setup", "b\u00fcild it", "src \u00fc")


def _generated(folder: pathlib.Path, name: str, text: str, *words: str) -> pathlib.Path:
    source = folder / "src \u00fc"
    source.mkdir(parents=True)
    for path, content in {name: text, **projects.c_sources()}.items():
        (source / path).write_text(content)
    subprocess.run(words, cwd=folder, check=True, capture_output=True)
    return folder / "b\u00fcild it"


def _without_chance(paths: set[bytes]) -> list[bytes]:
    """The names of temporaries without what ar, sed and Python choose by chance."""
    return sorted(re.sub(rb"\b(st|tmp|sed)\w{6,8}$", rb"\1", it) for it in paths)


@unittest.skipIf(REFUSED, REFUSED)
class Agreement(unittest.TestCase):
    maxDiff = None

    def agree(self, make, *tools):
        if builds.missing_tools(*tools):
            self.skipTest(builds.missing_tools(*tools))
        room = Room()
        self.addCleanup(room.close)
        folder = room.path / "project"
        build = make(folder)
        shutil.copytree(folder, room.path / "kept", symlinks=True)
        told = {}
        for observer in ("own", "strace"):
            shutil.rmtree(folder)
            shutil.copytree(room.path / "kept", folder, symlinks=True)
            environment = {"PYTHONDONTWRITEBYTECODE": "1", "LC_ALL": "C.UTF-8"}
            found = room.record(observer, build, words=("-j", "1"), environment=environment)
            self.assertEqual(found.status, 0, found.said)
            told[observer] = found.commands
        self.assertEqual(list(told["own"]), list(told["strace"]))
        self.assertGreater(len(told["own"]), 5)
        for name, it in told["own"].items():
            other = told["strace"][name]
            for kind in ("flags", *KINDS, "outside"):
                one, two = getattr(it, kind), getattr(other, kind)
                if kind == "temps":
                    one, two = _without_chance(one), _without_chance(two)
                self.assertEqual(one, two, (name, kind))
        return told["own"]

    def test_a_manifest_of_scripts(self):
        found = self.agree(scripts, "python3", "tar", "find", "sed")
        self.assertLessEqual({b"parts/x.txt", b"parts/y.txt", b"helper.py", b"generate.py", b"one", b"two", b"gone"},
                             found[b"names.txt"].reads)
        self.assertLessEqual({b"kept/moved/x.txt", b"kept/moved/y.txt", b"names.txt"}, found[b"names.txt"].writes)
        self.assertEqual(found[b"inner"].writes, {b"inner", b"in1", b"in2"} | found[b"inner"].writes)
        self.assertLessEqual({b"other", b"hard", b"linked"}, found[b"linked"].writes)

    def test_a_manifest_by_hand(self):
        found = self.agree(by_hand, "cc")
        self.assertIn(b"greet.done", found[b"greet"].writes)

    def test_cmake(self):
        self.agree(by_cmake, "cmake", "cc")

    def test_meson(self):
        self.agree(by_meson, "meson", "cc")


if __name__ == "__main__":
    unittest.main()
