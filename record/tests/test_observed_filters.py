"""The file `filters` that is written beside `observed`: its form, what it hides, and that it hides nothing else."""

import os
import pathlib
import re
import subprocess
import sys
import tempfile
import unittest

import builds
from observing import Room, refusal
from recorder.observed.filters import MOST_BYTES, default_filters

ALWAYS = [b"/dev", b"/proc", b"/sys", b"__pycache__", b"*.pyc", b"*.pyc.*"]


def patterns(text: bytes) -> list[bytes]:
    """The patterns of a file, which is to have the form that docs/FORMATS.md tells."""
    assert len(text) <= MOST_BYTES and text.endswith(b"\n")
    found = [it for it in text.split(b"\n") if it and not it.startswith(b"#")]
    for it in found:
        assert all(it.removeprefix(b"/").split(b"/")), it
    return found


def is_hidden(path: bytes, by: list[bytes]) -> bool:
    """Whether one of the patterns hides a path of `observed`, by the words of docs/FORMATS.md."""
    components = path.split(b"/")
    for pattern in by:
        parts = [re.compile(re.escape(it).replace(rb"\*", b"[^/]*"), re.DOTALL) for it in pattern.split(b"/")]
        if len(parts) == 1:
            if any(parts[0].fullmatch(it) for it in components):
                return True
        elif len(parts) <= len(components) and all(map(re.Pattern.fullmatch, parts, components)):
            return True
    return False


class Defaults(unittest.TestCase):
    """What is written for an environment, without a build."""

    def setUp(self):
        room = tempfile.TemporaryDirectory(prefix="rebug-filters-")
        self.addCleanup(room.cleanup)
        self.room = os.path.realpath(room.name)
        self.environment = {"HOME": f"{self.room}/me", "PATH": "/nowhere"}

    def make(self, *folders):
        for it in folders:
            os.makedirs(f"{self.room}/{it}", exist_ok=True)

    def in_each_folder(self):
        """A name in each folder, as `observed` has the names."""
        folders = [*(it for it, _, _ in os.walk(self.room)), f"{self.room}/me/.cargo/registry",
                   f"{self.room}/me/.cargo/git"]
        return [b"caches/cc/x", b"#cc/x", *(os.fsencode(f"{it}/x") for it in folders),
                *(os.fsencode(f"{self.room}/me/.cargo/{it}") for it in (".package-cache", ".global-cache"))]

    def of_caches(self, build="b", sources=("src",), named=None):
        """The patterns beside those that are always there, relative to the room where they are in it, of a build that
        left these places; without any, a file in each folder."""
        folders = [os.fsencode(f"{self.room}/{it}") for it in (build, *sources)]
        text = default_filters(folders[0], folders[1:], self.in_each_folder() if named is None else named,
                               self.environment)
        found = patterns(text)
        self.assertEqual(found[: len(ALWAYS)], ALWAYS)
        return [os.fsdecode(it).removeprefix(self.room + "/") for it in found[len(ALWAYS) :]]

    def test_what_is_not_there_is_not_named(self):
        self.assertEqual(self.of_caches(), [])

    def test_a_cache_that_the_build_did_not_use_is_not_named(self):
        self.make("me/.ccache", "me/.cache/ccache")
        used = os.fsencode(f"{self.room}/me/.cache/ccache/1/x")
        beside = os.fsencode(f"{self.room}/me/.ccache2")
        self.assertEqual(self.of_caches(named=[b"o", b"me/.ccache/x", beside, used]), ["me/.cache/ccache"])
        self.assertEqual(self.of_caches(named=[]), [])

    def test_caches_of_the_home_folder(self):
        self.make("me/.ccache", "me/.cache/ccache", "me/.cache/g-ir-scanner", "me/.cache/other", "me/.cargo")
        self.assertEqual(self.of_caches(), ["me/.ccache", "me/.cache/ccache", "me/.cache/g-ir-scanner",
                                            *(f"me/.cargo/{it}" for it in ("registry", "git", ".package-cache*",
                                                                           ".global-cache*"))])

    def test_caches_that_the_environment_names(self):
        self.make("me/.ccache", "fast", "caches/ccache", "caches/clang")
        self.environment |= {"CCACHE_DIR": f"{self.room}/fast/", "XDG_CACHE_HOME": f"{self.room}/caches"}
        self.assertEqual(self.of_caches(), ["fast", "caches/clang"])

    def test_a_cache_behind_a_link_is_named_by_its_real_path(self):
        self.make("disk/cc", "me")
        os.symlink("../disk/cc", f"{self.room}/me/.ccache")
        self.assertEqual(self.of_caches(), ["disk/cc"])

    def test_a_cache_in_the_build_folder_is_named_as_the_build_names_it(self):
        self.make("b/caches/cc", "b/#cc")
        self.environment["CCACHE_DIR"] = f"{self.room}/b/caches/cc"
        self.assertEqual(self.of_caches(), ["caches/cc"])
        self.environment["CCACHE_DIR"] = f"{self.room}/b/#cc"  # its line would be a remark
        self.assertEqual(self.of_caches(), [])

    def test_what_would_hide_the_build_or_its_sources_is_left_out(self):
        self.make("b", "src/deep")
        for folder in ("b", "src", "src/deep", "", "../.."):
            self.environment["CCACHE_DIR"] = f"{self.room}/{folder}"
            self.assertEqual(self.of_caches(sources=("src/deep",)), [])
        self.make("source")
        self.environment["CCACHE_DIR"] = f"{self.room}/source"
        self.assertEqual(self.of_caches(), ["source"])

    def test_odd_names(self):
        self.make("line\nend", "a *b")
        self.environment["CCACHE_DIR"] = f"{self.room}/line\nend"
        self.assertEqual(self.of_caches(), [])
        self.environment["CCACHE_DIR"] = f"{self.room}/a *b"
        self.assertEqual(self.of_caches(), ["a *b"])

    def test_logs_of_a_ninja_that_commands_run(self):
        logs = [b"sub/.ninja_log", b"#s/.ninja_deps", b"l\nm/.ninja_log"]
        text = default_filters(b"/b", [], [], self.environment, logs)
        self.assertEqual(patterns(text)[len(ALWAYS) :], [b"sub/.ninja_log"])

    def test_the_text_is_never_too_long(self):
        names = ["x" * 250 + "/", "y" * 250 + "/"] * 7
        self.make("b", "".join(names))
        variables = ("CCACHE_DIR", "SCCACHE_DIR", "CLANG_MODULE_CACHE_PATH", "GOCACHE", "GOMODCACHE", "PIP_CACHE_DIR",
                     "npm_config_cache", "CARGO_HOME")
        for count, name in enumerate(variables):
            self.environment[name] = f"{self.room}/{''.join(names[: 14 - count])}"
        found = self.of_caches()
        self.assertGreater(len(found), 4)
        self.assertEqual(found[0], "".join(names).removesuffix("/"))


SCRIPT = "import sys, module\nopen(sys.argv[1], 'w').write(module.text())\n"
PYTHON = ("rule py\n  command = env -u PYTHONDONTWRITEBYTECODE python3 script.py $out\n"
          "build one: py script.py\nbuild two: py script.py\n")
INNER = """rule inner
  command = ninja -C sub $out.txt && touch $out
build one: inner
build two: inner | one
"""
IN_SUB = "rule c\n  command = cp $in $out\nbuild one.txt: c in\nbuild two.txt: c one.txt\n"
CCACHE = ("rule cc\n  command = env -u CCACHE_DISABLE ccache cc -c $in -o $out\n"
          "build one.o: cc one.c\nbuild two.o: cc two.c\n")


class Recorded(unittest.TestCase):
    """What hides the places that two commands of a real build share, and no other."""

    def setUp(self):
        if refusal("own"):
            self.skipTest(refusal("own"))
        self.room = Room()
        self.addCleanup(self.room.close)

    def left_by_both(self, found):
        """The places that two commands of a build left, by whether the recording's own filters hide them."""
        by = patterns((found.out / "filters").read_bytes())
        left: dict[bytes, int] = {}
        for it in found.commands.values():
            for path in it.writes | it.edits | it.deletes | it.temps:
                left[path] = left.get(path, 0) + 1
        hidden = {path: is_hidden(path, by) for path in left}
        self.assertFalse(any(hidden[it] for it in found.commands), hidden)
        return hidden

    def test_compiled_modules(self):
        found = self.room.build("own", PYTHON, {"script.py": SCRIPT, "module.py": "def text():\n    return 'x'\n"})
        hidden = self.left_by_both(found)
        self.assertTrue([it for it, is_so in hidden.items() if is_so and b"__pycache__/module" in it], hidden)
        self.assertEqual({it for it, is_so in hidden.items() if not is_so}, {b"one", b"two"})

    def test_the_log_of_a_ninja_that_commands_run(self):
        found = self.room.build("own", INNER, {"sub/build.ninja": IN_SUB, "sub/in": "in"})
        hidden = self.left_by_both(found)
        self.assertEqual(hidden[b"sub/.ninja_log"], True)
        self.assertEqual({it for it, is_so in hidden.items() if not is_so},
                         {b"one", b"two", b"sub/one.txt", b"sub/two.txt"})
        self.assertIn("2 commands run a Ninja that writes sub/.ninja_log: one, two.", found.said)

    def test_the_folder_of_ccache(self):
        lacking = builds.missing_tools("ccache", "cc")
        if lacking:
            self.skipTest(lacking)
        folder = self.room.path / "a cache"
        found = self.room.build("own", CCACHE, {"one.c": "int one;\n", "two.c": "int two;\n"},
                                environment={"CCACHE_DIR": str(folder)})
        hidden = self.left_by_both(found)
        below = [it for it in hidden if it.startswith(os.fsencode(os.path.realpath(folder)) + b"/")]
        self.assertTrue(below and all(hidden[it] for it in below), hidden)
        self.assertEqual({it for it, is_so in hidden.items() if not is_so and not it.startswith(b"/")},
                         {b"one.o", b"two.o"})

    def test_settings_of_ccache_name_its_folder(self):
        if builds.missing_tools("ccache"):
            self.skipTest(builds.missing_tools("ccache"))
        room = pathlib.Path(os.path.realpath(self.room.path))
        (room / "named").mkdir()
        (room / "settings").write_text(f"cache_dir = {room}/named\n")
        environment = {"HOME": str(room), "PATH": os.environ["PATH"], "CCACHE_CONFIGPATH": str(room / "settings")}
        left = os.fsencode(room / "named/x")
        self.assertIn(os.fsencode(room / "named"), patterns(default_filters(b"/b", [], [left], environment)))

    def test_without_an_observation_there_are_none(self):
        folder = self.room.path / "plain"
        (folder / "build").mkdir(parents=True)
        (folder / "build/build.ninja").write_text("rule t\n  command = touch $out\nbuild a: t\n")
        subprocess.run([sys.executable, builds.RECORDER, folder / "build", folder / "out"], check=True,
                       stdin=subprocess.DEVNULL, capture_output=True)
        self.assertFalse((folder / "out/filters").exists() or (folder / "out/observed").exists())


if __name__ == "__main__":
    unittest.main()
