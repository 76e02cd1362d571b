"""The builds of tests/planted, observed in version 2: each fault that is due shows as a change and a look at one
entry, or as a flag."""

import os
import pathlib
import shutil
import subprocess
import sys
import tempfile
import unittest

import builds
import observed_2
from observing import refusal

PLANTED = pathlib.Path(__file__).resolve().parents[2] / "tests/planted"
REFUSED = refusal("own")
# What no order of commands changes, and what the recorder does not read.
# Findings whose page names other files than the manifest.
DUE = {"g25_mkdir_without_p": ["mkdir gen a.txt b.txt"]}
LEFT_OUT = {"g23_date_in_output": "it writes the time"}


def record(project: pathlib.Path, room: pathlib.Path, jobs: int) -> observed_2.Observation:
    """Records the build of a copy of a project."""
    folder = room / f"{project.name}-{jobs}"
    shutil.copytree(project, folder / "build", symlinks=True)
    build = folder / "build"
    if (build / "CMakeLists.txt").exists():
        build = folder / "made"
        subprocess.run(["cmake", "-G", "Ninja", "-S", folder / "build", "-B", build], check=True, capture_output=True)
    words = [sys.executable, builds.RECORDER, build, folder / "out", "--observe", "--observer", "own", "-j", str(jobs),
             "--", "-k", "0"]
    ran = subprocess.run(words, stdin=subprocess.DEVNULL, capture_output=True, timeout=builds.LONGEST_SECONDS,
                         env={**os.environ, "PYTHONDONTWRITEBYTECODE": "1"})
    assert (folder / "out/observed").exists(), ran.stderr.decode()
    return observed_2.read(folder / "out/observed")


def of_edge(found: observed_2.Observation, edge: bytes) -> observed_2.Block | None:
    """The block of an edge by one of its outputs."""
    return found.blocks.get(edge) or next((it for it in found.blocks.values() if it.has("left", edge)), None)


def words_of(block: observed_2.Block, words: tuple[str, ...], place: bytes) -> set[str]:
    """The words of lines that have an entry, which may be named by an absolute path."""
    return {it for it in words if any(path == place or path.endswith(b"/" + place) for path in block.of(it))}


def shows(found: observed_2.Observation, line: str) -> str:
    """What an observation lacks of a finding that is due; empty where it has it."""
    kinds, place, maker, user = (it.encode() for it in line.split())
    looker = of_edge(found, user)
    if looker is None:
        return f"{line}: no block of the user"
    looks = words_of(looker, observed_2.LOOKS, place) - {"own", "after"}
    changes = words_of(looker, observed_2.CHANGES, place)
    if maker == b"-":
        return "" if looks else f"{line}: nothing looks at it"
    left = of_edge(found, maker)
    if left is None:
        return f"{line}: no block of the maker"
    made = words_of(left, observed_2.CHANGES, place)
    is_folder = b"list" in kinds or b"race-stat" in kinds
    below = {it for word in observed_2.CHANGES for it in left.of(word) if it.startswith(place + b"/")}
    if is_folder and looks and below or made and (looks or changes) or left.flags:
        return ""
    return f"{line}: {made or below} by the maker, {looks | changes} by the user"


@unittest.skipIf(REFUSED, REFUSED)
class Planted(unittest.TestCase):
    def test_each_fault_shows(self):
        with tempfile.TemporaryDirectory(prefix="rebug-planted-") as name:
            for project in sorted(it for it in PLANTED.iterdir() if (it / "due").exists()):
                due = DUE.get(project.name) or (project / "due").read_text().splitlines()
                lacking = [it for it in ("cmake", "cc") if not shutil.which(it)]
                if project.name in LEFT_OUT or lacking:
                    continue
                with self.subTest(project.name):
                    found = record(project, pathlib.Path(os.path.realpath(name)), 1)
                    self.assertTrue(found.is_whole)
                    self.assertEqual([it for it in (shows(found, line) for line in due) if it], [])

    def test_sound_builds_have_no_flag(self):
        with tempfile.TemporaryDirectory(prefix="rebug-planted-") as name:
            for project in sorted(PLANTED.glob("[sh][01]*")):
                with self.subTest(project.name):
                    found = record(project, pathlib.Path(os.path.realpath(name)), 4)
                    self.assertEqual([it.flags for it in found.blocks.values() if it.flags], [])


if __name__ == "__main__":
    unittest.main()
