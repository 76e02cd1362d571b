"""Attempts to deceive a certificate (tests/unsound): each has in its observation, of version 2, what makes one order
of its commands differ from another, or a flag that names it."""

import os
import pathlib
import shutil
import subprocess
import sys
import tempfile
import unittest
from concurrent.futures import ThreadPoolExecutor

import builds
import observed_2
from observing import refusal

TOP = pathlib.Path(__file__).resolve().parents[2]
sys.path.insert(0, str(TOP / "tests/unsound"))

from attempts import ATTEMPTS, Attempt  # noqa: E402

REFUSED = refusal("own")
AT_ONCE = 4
TOOLS = {"gcc": "gcc", "git ": "git", "getent": "getent", "ipcmk": "ipcmk", "flock ": "flock", "unshare": "unshare"}


def needs(attempt: Attempt) -> list[str]:
    """Why an attempt cannot be made here."""
    text = attempt.manifest + attempt.setup
    return [tool for word, tool in TOOLS.items() if word in text and not shutil.which(tool)] + [
        "the superuser" for it in ("tmpfs", "mount ", "unshare", "/rebug_", "/dev/shm") if os.geteuid() and
        (it in attempt.root + attempt.setup + text)]


class Room:
    """A folder for all attempts, with a file system in memory below it."""

    def __init__(self) -> None:
        self.path = pathlib.Path(os.path.realpath(tempfile.mkdtemp(prefix="rebug-unsound-")))
        (self.path / "tmpfs").mkdir()
        self.is_mounted = not os.geteuid() and not subprocess.run(
            ["mount", "-t", "tmpfs", "rebug", self.path / "tmpfs"], capture_output=True).returncode

    def close(self) -> None:
        if self.is_mounted:
            subprocess.run(["umount", self.path / "tmpfs"], capture_output=True)
        shutil.rmtree(self.path, ignore_errors=True)

    def placed(self, text: str) -> str:
        return text.replace("@ROOM@", str(self.path))

    def record(self, attempt: Attempt, jobs: int) -> observed_2.Observation:
        """Records the build of an attempt."""
        top = pathlib.Path(self.placed(attempt.root)) if attempt.root else self.path / "w"
        folder = top / attempt.name
        shutil.rmtree(folder, ignore_errors=True)
        folder.mkdir(parents=True)
        for name, text in attempt.files.items():
            path = folder / name
            path.parent.mkdir(parents=True, exist_ok=True)
            path.write_text(self.placed(text))
            path.chmod(0o755 if text.startswith("#!") else 0o644)
        (folder / "build.ninja").write_text(self.placed(attempt.manifest))
        self.shell(attempt.setup, folder)
        try:
            return self.observe(attempt, folder, jobs)
        finally:
            self.shell(attempt.cleanup, folder)
            if attempt.root:
                shutil.rmtree(folder, ignore_errors=True)

    def observe(self, attempt: Attempt, folder: pathlib.Path, jobs: int) -> observed_2.Observation:
        out = self.path / f"{attempt.name}-{jobs}"
        words = [sys.executable, builds.RECORDER, folder, out, "--observe", "--observer", attempt.observer or "own",
                 "-j", str(jobs), "--", *attempt.targets]
        given = folder / attempt.standard_input if attempt.standard_input else pathlib.Path(os.devnull)
        with open(given, "rb") as file:
            ran = subprocess.run(words, stdin=file, capture_output=True, timeout=builds.LONGEST_SECONDS)
        assert (out / "observed").exists(), ran.stderr.decode()
        return observed_2.read(out / "observed")

    def shell(self, text: str, folder: pathlib.Path) -> None:
        if text:
            subprocess.run(["/bin/sh", "-c", self.placed(text)], cwd=folder, stdin=subprocess.DEVNULL,
                           capture_output=True, timeout=builds.LONGEST_SECONDS)


def lacks(found: observed_2.Observation, line: str) -> str:
    """What of a line an observation does not show; empty where it does."""
    who, words, entry = line.split(" ", 2) if line.count(" ") > 1 else (*line.split(" "), "")
    if who == "same":
        return "" if any({words.encode(), entry.encode()} <= it for it in found.same) else line
    block = found.blocks.get(b"" if who == "ninja" else who.encode())
    if block is None:
        return f"{line}: no block"
    if words == "flag":
        return "" if any(it[0] == entry.encode() for it in block.flags) else f"{line}: {block.flags}"
    is_there = any(block.has(it, entry.encode()) for it in words.split(","))
    return "" if is_there else f"{line}: {block.entries}"


@unittest.skipIf(REFUSED, REFUSED)
class Attempts(unittest.TestCase):
    """Each attempt, with one job and with four."""

    @classmethod
    def setUpClass(cls):
        cls.room = Room()
        cls.addClassCleanup(cls.room.close)

    def hold(self, jobs: int) -> None:
        able = [it for it in ATTEMPTS if not needs(it) and (self.room.is_mounted or "tmpfs" not in it.root)]
        self.assertGreater(len(able), 60)
        with ThreadPoolExecutor(AT_ONCE) as pool:
            for attempt, found in zip(able, pool.map(lambda it: self.room.record(it, jobs), able)):
                with self.subTest(attempt.name):
                    self.assertTrue(found.is_whole)
                    lacking = [it for it in (lacks(found, self.room.placed(line)) for line in attempt.shows) if it]
                    self.assertEqual(lacking, [])
                    if not attempt.shows:
                        self.assertEqual([it.flags for it in found.blocks.values() if it.flags], [])

    def test_with_one_job(self):
        self.hold(1)

    def test_with_four_jobs(self):
        self.hold(4)

    def test_a_command_that_was_no_target_has_no_block(self):
        attempt = next(it for it in ATTEMPTS if it.name == "other_targets")
        self.assertNotIn(b"z", self.room.record(attempt, 1).blocks)

    def test_two_that_make_one_folder_do_not_ask_for_it(self):
        attempt = next(it for it in ATTEMPTS if it.name == "n_mkdir_p")
        found = self.room.record(attempt, 1)
        for edge in (b"a", b"b"):
            self.assertFalse(any(found.blocks[edge].has(word, b"o") for word in ("folder", "missing", "there")))


if __name__ == "__main__":
    unittest.main()
