"""Attempts at builds whose commands meet unseen: each is shown by an order, or where commands overlap, with its pair;
and none is shown that is none."""

from __future__ import annotations

import concurrent.futures
import os
import pathlib
import shutil
import subprocess
import unittest

from shuffle_attempts import ATTEMPTS, Attempt, Due
from shuffled import Answer, Shuffled
from test_shuffle import DIFFERS, LACKING

NEEDED = {"gcc": ("gcc", "-I"), "cmake": ("cmake -E",), "git": ("git ",), "strace": ("strace",), "getent": ("getent",)}
NEEDS_ROOT = ("mount ", "/tmpfs")


def lacking(it: Attempt) -> str:
    """What this machine lacks for an attempt."""
    text = it.build.manifest + it.build.setup + it.build.root
    if os.geteuid() and any(word in text for word in NEEDS_ROOT):
        return "root"
    return next((tool for tool, words in NEEDED.items() if any(word in text for word in words)
                 and not shutil.which(tool)), "")


class Made(Shuffled):
    """The build of an attempt."""

    def __init__(self, it: Attempt) -> None:
        super().__init__("")
        self.attempt = it.build
        self.build = pathlib.Path(self.placed(it.build.root or "@ROOM@")) / it.build.name
        if it.build.root.endswith("/tmpfs"):
            self.build.parent.mkdir()
            subprocess.run(["mount", "-t", "tmpfs", "rebug", self.build.parent], check=True)
        self.build.mkdir(parents=True, exist_ok=True)
        for name, text in {**it.build.files, "build.ninja": it.manifest()}.items():
            path = self.build / name
            path.parent.mkdir(parents=True, exist_ok=True)
            path.write_text(self.placed(text))
            path.chmod(0o755 if text.startswith("#!") else 0o644)
        self.shell(it.build.setup)

    def placed(self, text: str) -> str:
        return text.replace("@ROOM@", str(self.room))

    def shell(self, text: str) -> None:
        subprocess.run(self.placed(text), shell=True, cwd=self.build, check=True, stdin=subprocess.DEVNULL,
                       stdout=subprocess.DEVNULL, stderr=subprocess.DEVNULL)

    def remove(self) -> None:
        self.shell(self.attempt.cleanup)
        if self.attempt.root.endswith("/tmpfs"):
            subprocess.run(["umount", self.build.parent], check=True)
        elif self.attempt.root:
            shutil.rmtree(self.build.parent, ignore_errors=True)
        super().remove()


def shuffled(it: Attempt) -> tuple[Answer, bool]:
    """The answer, and whether all stands as it did."""
    made = Made(it)
    try:
        before = made.everything()
        words = ["--overlap", "-j", "1"] if it.due is Due.OVERLAP else []
        how = {"stdin": (made.build / stdin).open("rb")} if (stdin := it.build.standard_input) else {}
        found = made.shuffle(*words, "--", *it.build.targets, **how)
        return found, made.everything() == before
    finally:
        made.remove()


@unittest.skipIf(LACKING, LACKING)
class Attempts(unittest.TestCase):
    def test_each_is_shown_as_it_is_due(self):
        chosen = [it for it in ATTEMPTS if not lacking(it)]
        left_out = [f"{it.build.name} ({lacking(it)})" for it in ATTEMPTS if lacking(it)]
        if left_out:
            print(f"left out, for lack of what stands behind: {', '.join(left_out)}")
        with concurrent.futures.ThreadPoolExecutor(len(os.sched_getaffinity(0))) as pool:
            answers = list(pool.map(shuffled, chosen))
        for it, (found, is_as_before) in zip(chosen, answers):
            with self.subTest(it.build.name, what=it.build.what):
                is_shown = it.due in (Due.ORDER, Due.OVERLAP)
                due = DIFFERS if is_shown else 0
                self.assertEqual((found.status, is_as_before), (due, True), (found.said, found.objects))
                if it.due is Due.ORDER:
                    self.assertEqual((found.pair, found.difference["mended"]), (it.pair, True), found.objects)
                elif is_shown:
                    self.assertEqual((found.difference["user"]["output"], [them["output"] for them in
                                      found.difference["beside"]]), ("b", ["a"]), found.objects)


if __name__ == "__main__":
    unittest.main()
