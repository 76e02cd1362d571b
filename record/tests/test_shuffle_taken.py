"""Three projects whose manifests generators and a hand wrote: as they are, and with a wait taken out by an edit of the
manifest. The command that waits no more is named, with the one that it waited for, and nothing of a whole manifest."""

from __future__ import annotations

import subprocess
import unittest
from collections.abc import Callable
from dataclasses import dataclass

from builds import missing_tools
from projects import CMAKE, HAND, MESON, c_sources
from shuffled import Shuffled
from test_shuffle import LACKING, Case

MAKER = "step.h"
BY_HAND = HAND.replace("command = cc -MD", "command = cc -I. -MD")


@dataclass(frozen=True)
class Edit:
    """A wait that is taken out: what stands behind the `||` of the one statement with this text."""

    text: str

    def user(self, manifest: str) -> str:
        """The first output of that statement, as JSON has it."""
        output = self._line(manifest).removeprefix("build ").replace("$ ", "\\s").split(" ")[0]
        return output.removesuffix(":")

    def made(self, manifest: str) -> str:
        line = self._line(manifest)
        assert " || " in line, line
        return manifest.replace(line, line.partition(" || ")[0])

    def _line(self, manifest: str) -> str:
        (line,) = [it for it in manifest.splitlines() if it.startswith("build ") and self.text in it]
        return line


def by_cmake(it: Shuffled) -> None:
    subprocess.run(["cmake", "-G", "Ninja", "-S", it.room / "src", "-B", it.build], check=True, capture_output=True)


def by_meson(it: Shuffled) -> None:
    subprocess.run(["meson", "setup", it.build, it.room / "src"], check=True, capture_output=True)


def by_hand(it: Shuffled) -> None:
    """The manifest is a copy of `build.in`, by a statement of its own."""
    (it.build / "build.in").write_text(BY_HAND)
    (it.build / "build.ninja").write_text(BY_HAND)
    it.ninja("build.ninja")


class Taken(Case):
    def configured(self, tools: str, text: str, write: Callable[[Shuffled], None]) -> Shuffled:
        lacking = LACKING or missing_tools("cc", *tools.split())
        if lacking:
            self.skipTest(lacking)
        it = self.made("", {f"src/{name}": content for name, content in c_sources().items()})
        for name in ("CMakeLists.txt", "meson.build"):
            (it.room / "src" / name).write_text(text)
        (it.build / "build.ninja").unlink()
        write(it)
        return it

    def named(self, it: Shuffled, edit: Edit) -> None:
        """Nothing is named of the manifest as it is, and with a wait taken out just the pair."""
        self.assertEqual(self.same(it, "--runs", "3").end["unsteady"], [])
        manifest = (it.build / "build.ninja").read_text()
        user = edit.user(manifest)
        (it.build / "build.ninja").write_text(edit.made(manifest))
        self.differs(it, (MAKER, user))

    def test_a_manifest_of_cmake(self) -> None:
        self.named(self.configured("cmake", CMAKE, by_cmake), Edit("w$ one.c"))

    def test_a_manifest_of_meson(self) -> None:
        self.named(self.configured("meson", MESON, by_meson), Edit("w$ one.c"))

    def test_a_manifest_by_hand(self) -> None:
        self.named(self.configured("", "", by_hand), Edit("w$ one.c"))


if __name__ == "__main__":
    unittest.main()
