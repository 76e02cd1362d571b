"""A small repository in which tools are tested, with a command rt that only says what the kit's would."""

from __future__ import annotations

import os
import shutil
import subprocess
import tempfile
import unittest
from collections.abc import Iterable
from pathlib import Path

TOP = Path(__file__).resolve().parent.parent
# Some two seconds of a processor.
WORK = "for ((n = 0; n < 1000000; n++)); do :; done"


class SmallRepository(unittest.TestCase):
    """The repository is `top`. Beside it stand the command rt, and a shell by the prover's name that can do WORK."""

    def make(self, crates: dict[str, str], with_edits: Iterable[str], tools: Iterable[str], rt: str) -> None:
        """Makes it, of crates and what each stands on. Those with edits have one each, of what stands in the crate."""
        self.room = Path(tempfile.mkdtemp(prefix="rebug-small-"))
        self.addCleanup(shutil.rmtree, self.room)
        self.top = self.room / "top"
        self.write("HANDLES", "Handles allowed: Threads, Wait.\n")
        self.write("crates.txt", "".join(f"{name}: {uses}\n" for name, uses in crates.items()))
        for name in crates:
            self.write(f"crates/{name}/src/lib.rt", f"// {name}\n")
        for name in with_edits:
            self.write(f"crates/{name}/must-fail/turned.edit", f"file: src/lib.rt\nold: // {name}\nnew: // not\n")
        (self.top / "tools").mkdir()
        for name in tools:
            shutil.copy(TOP / "tools" / name, self.top / "tools" / name)
        self.write("../bin/rt", rt)
        (self.room / "bin/rt").chmod(0o755)
        shutil.copy(str(shutil.which("bash")), self.room / "bin/rattle")
        path = f"{self.room}/bin:{os.environ['PATH']}"
        self.environment = {**os.environ, "PATH": path, "PROVER": f"{self.room}/bin/rattle", "WORK": WORK}
        subprocess.run(["git", "init", "-q"], cwd=self.top, check=True)

    def write(self, path: str, text: str) -> None:
        file = self.top / path
        file.parent.mkdir(parents=True, exist_ok=True)
        file.write_text(text, encoding="utf-8")

    def mark(self, **seconds: float) -> None:
        """Gives crates their marks."""
        self.write("tools/proof-seconds", "".join(f"{name} {took}\n" for name, took in seconds.items()))
