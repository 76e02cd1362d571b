"""Real builds with dyndep files, step by step, each step recorded: the files in `dyndep` have them as text.

`= NAME` begins a case, `> FILE` and indented lines write a file (a line `\\` leaves out the end of the last one),
`touch` and `rm` change one, and `ninja` runs Ninja unrecorded. `$ STATUS STATUS WORDS` is a build: Ninja's exit status
with one job and with four, as plain Ninja gave them without a recorder, and the words for it. The file
`ninja` has Ninja's own tests of dyndep (src/build_test.cc) as builds.
"""

from __future__ import annotations

import os
import pathlib
import subprocess
import sys
import time
from dataclasses import dataclass, field

import builds

HERE = pathlib.Path(__file__).resolve().parent
JOBS = (1, 4)
_APART = 0.012  # seconds between two changes, so that stamps of a coarse clock differ


@dataclass
class Case:
    """A case: its lines, and what is not recorded of it."""

    name: str
    lines: list[str] = field(default_factory=list)


@dataclass
class Step:
    """One recorded build of a case. `logged` has the outputs that Ninja added to its log."""

    number: int
    wanted: int
    status: int
    said: str
    out: pathlib.Path
    logged: set[str]


def cases() -> dict[str, Case]:
    """All cases by their names."""
    found: dict[str, Case] = {}
    for name in ("ninja", "own"):
        for line in (HERE / "dyndep" / name).read_text().splitlines():
            if line.startswith("= "):
                case = found[line[2:]] = Case(line[2:])
            else:
                case.lines.append(line)
    return found


class Runner:
    """Plays a case in a folder with so many jobs."""

    def __init__(self, case: Case, folder: pathlib.Path, jobs: int, own: tuple[str, ...] = ()) -> None:
        self.case, self.folder, self.jobs, self.own = case, folder, jobs, own
        self.build = folder / "build"
        self.build.mkdir(parents=True)
        self.steps: list[Step] = []
        self.program: tuple[object, ...] = (builds.RECORDER,)

    def run(self) -> list[Step]:
        """All of it; gives the recorded builds."""
        at = 0
        while at < len(self.case.lines):
            word, *rest = self.case.lines[at].split(" ")
            at += 1
            name = " ".join(rest)
            if word == ">":
                at = self.write(name, at)
            elif word == "$":
                self.record(int(rest[JOBS.index(self.jobs)]), rest[len(JOBS):])
            elif word == "ninja":
                subprocess.run(["ninja", *rest], cwd=self.build, stdout=subprocess.DEVNULL, check=True)
            else:
                time.sleep(_APART)
                os.utime(self.build / name) if word == "touch" else (self.build / name).unlink()
        return self.steps

    def write(self, name: str, at: int) -> int:
        text = ""
        while at < len(self.case.lines) and self.case.lines[at].startswith(("  ", "\\")):
            line = self.case.lines[at]
            text = text[:-1] if line == "\\" else text + line[2:] + "\n"
            at += 1
        time.sleep(_APART)
        path = self.build / name
        path.parent.mkdir(parents=True, exist_ok=True)
        path.write_text(text)
        return at

    def logged(self) -> list[str]:
        log = self.build / ".ninja_log"
        return log.read_text().splitlines()[1:] if log.exists() else []

    def record(self, wanted: int, words: list[str]) -> None:
        before, out = self.logged(), self.folder / str(len(self.steps) + 1)
        every = [sys.executable, *self.program, self.build, out, *self.own, "--", f"-j{self.jobs}", *words]
        done = subprocess.run(every, stdin=subprocess.DEVNULL, capture_output=True, text=True)
        after = self.logged()
        new = after[len(before):] if after[: len(before)] == before else after
        self.steps.append(Step(len(self.steps) + 1, wanted, done.returncode, done.stderr, out,
                               {line.split("\t")[3] for line in new}))


class Plain(Runner):
    """Plays a case without a recorder: `status` of each step is that of Ninja itself."""

    def record(self, wanted: int, words: list[str]) -> None:
        before = self.logged()
        done = subprocess.run(["ninja", f"-j{self.jobs}", *words], cwd=self.build, stdin=subprocess.DEVNULL,
                              capture_output=True, text=True)
        new = self.logged()[len(before):]
        self.steps.append(Step(len(self.steps) + 1, wanted, done.returncode, done.stdout, self.folder,
                               {line.split("\t")[3] for line in new}))
