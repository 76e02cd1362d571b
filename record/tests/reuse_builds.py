"""Builds that are recorded with contents one after another, and what `rebug reuse` answers; large recordings by
hand."""

from __future__ import annotations

import json
import pathlib
import shutil
import subprocess
import sys
from dataclasses import dataclass, field

import builds
from actions_builds import Written, ended
from rerun_builds import Rerun, body
from shuffled import RULES, misfits

REUSE = builds.RECORDER.parent / "rebug-reuse"


@dataclass
class Answered:
    """What a call ended with: the status, what it said, by each first output the object of the command, by each name
    that of the rule, and all objects of other kinds."""

    status: int
    said: str
    commands: dict[str, dict] = field(default_factory=dict)
    rules: dict[str, dict] = field(default_factory=dict)
    more: list[dict] = field(default_factory=list)
    end: dict = field(default_factory=dict)

    def verdicts(self) -> dict[str, str]:
        return {name: it["verdict"] for name, it in self.commands.items()}

    def of(self, verdict: str) -> set[str]:
        return {name for name, it in self.commands.items() if it["verdict"] == verdict}

    def reasons(self) -> dict[str, str]:
        return {name: it["reason"] for name, it in self.commands.items() if it["reason"]}

    def saved(self) -> set[str]:
        return {name for name, it in self.commands.items() if it["cutoff"]}

    def others(self, output: str) -> list[str]:
        """The places that answered a command otherwise."""
        return [it["path"] for it in self.commands[output]["others"]]


class Reuse(Rerun):
    """A build folder `build`, and recordings by their names beside it."""

    def __init__(self, text: str, files: dict[str, str] | None = None, rules: str = RULES) -> None:
        super().__init__(text, files, rules)
        self.kept: list[pathlib.Path] = []

    def build_as(self, name: str, *words: str, own: tuple[str, ...] = (), env: dict[str, str] | None = None,
                 status: int = 0) -> pathlib.Path:
        """Records the build as it now is; keeps the folder's files beside the recording."""
        self.out = self.room / name
        line = [sys.executable, builds.RECORDER, self.build, self.out, *(own or ("--contents",)), "--", *words]
        ran = subprocess.run(line, stdin=subprocess.DEVNULL, stdout=subprocess.PIPE, stderr=subprocess.STDOUT, env=env,
                             timeout=builds.LONGEST_SECONDS)
        assert ran.returncode == status, ran.stdout.decode()
        shutil.copytree(self.build, self.room / f"files-{name}", symlinks=True)
        return self.out

    def write(self, name: str, text: str) -> None:
        """Writes a file of the build folder anew, with another stamp than before."""
        path = self.build / name
        path.parent.mkdir(parents=True, exist_ok=True)
        builds.wait_for_another_stamp()
        path.write_text(text)

    def clean(self) -> None:
        subprocess.run(["ninja", "-t", "clean"], cwd=self.build, check=True, capture_output=True)
        for it in (".ninja_log", ".ninja_deps"):
            (self.build / it).unlink(missing_ok=True)

    def same_files(self, one: str, other: str) -> set[str]:
        """The files that are the same after two builds, by `diff -rq`."""
        said = subprocess.run(["diff", "-rq", "--no-dereference", f"files-{one}", f"files-{other}"], cwd=self.room,
                              capture_output=True, text=True).stdout
        differ = {it.split(" ")[1].partition("/")[2] for it in said.splitlines() if it.startswith("Files ")}
        names = {str(it.relative_to(self.room / f"files-{one}")) for it in (self.room / f"files-{one}").rglob("*")}
        return {it for it in names if (self.room / f"files-{other}" / it).exists()} - differ

    def words(self, *words: object) -> list[str]:
        its = [str(self.room / it) if isinstance(it, str) and (self.room / it).is_dir() else str(it) for it in words]
        return [sys.executable, str(REUSE), *its]

    def reuse(self, *words: object) -> Answered:
        """The answer as JSON. Names of recordings are those in the room."""
        return answered(self.words(*words, "--json"))


def answered(words: list[str]) -> Answered:
    """What a call with --json ends with."""
    done = subprocess.run(words, stdin=subprocess.DEVNULL, capture_output=True, text=True)
    assert not misfits(done.stdout.encode(), "reuse"), misfits(done.stdout.encode(), "reuse")[:1]
    found = [json.loads(it) for it in done.stdout.splitlines()]
    of = {kind: [it for it in found if it["kind"] == kind] for kind in ("command", "rule", "reuse")}
    return Answered(done.returncode, done.stderr, {it["output"]: it for it in of["command"]},
                    {it["rule"]: it for it in of["rule"]}, [it for it in found if it["kind"] not in of],
                    of["reuse"][0] if found else {})


class Later(Written):
    """A recording by hand after another one: sources of `other` commands have other bytes, and each reads the same
    headers as before."""

    def __init__(self, folder: pathlib.Path, commands: int, reads: int, other: int) -> None:
        self.other = other
        super().__init__(folder, commands, reads)

    def _contents(self, observed: bytes) -> bytes:
        lines = body(super()._contents(observed)).split(b"\n")
        first = next(at for at, it in enumerate(lines) if it.startswith(b"version "))
        for it in range(self.other):
            at = first + self.HEADERS + 2 * it
            lines[at] = lines[at][:-64] + b"0" * 64
        return ended(b"\n".join(lines), b"end 0 0 0")
