"""Small builds that are shuffled, and all that stands in their folders."""

from __future__ import annotations

import json
import os
import pathlib
import shutil
import subprocess
import sys
import tempfile
from dataclasses import dataclass, field

import builds

sys.path.append(str(pathlib.Path(__file__).resolve().parents[2] / "tests"))
from json_schema import misfits  # noqa: E402

SHUFFLE = builds.RECORDER.parent / "rebug-shuffle"
RULES = "rule r\n  command = $c\n"
NOBODY = 65534


@dataclass
class Answer:
    """What a call ended with."""

    status: int
    said: str
    objects: list[dict] = field(default_factory=list)

    def of(self, kind: str) -> list[dict]:
        return [it for it in self.objects if it["kind"] == kind]

    @property
    def end(self) -> dict:
        return self.of("shuffled")[0]

    @property
    def difference(self) -> dict:
        return self.of("difference")[0]

    @property
    def pair(self) -> tuple[str, str] | None:
        it = self.difference
        return (it["maker"]["output"], it["user"]["output"]) if it["maker"] else None


def statement(output: str, command: str, waits: str = "") -> str:
    """A build statement with this command of the shell; `waits` is what stands behind the rule."""
    escaped = command.replace("$", "$$").replace("\n", "$\n")
    return f"build {output}: r{' ' if waits else ''}{waits}\n  c = {escaped}\n"


class Shuffled:
    """A build folder `build`, and folders `src` and `elsewhere` beside it, in a room of its own."""

    def __init__(self, text: str, files: dict[str, str] | None = None, rules: str = RULES) -> None:
        self.room = pathlib.Path(tempfile.mkdtemp(prefix="rebug-shuffle-"))
        os.chmod(self.room, 0o755)
        self.build = self.room / "build"
        for name in ("build", "src", "elsewhere"):
            (self.room / name).mkdir()
        for name, content in {"build/build.ninja": rules + text, **(files or {})}.items():
            path = self.room / name
            path.parent.mkdir(parents=True, exist_ok=True)
            path.write_text(content.replace("@ROOM@", str(self.room)))

    def ninja(self, *words: str) -> None:
        """Runs Ninja. What a test writes next is newer than all that was built."""
        subprocess.run(["ninja", *words], cwd=self.build, check=True, stdin=subprocess.DEVNULL, capture_output=True)
        builds.wait_for_another_stamp()

    def words(self, *words: object) -> list[str]:
        return [sys.executable, str(SHUFFLE), str(self.build), *map(str, words)]

    def shuffle(self, *words: object, **how: object) -> Answer:
        """The answer as JSON."""
        at = words.index("--") if "--" in words else len(words)
        done = subprocess.run(self.words(*words[:at], "--json", *words[at:]),
                              **{"stdin": subprocess.DEVNULL, "capture_output": True, "text": True, **how})
        assert not misfits(done.stdout.encode(), "shuffle"), misfits(done.stdout.encode(), "shuffle")
        return Answer(done.returncode, done.stderr, [json.loads(it) for it in done.stdout.splitlines()])

    def told(self, *words: object) -> tuple[int, str]:
        """The answer in words."""
        done = subprocess.run(self.words(*words), stdin=subprocess.DEVNULL, stdout=subprocess.PIPE,
                              stderr=subprocess.STDOUT, text=True)
        return done.returncode, done.stdout

    def everything(self) -> dict[str, tuple]:
        """All that stands in the room: bytes, modes, owners, stamps and inodes."""
        found = {}
        for it in [self.room, *self.room.rglob("*")]:
            status = it.lstat()
            content = os.readlink(it) if it.is_symlink() else it.read_bytes() if it.is_file() else b""
            found[str(it)] = (content, status.st_mode, status.st_uid, status.st_gid, status.st_mtime_ns,
                              status.st_ctime_ns, status.st_ino, status.st_nlink)
        return found

    def remove(self) -> None:
        shutil.rmtree(self.room, ignore_errors=True)
