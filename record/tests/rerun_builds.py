"""Small builds that are recorded with contents, and whose commands are run again."""

from __future__ import annotations

import hashlib
import json
import os
import pathlib
import subprocess
import sys
from dataclasses import dataclass, field

import builds
from shuffled import RULES, Shuffled

sys.path.append(str(pathlib.Path(__file__).resolve().parents[2] / "tests"))
from json_schema import misfits  # noqa: E402

RERUN = builds.RECORDER.parent / "rebug-rerun"


@dataclass
class Again:
    """What a call ended with: the status, what it said, and by each first output the object of the command."""

    status: int
    said: str
    commands: dict[str, dict] = field(default_factory=dict)
    end: dict = field(default_factory=dict)

    def results(self) -> dict[str, str]:
        return {name: it["result"] for name, it in self.commands.items()}


class Rerun(Shuffled):
    """A build folder `build`, a recording `out`, and folders `src` and `elsewhere` beside them, in a room of its own.
    Files of this test that are for no command stand in `src`, which is no folder of the project unless the manifest
    names something in it."""

    def __init__(self, text: str, files: dict[str, str] | None = None, rules: str = RULES) -> None:
        super().__init__(text, files, rules)
        self.out = self.room / "out"

    def record(self, *words: str, own: tuple[str, ...] = ()) -> int:
        line = [sys.executable, builds.RECORDER, self.build, self.out, "--contents", *own, "--", *words]
        ran = subprocess.run(line, stdin=subprocess.DEVNULL, stdout=subprocess.PIPE, stderr=subprocess.STDOUT,
                             timeout=builds.LONGEST_SECONDS)
        assert (self.out / "contents").is_file(), ran.stdout.decode()
        return ran.returncode

    def words(self, *words: object) -> list[str]:
        return [sys.executable, str(RERUN), str(self.build), str(self.out), *map(str, words)]

    def rerun(self, *words: object, **how: object) -> Again:
        """The answer as JSON."""
        done = subprocess.run(self.words(*words, "--json"),
                              **{"stdin": subprocess.DEVNULL, "capture_output": True, "text": True, **how})
        assert not misfits(done.stdout.encode(), "rerun"), misfits(done.stdout.encode(), "rerun")
        found = [json.loads(it) for it in done.stdout.splitlines()]
        return Again(done.returncode, done.stderr, {it["output"]: it for it in found[:-1]}, found[-1] if found else {})

    def rewrite(self, observed: bytes | None = None, contents: bytes | None = None) -> None:
        """Writes lines anew, with last lines that are right for them."""
        lines = {"observed": observed, "contents": contents}
        for name, text in lines.items():
            if text is None:
                text = body((self.out / name).read_bytes())
            if name == "contents":
                digest = (self.out / "observed").read_bytes().split(b" ")[-1].strip()
                text = b"".join(b"of " + digest + b"\n" if it.startswith(b"of ") else it
                                for it in text.splitlines(keepends=True))
            last = (self.out / name).read_bytes().splitlines()[-1].rsplit(b" ", 1)[0]
            (self.out / name).write_bytes(text + last + b" " + hashlib.sha256(text).hexdigest().encode() + b"\n")

    def forget(self, output: str, path: str) -> None:
        """Has the recording show nothing of a file in what a command met."""
        observed, contents = (body((self.out / name).read_bytes()) for name in ("observed", "contents"))
        paths = [it.split(b" ")[1] for it in observed.splitlines() if it.startswith(b"path ")]
        place = paths.index(path.encode())
        edges = [it.split(b" ")[1] for it in observed.splitlines() if it.startswith(b"edge ")]
        number = edges.index(output.encode())
        versions = [it for it in contents.splitlines() if it.split(b" ")[0] in (b"version", b"link", b"names")]
        of_path = {at for at, it in enumerate(versions) if it.split(b" ")[:2] == [b"version", b"%d" % place]}
        self.rewrite(without(observed, b"edge " + output.encode(), (b"read", b"status", b"there", b"mode"), {place}))
        self.rewrite(contents=without(contents, b"edge %d" % number, (b"read",), of_path))


    def doubt(self, output: str, path: str) -> None:
        """Has the recording say that it is not certain which bytes of a file a command met."""
        self.forget(output, path)
        observed, contents = (body((self.out / name).read_bytes()) for name in ("observed", "contents"))
        place = [it.split(b" ")[1] for it in observed.splitlines() if it.startswith(b"path ")].index(path.encode())
        edges = [it.split(b" ")[1] for it in observed.splitlines() if it.startswith(b"edge ")]
        before, edge, after = contents.partition(b"edge %d\n" % edges.index(output.encode()))
        block, next_edge, rest = after.partition(b"edge ")
        self.rewrite(contents=before + edge + block + b"unsure %d\n" % place + next_edge + rest)


def body(data: bytes) -> bytes:
    """All but the last line."""
    return data[: data.rstrip(b"\n").rfind(b"\n") + 1]


def without(text: bytes, edge: bytes, words: tuple[bytes, ...], numbers: set[int]) -> bytes:
    """A text in which lines of one block do not have some numbers."""
    found, is_in = [], False
    for line in text.splitlines():
        word, *fields = line.split(b" ")
        if word == b"edge":
            is_in = line == edge
        if is_in and word in words:
            its = [it for it in numbers_of(fields) if it not in numbers]
            if not its:
                continue
            line = b" ".join([word, *(b"%d" % it for it in its)])
        found.append(line + b"\n")
    return b"".join(found)


def numbers_of(fields: list[bytes]) -> list[int]:
    found: list[int] = []
    for it in fields:
        first, is_range, last = it.partition(b"-")
        found += range(int(first), int(last if is_range else first) + 1)
    return found


def environment(**more: str) -> dict[str, str]:
    return {**os.environ, **more}
