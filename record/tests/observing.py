"""Builds that are recorded with --observe, and the file `observed` as what it says."""

import os
import pathlib
import re
import shutil
import subprocess
import sys
import tempfile
import unittest
from collections.abc import Callable, Iterable, Mapping
from dataclasses import dataclass, field

import observed_2
from builds import RECORDER
from recorder.observed.observers import OBSERVERS

KINDS = ("reads", "stats", "misses", "lists", "writes", "edits", "deletes", "temps", "folders")
# The words of version 2 that each kind of version 1 is (docs/FORMATS.md, "As words of version 1").
WORDS = {"reads": ("read",), "stats": ("status", "mode", "there", "folder"), "misses": ("missing",),
         "lists": ("listed",), "writes": ("left", "edited", "linked"), "edits": ("edited",),
         "deletes": ("taken", "removed"), "temps": ("temps",), "folders": ("made",)}
FLAGS = {"cut": "cut", "socket": "server", "namespace": "namespace", "uring": "uring", "twin": "twin"}
_BACK = {b"\\s": b" ", b"\\t": b"\t", b"\\n": b"\n", b"\\r": b"\r", b"\\\\": b"\\", b"\\0": b"\0"}


@dataclass
class Footprint:
    """What `observed` says of one command."""

    flags: set[str]
    outside: int = 0
    reads: set[bytes] = field(default_factory=set)
    stats: set[bytes] = field(default_factory=set)
    misses: set[bytes] = field(default_factory=set)
    lists: set[bytes] = field(default_factory=set)
    writes: set[bytes] = field(default_factory=set)
    edits: set[bytes] = field(default_factory=set)
    deletes: set[bytes] = field(default_factory=set)
    temps: set[bytes] = field(default_factory=set)
    folders: set[bytes] = field(default_factory=set)


def read_observed(path: pathlib.Path) -> dict[bytes, Footprint]:
    """The footprints of a file `observed` of either version, by the edges' first outputs, in the order of the file."""
    if path.read_bytes().startswith(b"rebug-observed 2\n"):
        found = observed_2.read(path)
        assert found.is_whole, path
        return {name: _footprint(it) for name, it in found.blocks.items() if name}
    lines = [it.split(b" ") for it in path.read_bytes().split(b"\n")[:-1]]
    assert lines[0] == [b"rebug-observed", b"1"] and lines[1][0] == b"by", lines[:2]
    paths: list[bytes] = []
    found: dict[bytes, Footprint] = {}
    for word, *rest in lines[2:]:
        if word == b"path":
            paths.append(_text(rest[0]))
        elif word == b"edge":
            last = found[_text(rest[0])] = Footprint({it.decode() for it in rest[1:]})
        elif word == b"outside":
            last.outside = int(rest[0])
        else:
            getattr(last, word.decode()).update(paths[it] for it in _numbers(rest))
    return found


def _footprint(block: observed_2.Block) -> Footprint:
    """What a block of version 2 is in the words of version 1."""
    causes = {(it[0].decode(), it[1]) for it in block.flags} - {("unknown", b"statfs")}
    found = Footprint({FLAGS.get(flag, "unresolved") for flag, _ in causes}, block.outside)
    for kind, words in WORDS.items():
        getattr(found, kind).update(*(block.of(word) for word in words))
    found.stats -= found.reads | found.lists
    return found


def _text(word: bytes) -> bytes:
    return re.sub(rb"\\[strn0\\]", lambda it: _BACK[it[0]], word)


def _numbers(words: Iterable[bytes]) -> Iterable[int]:
    for word in words:
        first, _, last = word.partition(b"-")
        yield from range(int(first), int(last or first) + 1)


def refusal(observer: str) -> str | None:
    """Why this observer cannot be tested here."""
    why = OBSERVERS[observer]().refusal() if shutil.which("ninja") else "there is no Ninja"
    return why and f"{observer} cannot observe here: {why}"


@dataclass
class Build:
    """A build that was recorded: its folder, the status and what was said, and what its commands did."""

    folder: pathlib.Path
    status: int
    said: str
    commands: dict[bytes, Footprint]

    @property
    def out(self) -> pathlib.Path:
        return self.folder.parent / "out"


class Room:
    """A folder for builds, which is removed at the end."""

    def __init__(self) -> None:
        self.path = pathlib.Path(tempfile.mkdtemp(prefix="rebug-observing-"))

    def close(self) -> None:
        shutil.rmtree(self.path, ignore_errors=True)

    def build(self, observer: str, ninja: str | bytes, files: Mapping[str | bytes, str | bytes] = {}, *,
              words: Iterable[str] = ("-j", "2", "-k", "0"), own: Iterable[str] = (),
              before: Callable[[pathlib.Path], None] | None = None, environment: Mapping[str, str] = {},
              timeout: float = 900, read: bool = True) -> Build:
        """Records the build of a manifest and files in a folder of its own."""
        folder = pathlib.Path(tempfile.mkdtemp(dir=self.path)) / "build"
        folder.mkdir()
        for path, content in {"build.ninja": ninja, **files}.items():
            path = os.path.join(os.fsencode(folder), os.fsencode(path))
            os.makedirs(os.path.dirname(path), exist_ok=True)
            with open(path, "wb") as file:
                file.write(content if isinstance(content, bytes) else content.encode())
        if before is not None:
            before(folder)
        return self.record(observer, folder, words=words, own=own, environment=environment, timeout=timeout,
                           read=read)

    def record(self, observer: str, folder: pathlib.Path, *, words: Iterable[str] = (), own: Iterable[str] = (),
               environment: Mapping[str, str] = {}, timeout: float = 900, read: bool = True) -> Build:
        """Records a build in a folder that is there, observed. `read`: its file is read."""
        out = folder.parent / "out"
        line = [sys.executable, RECORDER, folder, out, "--observe", "--observer", observer, *own, "--", *words]
        with open(folder.parent / "said", "w+b") as said:  # a file, since what lives on may keep it open
            ran = subprocess.run(line, stdin=subprocess.DEVNULL, stdout=said, stderr=subprocess.STDOUT,
                                 env={**os.environ, **environment}, timeout=timeout)
        observed = out / "observed"
        commands = read_observed(observed) if read and observed.exists() else {}
        return Build(folder, ran.returncode, os.fsdecode((folder.parent / "said").read_bytes()), commands)


class WithRoom:
    """Cases with a room for builds, for the observer with the word `observer`; skipped where it cannot work."""

    observer = ""

    @classmethod
    def setUpClass(cls):
        why = refusal(cls.observer)
        if why:
            raise unittest.SkipTest(why)
        cls.room = Room()
        cls.addClassCleanup(cls.room.close)
