"""Recordings of the orders: each order runs once more, under the recorder and its observer, in a room of its own."""

from __future__ import annotations

import os
import subprocess
import sys
import tempfile
from typing import Sequence

from ..files import copies_of_files
from ..manifest import Manifest
from ..observed.observers import chosen as chosen_observer
from ..provoke.copies import end_with_parent
from .commands import Commands, NoBuild

_RECORDER = os.path.join(os.path.dirname(os.path.dirname(os.path.dirname(os.path.abspath(__file__)))), "rebug-record")
_MOST_SAID = 4096

Recording = dict[bytes, bytes]
"""The files of a recording: their names, with the content of each."""


def check_recordings(commands: Commands) -> None:
    """Raises NoBuild where the orders of these commands cannot be recorded."""
    if any(edge.dyndep for edge in commands.manifest.edges):
        raise NoBuild("--observe: a recording of an order has the manifest's own lines, and dyndep files add to these. "
                      "Nothing has run")
    observer, why_not = chosen_observer(None)
    if observer is None:
        raise NoBuild(f"--observe: the build cannot be observed: {why_not}. Nothing has run")


def record(build: bytes, ninja: Sequence[bytes], targets: Sequence[bytes], manifest: Manifest,
           seconds: float | None) -> tuple[Recording, str]:
    """Runs Ninja under the recorder, in the working folder, which is the build folder's in this room. The recording
    gets the manifest as it is, without the waits that make the order, so that `races` and `certify` answer for that
    manifest. Where nothing was recorded, the text says why."""
    with tempfile.TemporaryDirectory(prefix="rebug-shuffle-") as top:
        out = os.path.join(os.fsencode(top), b"recording")
        words = [sys.executable.encode(), b"-B", _RECORDER.encode(), build, out, b"--observe", b"--anyway", b"--force",
                 b"--", *ninja[1:], b"-j1", *targets]
        said = os.memfd_create("said")
        me = os.getpid()
        process = subprocess.Popen(words, stdin=subprocess.DEVNULL, stdout=subprocess.DEVNULL, stderr=said,
                                   env={**os.environb, b"NINJA": ninja[0]},
                                   preexec_fn=lambda: end_with_parent(me))
        try:
            process.wait(timeout=seconds)
        except subprocess.TimeoutExpired:
            process.kill()
            process.wait()
        files = _files_below(out)
        if b"trace" not in files:
            os.lseek(said, max(0, os.fstat(said).st_size - _MOST_SAID), os.SEEK_SET)
            lines = os.read(said, _MOST_SAID).decode("utf-8", "backslashreplace").split("\n")
            os.close(said)
            return {}, next((it for it in reversed(lines) if it.startswith("rebug-record: ")), "it took too long")
        os.close(said)
        files.update(copies_of_files(manifest))
        return files, ""


def _files_below(folder: bytes) -> Recording:
    """The files below a folder, by their paths from there."""
    found = {}
    for base, _, names in os.walk(folder):
        for name in names:
            path = os.path.join(base, name)
            with open(path, "rb") as file:
                found[os.path.relpath(path, folder)] = file.read()
    return found
