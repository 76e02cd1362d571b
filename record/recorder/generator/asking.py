"""Asks the generator of a build folder again, in a copy of the folders that is thrown away (`copies`): what it declares
where, and the manifest that comes of the sources as they are, or as edits would have them.

All that is run is what the build folder names: the CMake of its cache, or the words by which its manifest has Meson or
GN write it anew.
"""

from __future__ import annotations

import json
import os
import re
import shlex
import subprocess
import sys
import time
from dataclasses import dataclass, field
from typing import Any, BinaryIO

from ..manifest import BadManifest, Manifest
from ..provoke.copies import end_with_parent, in_copy
from .cmake import TracedCall, cache_of
from .cmake_reply import REPLY, Reply, read_reply
from .known import generator_of
from .meson import Notes, ToldTarget, read_notes
from .model import Generator, Span

LONGEST_SECONDS = 600
_MOST_SAID = 8192
_EARS = os.path.join(os.path.dirname(os.path.realpath(__file__)), "meson_ears.py")
_UNKNOWN_MESON = 77
_FRAME = re.compile(rb'"global_frame":(\d+)')
_TOLD = re.compile(rb'"cmd":"(add_custom_command|add_custom_target|add_library|add_executable|target_link_libraries)"',
                   re.IGNORECASE)
_EVALUATED = re.compile(r"(.*):(\d+):EVAL")


class GeneratorRefused(Exception):
    """Why the generator wrote no manifest: its last words."""


class Unasked(Exception):
    """Why the generator cannot be asked, as a sentence."""


@dataclass
class Asked:
    """What the generator gave: the files of the manifest, and what it told of its targets."""

    files: dict[bytes, bytes]
    reply: Reply | None = None
    calls: list[TracedCall] = field(default_factory=list)
    notes: Notes | None = None
    told: list[ToldTarget] | None = None
    seconds: float = 0.0

    def manifest(self) -> Manifest:
        """The manifest."""
        return Manifest(next(iter(self.files)), self.files.__getitem__)


@dataclass
class Asker:
    """The generator of a build folder. `build` and `top` are real paths, `words` call the generator."""

    build: str
    top: str
    generator: Generator
    words: list[str]

    @staticmethod
    def of(build: str) -> Asker | None:
        """That of this build folder; None where the generator is not known. Raises Unasked."""
        build = os.path.realpath(build)
        manifest = _manifest(build, {})
        generator = generator_of(build, manifest)
        if generator is None:
            return None
        if generator is Generator.CMAKE:
            cache = cache_of(build)
            top, words = cache.get("CMAKE_HOME_DIRECTORY", ""), [cache.get("CMAKE_COMMAND", "cmake")]
        elif generator is Generator.MESON:
            top, words = _of_meson(build, manifest)
        else:
            from .gn import root_of
            top, words = root_of(build, manifest) or "", _words_of_rule(manifest, b"gn")
        if not os.path.isdir(top) or os.path.realpath(top) == "/" or build == "/":
            raise Unasked(f"the folder of the sources that {build} names is none that can be copied: {top or 'none'}")
        return Asker(build, os.path.realpath(top), generator, words)

    @property
    def name(self) -> str:
        """The generator's name for people."""
        return {Generator.CMAKE: "CMake", Generator.MESON: "Meson", Generator.GN: "GN"}[self.generator]

    def folders(self) -> list[bytes]:
        """The folders that a copy is made of, none below another."""
        found: list[str] = []
        for it in sorted({self.build, self.top}):
            if not any(it.startswith(top + "/") for top in found):
                found.append(it)
        return [os.fsencode(it) for it in found]

    def ask(self) -> Asked:
        """What it tells of the sources as they are. Raises GeneratorRefused, Unasked and what a copy raises."""
        begin = time.monotonic()
        found: Asked = in_copy(self.folders(), self._asked)
        found.seconds = time.monotonic() - begin
        return found

    def attempt(self, texts: dict[str, str]) -> Asked:
        """The manifest that it writes where files have these texts. Raises GeneratorRefused and what a copy raises."""
        def work() -> Asked:
            for file, text in texts.items():
                with open(file, "wb") as out:
                    out.write(text.encode("utf-8", "surrogateescape"))
            self._run(self._plain_words())
            return Asked(_files_of(self.build))
        found: Asked = in_copy(self.folders(), work)
        return found

    def _plain_words(self) -> list[str]:
        if self.generator is Generator.CMAKE:
            return [*self.words, self.build]
        if self.generator is Generator.MESON:
            return [*self.words, "setup", "--reconfigure", self.build, self.top]
        return self.words

    def _asked(self) -> Asked:
        if self.generator is Generator.CMAKE:
            return self._asked_of_cmake()
        told = self._told_by_meson() if self.generator is Generator.MESON else None
        if told is None:
            self._run(self._plain_words())
        found = Asked(_files_of(self.build), told=told)
        if self.generator is Generator.MESON:
            found.notes = read_notes(self.build)
        return found

    def _asked_of_cmake(self) -> Asked:
        reply, query = (os.path.join(self.build, it) for it in (REPLY, ".cmake/api/v1/query"))
        for name in os.listdir(reply) if os.path.isdir(reply) else ():
            os.unlink(os.path.join(reply, name))
        os.makedirs(query, exist_ok=True)
        with open(os.path.join(query, "codemodel-v2"), "wb"):
            pass
        reader, writer = os.pipe()
        trace = _Trace()
        words = [self.words[0], "--trace-expand", "--trace-format=json-v1", f"--trace-redirect=/dev/fd/{writer}",
                 self.build]
        with os.fdopen(reader, "rb") as lines:
            self._run(words, lines, writer, trace)
        return Asked(_files_of(self.build), read_reply(self.build), trace.found)

    def _told_by_meson(self) -> list[ToldTarget] | None:
        """What Meson's interpreter told; None where this Meson is not one that can be listened to."""
        python = _python_of(self.words)
        if python is None:
            return None
        out = os.path.join(self.build, ".rebug-told")
        words = [*python, _EARS, out, self.words[-1], "setup", "--reconfigure", self.build, self.top]
        if self._run(words, may_end_with=_UNKNOWN_MESON):
            return None
        with open(out, encoding="utf-8", errors="surrogateescape") as file:
            return [ToldTarget(it["what"], it["id"], it["outputs"], it["calls"], it["dependencies"])
                    for it in map(json.loads, file)]

    def _run(self, words: list[str], lines: BinaryIO | None = None, writer: int = -1, trace: _Trace | None = None,
             may_end_with: int = 0) -> int:
        """Runs the generator, and takes the lines of its trace as they come. Gives the status, 0 or what it may be."""
        said, me = os.memfd_create("said"), os.getpid()
        kept = () if writer < 0 else (writer,)
        try:
            process = subprocess.Popen(words, cwd=self.build if self.generator is Generator.GN else self.top,
                                       stdin=subprocess.DEVNULL, stdout=said, stderr=said, pass_fds=kept,
                                       preexec_fn=lambda: end_with_parent(me))
        except OSError as why:
            raise Unasked(f"{words[0]} cannot be run: {why.strerror}") from why
        finally:
            for it in kept:
                os.close(it)
        if lines is not None and trace is not None:
            trace.read(lines)
        try:
            status = process.wait(timeout=LONGEST_SECONDS)
        except subprocess.TimeoutExpired as gone:
            process.kill()
            process.wait()
            raise GeneratorRefused(f"it did not end within {LONGEST_SECONDS} seconds") from gone
        if status and status != may_end_with:
            os.lseek(said, max(0, os.fstat(said).st_size - _MOST_SAID), os.SEEK_SET)
            raise GeneratorRefused(_last_words(os.read(said, _MOST_SAID).decode("utf-8", "backslashreplace"), status))
        os.close(said)
        return status


def _last_words(text: str, status: int) -> str:
    """What a generator said of its fault, in a line."""
    lines = [" ".join(it.split()) for it in text.split("\n") if it.strip()]
    of_errors = (place for place, it in enumerate(lines) if re.search(r"\berror\b", it, re.IGNORECASE))
    at = next(of_errors, max(0, len(lines) - 3))
    found = " ".join(lines[at : at + 4])[:400]
    return found or f"it ended with status {status}"


class _Trace:
    """Takes what matters out of CMake's trace: the calls that declare something, and the calls that they stand in."""

    def __init__(self) -> None:
        self.found: list[TracedCall] = []
        self._stack: dict[int, bytes] = {}

    def read(self, lines: BinaryIO) -> None:
        for line in lines:
            frame = _FRAME.search(line, max(0, len(line) - 400))
            if frame is None:
                continue
            depth = int(frame[1])
            self._stack[depth] = line
            if _TOLD.search(line):
                self._take(depth)

    def _take(self, depth: int) -> None:
        try:
            chain = [json.loads(self._stack[it]) for it in range(depth, 0, -1) if it in self._stack]
        except ValueError:
            return
        self.found.append(TracedCall(chain[0]["cmd"].lower(), chain[0]["args"], [_span(it) for it in chain]))


def _span(it: dict[str, Any]) -> Span:
    """The place of a line of the trace. What `cmake_language(EVAL CODE ..)` runs has the line of that command."""
    evaluated = _EVALUATED.fullmatch(it["file"])
    if evaluated:
        return Span(evaluated[1], int(evaluated[2]), int(evaluated[2]), it["cmd"])
    return Span(it["file"], it["line"], it.get("line_end", it["line"]), it["cmd"])


def _manifest(build: str, files: dict[bytes, bytes]) -> Manifest:
    """The manifest of a build folder, whose files are noted as they are read."""
    def content(name: bytes) -> bytes:
        with open(os.path.join(os.fsencode(build), name), "rb") as file:
            files[name] = file.read()
        return files[name]
    try:
        return Manifest(b"build.ninja", content)
    except OSError as why:
        raise Unasked(f"cannot read {os.fsdecode(why.filename)}: {why.strerror}") from why
    except BadManifest as why:
        raise Unasked(f"{build}: {why}") from why


def _files_of(build: str) -> dict[bytes, bytes]:
    files: dict[bytes, bytes] = {}
    _manifest(build, files)
    return files


def _words_of_rule(manifest: Manifest, name: bytes) -> list[str]:
    """The words of a rule's command, which has no variables."""
    rule = manifest.scope.rules.get(name, {})
    text = b"".join(it for it in rule.get(b"command", []) if isinstance(it, bytes))
    return shlex.split(os.fsdecode(text))


def _of_meson(build: str, manifest: Manifest) -> tuple[str, list[str]]:
    """The folder of the sources, and the words that call Meson."""
    words = _words_of_rule(manifest, b"REGENERATE_BUILD")
    if "--internal" not in words[1:]:
        raise Unasked(f"the manifest in {build} does not tell which Meson writes it")
    try:
        return read_notes(build).top, words[: words.index("--internal")]
    except (OSError, ValueError, KeyError, TypeError) as why:
        raise Unasked(f"Meson's notes in {build} cannot be read: {why}") from why


def _python_of(words: list[str]) -> list[str] | None:
    """The words that run the Python of a Meson; None where Meson is no script."""
    if len(words) > 1:
        return words[:-1]
    try:
        with open(words[0], "rb") as file:
            first = os.fsdecode(file.readline(4096)).strip()
    except OSError:
        return None
    found = first[2:].split() if first.startswith("#!") else []
    return found if found and "python" in " ".join(found) else None
