"""Recordings with contents that are written here: the files `observed` and `contents` by their pages, the trace and a
manifest; what `rebug causes` answers to two of them."""

from __future__ import annotations

import hashlib
import json
import pathlib
import subprocess
import sys
from dataclasses import dataclass, field

import builds
from recorder.causes.main import answer
from recorder.causes.words import read_words
from shuffled import misfits

CAUSES = builds.RECORDER.parent / "rebug-causes"
KEY = "0123456789abcdef"


def sha(text: str) -> str:
    """The digest of a text that has one byte for each character."""
    return hashlib.sha256(text.encode("latin-1")).hexdigest()


def ended(lines: list[str], *counts: int) -> str:
    """The lines with the last one that is due."""
    text = "".join(f"{it}\n" for it in lines)
    return f"{text}end {' '.join(map(str, counts))} {len(lines)} {sha(text)}\n"


@dataclass
class Command:
    """What a command met and left, by paths. A content is the text of a file; `names` are those in folders."""

    output: str
    read: dict[str, str] = field(default_factory=dict)
    left: dict[str, str] = field(default_factory=dict)
    there: list[str] = field(default_factory=list)
    missing: list[str] = field(default_factory=list)
    unsure: list[str] = field(default_factory=list)
    unsettled: list[str] = field(default_factory=list)
    flags: list[str] = field(default_factory=list)
    names: dict[str, str] = field(default_factory=dict)
    line: str = "make"
    has_failed: bool = False

    def paths(self) -> list[str]:
        return [*self.read, *self.left, *self.there, *self.missing, *self.unsure, *self.unsettled, *self.names]


@dataclass
class Recording:
    """A recorded build."""

    commands: list[Command]
    build: str = "/home/me/project/build"
    source: str = "/home/me/project"
    environment: dict[str, str] = field(default_factory=dict)
    key: str = KEY
    filters: str = ""
    moved: list[str] = field(default_factory=list)

    def numbers(self) -> dict[str, int]:
        """The number of each entry."""
        found: dict[str, int] = {}
        for command in self.commands:
            for path in command.paths():
                found.setdefault(path, len(found))
        return found

    def observed(self) -> str:
        """The file `observed`."""
        at = self.numbers()
        lines = ["rebug-observed 2", "by ptrace 6.1 x86-64", *(f"path {it}" for it in at)]
        for command in self.commands:
            lines.append(f"edge {command.output}")
            lines += [f"flag {it} open sh /x" for it in command.flags]
            for word, paths in (("read", [*command.read, *command.unsure]), ("there", command.there),
                                ("missing", command.missing), ("listed", [*command.names]),
                                ("left", [*command.left, *command.unsettled])):
                its = sorted({at[it] for it in paths})
                if its:
                    lines.append(f"{word} {' '.join(map(str, its))}")
        return ended(lines, len(at), len(self.commands))

    def contents(self, observed: str) -> str:
        """The file `contents`, for this `observed`."""
        at, versions = self.numbers(), dict[tuple[str, str], int]()
        blocks = list[str]()
        for number, command in enumerate(self.commands):
            lines = []
            listed = {f"{folder}/": text for folder, text in command.names.items()}
            for word, its in (("read", {**command.read, **listed}), ("left", command.left)):
                found = sorted(versions.setdefault(it, len(versions)) for it in its.items())
                if found:
                    lines.append(f"{word} {' '.join(map(str, found))}")
            for word, paths in (("unsure", command.unsure), ("unsettled", command.unsettled)):
                if paths:
                    lines.append(f"{word} {' '.join(map(str, sorted(at[it] for it in paths)))}")
            if lines:
                blocks += [f"edge {number}", *lines]
        head = ["rebug-contents 1", "by sha256", f"of {observed.split()[-1]}", f"build {self.build}",
                f"source {self.source}", f"key {self.key}"]
        head += [f"environ {name} {sha(text)[:16]}" for name, text in sorted(self.environment.items())]
        head += [f"names {at[path[:-1]]} 1 {sha(text)}" if path.endswith("/") else
                 f"version {at[path]} {len(text)} {sha(text)}" for path, text in versions]
        if self.moved:
            head.append(f"changed {' '.join(map(str, sorted(at[it] for it in self.moved)))}")
        return ended([*head, *blocks], len(versions), sum(it.startswith("edge ") for it in blocks))

    def manifest(self) -> str:
        """The manifest: each build statement has two lines, from line 3 on."""
        lines = ["rule r", "  command = $c"]
        for command in self.commands:
            lines += [f"build {command.output}: r", f"  c = {command.line}"]
        return "".join(f"{it}\n" for it in lines)

    def trace(self) -> str:
        """The trace: one command after the other."""
        lines = ["rebug-trace 1", "jobs 1", "lane 0", "plan"]
        for it in self.commands:
            lines += [f"start {it.output} 0", f"fail {it.output}" if it.has_failed else f"finish {it.output} 9"]
        return "".join(f"{it}\n" for it in lines)

    def write(self, folder: pathlib.Path) -> pathlib.Path:
        """Writes the files into a new folder."""
        folder.mkdir()
        observed = self.observed()
        for name, text in (("build.ninja", self.manifest()), ("trace", self.trace()), ("observed", observed),
                           ("contents", self.contents(observed)), ("filters", self.filters)):
            (folder / name).write_text(text)
        return folder


@dataclass
class Causes:
    """What a call ended with: the status, what it said, by each first output the object of its command, and all objects
    of other kinds."""

    status: int
    said: str
    commands: dict[str, dict] = field(default_factory=dict)
    more: list[dict] = field(default_factory=list)

    def kinds(self) -> dict[str, str]:
        return {name: it["kind"] for name, it in self.commands.items()}

    def of(self, kind: str) -> set[str]:
        return {name for name, it in self.commands.items() if it["kind"] == kind}

    def left(self, output: str) -> list[str]:
        """The places at which a command left other contents."""
        return [it["path"] for it in self.commands[output]["left"]]

    def differs(self, output: str) -> list[str]:
        """The places that answered a command otherwise."""
        return [it["path"] for it in self.commands[output]["differs"]]

    @property
    def end(self) -> dict:
        return self.more[-1]


def told(*words: object) -> tuple[int, list[str]]:
    """The status and the lines that these words get, in this process: as quick as many small recordings want it."""
    status, lines = answer(read_words(list(map(str, words))))
    return status, list(lines)


def answered(*words: object) -> Causes:
    """The answer as JSON, in this process."""
    status, lines = told(*words, "--json")
    return parsed(status, "", "".join(f"{it}\n" for it in lines))


def called(folder: pathlib.Path, *words: object) -> Causes:
    """The answer as JSON of a process in a folder."""
    line = [sys.executable, str(CAUSES), *map(str, words), "--json"]
    done = subprocess.run(line, stdin=subprocess.DEVNULL, capture_output=True, text=True, cwd=folder,
                          timeout=builds.LONGEST_SECONDS)
    return parsed(done.returncode, done.stderr, done.stdout)


def parsed(status: int, said: str, text: str) -> Causes:
    wrong = misfits(text.encode(), "causes")
    assert not wrong, wrong[:1]
    found = [json.loads(it) for it in text.splitlines()]
    commands = {it["output"]: it for it in found if "depth" in it}
    return Causes(status, said, commands, [it for it in found if "depth" not in it])
