"""Small builds that are recorded with contents, and what `rebug actions` answers; and large recordings by hand."""

from __future__ import annotations

import hashlib
import json
import pathlib
import subprocess
import sys
from dataclasses import dataclass, field

import builds
from rerun_builds import Rerun
from shuffled import misfits

ACTIONS = builds.RECORDER.parent / "rebug-actions"


@dataclass
class Answered:
    """What a call ended with: the status, what it said, and by each first output the object of the action."""

    status: int
    said: str
    actions: dict[str, dict] = field(default_factory=dict)
    build: dict = field(default_factory=dict)
    end: dict = field(default_factory=dict)

    def undeclared(self, output: str) -> dict[str, str]:
        """How each undeclared path was met."""
        return {it["path"]: it["how"] for it in self.actions[output]["undeclared"]}

    def all_undeclared(self) -> dict[str, list[str]]:
        """The undeclared paths of each command that has some."""
        return {name: [one["path"] for one in it["undeclared"]] for name, it in self.actions.items()
                if it["undeclared"]}

    def files(self, output: str, tree: str = "input_root") -> dict[str, dict]:
        return {it["path"]: it for it in self.actions[output][tree]["files"]}

    def links(self, output: str, tree: str = "input_root") -> dict[str, str]:
        return {it["path"]: it["target"] for it in self.actions[output][tree]["symlinks"]}


class Actions(Rerun):
    """A build folder `build`, and a recording `out`."""

    def words(self, *words: object) -> list[str]:
        return [sys.executable, str(ACTIONS), str(self.out), *map(str, words)]

    def actions(self, *words: object) -> Answered:
        """The answer as JSON."""
        return answered(self.words(*words, "--json"))


def answered(words: list[str]) -> Answered:
    """What a call with --json ends with."""
    done = subprocess.run(words, stdin=subprocess.DEVNULL, capture_output=True, text=True)
    assert not misfits(done.stdout.encode(), "actions"), misfits(done.stdout.encode(), "actions")[:1]
    build, *found = [json.loads(it) for it in done.stdout.splitlines()] or [{}]
    return Answered(done.returncode, done.stderr, {it["output"]: it for it in found[:-1]}, build,
                    found[-1] if found else {})


def digest_of(text: bytes) -> str:
    return hashlib.sha256(text).hexdigest()


class Written:
    """A recording that is written by hand: each command reads so many of the headers, which its list has, and every
    hundredth reads one more file."""

    HEADERS = 2_000

    def __init__(self, folder: pathlib.Path, commands: int, reads: int, is_phony: bool = False) -> None:
        self.folder, self.commands, self.reads = folder, commands, reads
        folder.mkdir()
        self._write("build.ninja", self._manifest(is_phony))
        self._write("trace", self._trace(is_phony))
        observed = self._observed()
        self._write("observed", observed)
        self._write("contents", self._contents(observed.split()[-1]))

    def _write(self, name: str, text: bytes) -> None:
        (self.folder / name).write_bytes(text)

    def _range(self, number: int) -> tuple[int, int]:
        begin = number * 7 % (self.HEADERS - self.reads)
        return begin, begin + self.reads - 1

    def _manifest(self, is_phony: bool) -> bytes:
        headers = " ".join(f"h{it}" for it in range(self.HEADERS))
        text = "rule r\n  command = cc $in -o $out\n  deps = gcc\n  depfile = $out.d\n"
        if is_phony:
            text += f"build group: phony {headers}\n"
        text += "".join(f"build o{it}: r c{it}{' || group' * is_phony}\n" for it in range(self.commands))
        return text.encode()

    def _trace(self, is_phony: bool) -> bytes:
        lines = ["rebug-trace 1", "jobs 1", "lane 0", "plan"]
        for it in range(self.commands):
            first, last = self._range(it)
            headers = " ".join(f"h{number}" for number in range(first, last + 1))
            lines += [f"start o{it} 0", f"finish o{it} 9" + f" list {headers}" * (not is_phony)]
        return "\n".join(lines).encode() + b"\n"

    def _observed(self) -> bytes:
        sources = self.HEADERS + 1
        lines = ["rebug-observed 2", "by ptrace 6 x86-64", "path .", *(f"path h{it} 0" for it in range(self.HEADERS)),
                 *(f"path c{it} 0\npath o{it} 0" for it in range(self.commands)), "path more 0"]
        for it in range(self.commands):
            first, last = self._range(it)
            source = sources + 2 * it
            more = f" {sources + 2 * self.commands}" * (it % 100 == 0)
            lines += [f"edge o{it}", f"read {first + 1}-{last + 1} {source}{more}", f"left {source + 1}"]
        return ended("\n".join(lines).encode() + b"\n", b"end 0 0 0")

    def _contents(self, observed: bytes) -> bytes:
        digest = digest_of(b"x")
        count = self.HEADERS + 2 * self.commands + 1
        lines = ["rebug-contents 1", "by sha256", f"of {observed.decode()}", "build /nowhere/build", "key 0",
                 *(f"version {it + 1} 10 {digest}" for it in range(count))]
        for it in range(self.commands):
            first, last = self._range(it)
            source = self.HEADERS + 2 * it
            more = f" {count - 1}" * (it % 100 == 0)
            lines += [f"edge {it}", f"read {first}-{last} {source}{more}", f"left {source + 1}"]
        return ended("\n".join(lines).encode() + b"\n", b"end 0 0 0")


def ended(text: bytes, last: bytes) -> bytes:
    """Lines with a last line that is right for them."""
    return text + last + b" " + digest_of(text).encode() + b"\n"
