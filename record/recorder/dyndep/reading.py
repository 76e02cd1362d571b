"""Reads dyndep files, version 1 of their format: the Ninja manual's "Dynamic Dependencies"."""

from __future__ import annotations

import functools
import re
from dataclasses import dataclass
from typing import Any

from ..fields import LONGEST_PATH, canonical, shown
from ..manifest import BadManifest, Reader, Scope, expand

# A version is read as Ninja reads it: numbers behind blanks, whatever stands behind them.
_VERSION = re.compile(rb"\s*(\d+)(?:\.(\d+))?")


class BadDyndep(Exception):
    """Why a dyndep file is refused, or cannot stand in a manifest, as a sentence."""


class Unresolvable(Exception):
    """What a dyndep file says, and Ninja takes, cannot be put into the manifest's text: why, as a sentence."""


@dataclass(frozen=True)
class Told:
    """What a dyndep file says of one build statement; paths are canonical."""

    outputs: tuple[bytes, ...] = ()
    inputs: tuple[bytes, ...] = ()
    restat: bool = False


class _DyndepReader(Reader):
    """Reads the statements of a dyndep file: the version, then build statements with the rule `dyndep`."""

    def __init__(self, name: bytes, text: bytes) -> None:
        super().__init__(None, (name, text, []), Scope(), 0)
        self.told: dict[bytes, Told] = {}
        self.has_version = False

    def variable(self, name: bytes) -> None:
        if self.has_version or name != b"ninja_dyndep_version":
            raise self.bad("expected 'ninja_dyndep_version = ...'")
        version: dict[bytes, bytes] = {}
        self.binding(name, version)
        found = _VERSION.match(version[name])
        if not found or (int(found[1]), int(found[2] or 0)) != (1, 0):
            raise self.bad(f"unsupported version '{shown(version[name])}', and Ninja knows 1")
        self.has_version = True

    def rule(self) -> None:
        raise self.bad("a dyndep file has the version and build statements alone")

    pool = default = rule

    def include(self, keyword: bytes, begin: int) -> None:
        self.rule()

    def build(self) -> None:
        if not self.has_version:
            raise self.bad("expected 'ninja_dyndep_version = ...'")
        explicit = self.paths()
        if len(explicit) != 1:
            raise self.bad("expected one explicit output")
        outputs = self.paths() if self.takes(b"|") else []
        if not self.takes(b":") or self.name_here("'dyndep'") != b"dyndep":
            raise self.bad("expected ': dyndep'")
        if self.paths():
            raise self.bad("expected no explicit input")
        is_bar = not self.text.startswith((b"||", b"|@"), self.at) and self.takes(b"|")
        inputs = self.paths() if is_bar else []
        self.line_end()
        restat = self._restat()
        name = self._path(explicit[0])
        if name in self.told:
            raise self.bad(f"a second statement for {shown(name)}")
        self.told[name] = Told(tuple(map(self._path, outputs)), tuple(map(self._path, inputs)), restat)

    def _restat(self) -> bool:
        """The binding below a build statement, which may be that of `restat` alone."""
        block: dict[bytes, bytes] = {}
        if self.indented():
            name = self.name_here("a variable")
            if name != b"restat":
                raise self.bad("expected 'restat = ...'")
            self.binding(name, block)
            if self.indented():
                raise self.bad("expected one binding")
        return bool(block.get(b"restat"))

    def _path(self, text: Any) -> bytes:
        """A path. No variable has a value in a dyndep file."""
        path = expand(text, lambda _: b"")
        if not path or len(path) > LONGEST_PATH:
            raise self.bad("a path is empty or too long")
        return canonical(path)

    def read(self) -> None:
        super().read()
        if not self.has_version:
            raise self.bad("expected 'ninja_dyndep_version = ...'")


@functools.lru_cache(maxsize=None)
def read_dyndep(name: bytes, text: bytes) -> dict[bytes, Told]:
    """What a dyndep file says, by the output that each of its statements begins with. The same text is read once, and
    the answer is not to be changed. Raises BadDyndep."""
    reader = _DyndepReader(name, text)
    try:
        reader.read()
    except BadManifest as why:
        raise BadDyndep(str(why)) from why
    return reader.told
