"""The races of a recording, as rebug tells them, and what the recording says of their commands."""

from __future__ import annotations

import itertools
import json
import os
import re
import subprocess
from dataclasses import dataclass, field
from typing import Any, Collection

from ..dyndep.kept import CONTENTS, NOTES, ORIGINALS
from ..dyndep.reading import BadDyndep, Told, read_dyndep
from ..regular import read_regular
from ..replaying import words_of_replay

_ESCAPED = re.compile(rb"\\(s|t|n|r|\\|x[0-9a-f]{2})")
_LETTERS = {b"s": b" ", b"t": b"\t", b"n": b"\n", b"r": b"\r", b"\\": b"\\"}
CLASH = "clash"
_KINDS = ("race", "cycle", "own")
_ANSWERED = (0, 4, 5)  # the statuses of `races` with an answer


class NotAsked(Exception):
    """A sentence that says why rebug gave no answer, empty where rebug has said it, and the status to end with."""

    def __init__(self, text: str, status: int) -> None:
        super().__init__(text)
        self.status = status


@dataclass(frozen=True)
class Race:
    """A race by its number, or a clash: its kind, the path, the first outputs of maker and user (of a clash, of the two
    that leave it), where their statements stand, and the path that mends it behind `||` of the user's, if one does. It
    is not told where it is a suspect of a failed build that no error names."""

    number: int
    kind: str
    path: bytes
    maker: bytes
    user: bytes
    maker_place: str
    user_place: str
    mend: bytes | None = None
    is_told: bool = True

    @property
    def is_clash(self) -> bool:
        """Whether both leave the path."""
        return self.kind == CLASH

    def told(self) -> str:
        """What it is, in a line."""
        ends = [f"{shown_name(name)} ({place})" for name, place in ((self.maker, self.maker_place),
                                                                     (self.user, self.user_place))]
        between = "{} writes it, and so does {}" if self.is_clash else "made by {}, used by {}"
        return f"{self.kind} {shown_name(self.path)}{':' * self.is_clash} {between.format(*ends)}"


@dataclass(frozen=True)
class Other:
    """A finding that no order of the commands changes: its number, kind and path."""

    number: int
    kind: str
    path: bytes


@dataclass
class Findings:
    """What `races` finds: races and clashes, and other findings that have a number."""

    races: list[Race] = field(default_factory=list)
    others: list[Other] = field(default_factory=list)

    @property
    def count(self) -> int:
        """How many there are."""
        return len(self.races) + len(self.others)


def shown_name(name: bytes) -> str:
    """A name as `races` shows it: visible ASCII as it is, other bytes escaped."""
    letters = {b: "\\" + letter.decode() for letter, b in _LETTERS.items()}
    return "".join(letters.get(it) or (it.decode() if b"!" <= it <= b"~" else f"\\x{it[0]:02x}")
                   for it in (name[at : at + 1] for at in range(len(name))))


def name_of(text: str) -> bytes:
    """The name that a text of `races` shows."""
    return _ESCAPED.sub(lambda it: _LETTERS.get(it[1]) or bytes([int(it[1][1:], 16)]), text.encode())


class Recording:
    """A recording, of which a program that answers `races` is asked."""

    def __init__(self, program: str, folder: str) -> None:
        self.program, self.folder = program, folder
        if os.path.isfile(folder):
            folder = os.path.dirname(folder) or "."
        self.place = folder

    def findings(self) -> Findings:
        """All of them, by rising numbers. Raises NotAsked."""
        found = Findings()
        for line in self._asked("--json").splitlines():
            try:
                it = json.loads(line)
                if isinstance(it, dict):
                    _take(it, found)
            except (ValueError, KeyError, TypeError, AttributeError, RecursionError) as why:
                raise NotAsked(f"{self.program} answers in a way that is not understood: {why}", 3) from why
        return found

    def _asked(self, *words: str) -> bytes:
        try:
            done = subprocess.run([self.program, "races", *words, self.folder], stdin=subprocess.DEVNULL,
                                  stdout=subprocess.PIPE)
        except OSError as why:
            raise NotAsked(f"{self.program} cannot be run: {why.strerror}", 2) from why
        if 0 < done.returncode < 4:
            raise NotAsked("", done.returncode)  # it has said why
        if done.returncode not in _ANSWERED:
            raise NotAsked(f"{self.program} tells no races: it ended with {done.returncode}", 3)
        return done.stdout

    def manifest_name(self) -> bytes:
        """The name of the manifest in the build folder."""
        words = self._words()
        name = words[0].removeprefix("--manifest=") if words else "build.ninja"
        if name.startswith("outside/"):
            raise NotAsked("the recorded manifest stands outside of the build folder, where no copy is made of it", 2)
        return os.fsencode(name)

    def files(self) -> dict[bytes, bytes]:
        """The recorded files of the manifest, by their names in the recording: the user's own, where what dyndep files
        say was put into those that stand there."""
        words, found = self._words(), {}
        folder = os.fsdecode(ORIGINALS) if self._content(os.fsdecode(NOTES)) is not None else ""
        names = [words[0].removeprefix("--manifest="), *words[words.index("--") + 1 :]] if words else ["build.ninja"]
        for name in names:
            content = self._content(folder + name)
            if content is None:
                raise NotAsked(f"cannot read {self.place}/{folder}{name}: it is not there", 3)
            found[os.fsencode(name)] = content
        return found

    def _content(self, name: str) -> bytes | None:
        """The bytes of a file of the recording; None where it is not there. Raises NotAsked."""
        try:
            return read_regular(os.path.join(self.place, name))
        except FileNotFoundError:
            return None
        except OSError as why:
            raise NotAsked(f"cannot read {self.place}/{name}: {why.strerror}", 3) from why

    def _words(self) -> list[str]:
        content = self._content("replay")
        return content and words_of_replay(content.decode("utf-8", "surrogateescape")) or []

    def told(self) -> dict[bytes, Told]:
        """By an output of a command, what a dyndep file says of the command that Ninja loaded. Raises NotAsked."""
        notes = self._content(os.fsdecode(NOTES)) or b""
        found: dict[bytes, Told] = {}
        for line in notes.split(b"\n"):
            word, *rest = line.split(b" ")
            if word == b"loaded" and len(rest) == 3 and _NUMBER.fullmatch(rest[1]):
                name = os.fsdecode(CONTENTS + rest[1])
                try:
                    found.update(read_dyndep(_plain(rest[0]), self._content(name) or b""))
                except BadDyndep as why:
                    raise NotAsked(f"{self.place}/{name}: {why}", 1) from why
        return found

    def observed(self) -> Observed:
        """What was observed of its commands: nothing where the recording has no such file."""
        content = self._content("observed")
        return Observed() if content is None else Observed.read(content)


def _take(it: dict[str, Any], found: Findings) -> None:
    """Takes an object of the answer: a race, a clash of a file, another finding with a number, or what has none."""
    kind = str(it.get("kind"))
    ends: list[Any] = [it.get(name) for name in (("first", "other") if kind == CLASH else ("maker", "user"))]
    if "number" not in it and kind not in _KINDS:
        return
    number = int(it.get("number", found.count + 1))
    path = it.get("path")
    if kind in (*_KINDS, CLASH, "suspect") and all(isinstance(end, dict) for end in ends):
        names = [name_of(end["output"]) for end in ends]
        places = [f"{end.get('file')}:{end.get('line')}" for end in ends]
        mend = it.get("mend")
        found.races.append(Race(number, kind, name_of(path) if path else names[0], names[0], names[1], places[0],
                                places[1], name_of(mend) if mend else None, kind != "suspect" or bool(path)))
    else:
        found.others.append(Other(number, kind, name_of(path or "")))


_FIELD = re.compile(rb"\\(.)")
_NUMBER = re.compile(rb"[0-9]{1,10}")
_LEAVES = ("writes", "edits", "deletes", "temps")
# The kinds that each word of a line is: those of version 1 are kinds themselves, those of version 2 stand below them.
_KINDS_OF = {
    **{it.encode(): (it,) for it in ("reads", *_LEAVES)},
    b"read": ("reads",),
    b"left": ("writes",), b"edited": ("writes", "edits"), b"linked": ("writes",),
    b"taken": ("deletes",), b"removed": ("deletes",),
}
_WITH_TEXT = (b"linked",)
_OF_FIELDS = {b"s": b" ", b"t": b"\t", b"n": b"\n", b"r": b"\r", b"\\": b"\\", b"0": b""}


Ranges = list[tuple[int, int]]


@dataclass
class Observed:
    """What commands were observed to do: the paths, and by the first output of their edge kind -> ranges of numbers of
    paths. The ranges stay as they are written: all that they name can be far more than the text."""

    paths: list[bytes] = field(default_factory=list)
    of: dict[bytes, dict[str, Ranges]] = field(default_factory=dict)

    @staticmethod
    def read(text: bytes) -> Observed:
        """The observation of this text, of either version. Lines that are not understood are left out."""
        found = Observed()
        uses: dict[str, Ranges] = {}
        for line in text.split(b"\n"):
            word, *rest = line.split(b" ")
            if word == b"path" and rest:
                found.paths.append(_plain(rest[0]))
            elif word == b"edge" and rest:
                uses = found.of.setdefault(_plain(rest[0]), {})
            elif word == b"ninja":
                uses = {}
            else:
                ranges = _ranges(rest[word in _WITH_TEXT :], len(found.paths)) if word in _KINDS_OF else []
                for kind in _KINDS_OF.get(word, ()):
                    uses.setdefault(kind, []).extend(ranges)
        for uses in found.of.values():
            for kind, its in uses.items():
                uses[kind] = _united(its)
        return found

    def _numbers(self, output: bytes, kind: str) -> list[int]:
        ranges = self.of.get(output, {}).get(kind, ())
        return [number for first, last in ranges for number in range(first, last + 1)]

    def left_by(self, output: bytes) -> list[bytes]:
        """What this command leaves and neither reads nor changes in place: what is not there before it ran."""
        others = {*self._numbers(output, "reads"), *self._numbers(output, "edits")}
        return [self.paths[it] for it in self._numbers(output, "writes") if it not in others]

    def left_alone_by(self, outputs: Collection[bytes]) -> list[bytes]:
        """Of what these commands leave in that way, what no other command leaves, changes or takes away."""
        steps = [0] * (len(self.paths) + 1)
        for name, uses in self.of.items():
            for first, last in (it for kind in _LEAVES for it in uses.get(kind, ()) if name not in outputs):
                steps[first] += 1
                steps[last + 1] -= 1
        others = {path for path, count in zip(self.paths, itertools.accumulate(steps)) if count}
        return [path for name in outputs for path in self.left_by(name) if path not in others]

    def written_by(self, output: bytes) -> list[bytes]:
        """All that this command leaves."""
        return [self.paths[it] for it in self._numbers(output, "writes")]

    def changed_by(self, output: bytes) -> list[bytes]:
        """All that this command leaves, changes or takes away."""
        return [self.paths[it] for kind in ("writes", "deletes") for it in self._numbers(output, kind)]

    def leaving(self, path: bytes) -> list[bytes]:
        """The commands that leave this path, by their first outputs."""
        if path not in self.paths:
            return []
        number = self.paths.index(path)
        return [name for name, uses in self.of.items()
                if any(first <= number <= last for first, last in uses.get("writes", ()))]


def _plain(text: bytes) -> bytes:
    return _FIELD.sub(lambda it: _OF_FIELDS.get(it[1], it[1]), text)


def _ranges(words: list[bytes], count: int) -> Ranges:
    """Ranges that rise, of numbers below the count."""
    found: Ranges = []
    least = 0
    for it in words:
        first, _, last = it.partition(b"-")
        if not _NUMBER.fullmatch(first) or last and not _NUMBER.fullmatch(last) or least >= count:
            continue
        begin, end = max(int(first), least), min(int(last or first), count - 1)
        if begin <= end:
            found.append((begin, end))
            least = end + 1
    return found


def _united(ranges: Ranges) -> Ranges:
    """The same numbers in ranges that rise, of which no two have a number in common."""
    found: Ranges = []
    for first, last in sorted(ranges):
        if found and first <= found[-1][1] + 1:
            found[-1] = (found[-1][0], max(last, found[-1][1]))
        else:
            found.append((first, last))
    return found
