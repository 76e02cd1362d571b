"""What a recording says of its commands: the contents that each met and left, and what else it saw of the project."""

from __future__ import annotations

import os
from collections.abc import Iterator
from dataclasses import dataclass, field

from ..fields import canonical
from ..regular import NoFile, read_regular
from .entries import CONTENTS, OBSERVED, OLD, Content, Entries, File, Link, Names
from .lines import BadRecording, Fields, Lines

_WITH_TEXT = (b"link", b"linked", b"searched", b"ensured")
_KEPT = {b"status", b"mode", b"there", b"folder", b"listed", b"link", b"found", b"left", b"edited", b"taken", b"linked",
         b"made", b"removed", b"prepared"}
_IN_BLOCK = {b"read", b"left", b"there", b"missing", b"unsure", b"unsettled"}


@dataclass
class Command:
    """One command, by its edge's first output. Paths are absolute and real.

    `read` and `left` have the contents that it met and left. `asked` are paths at which something was there, and of
    which it did not read the content. `folders` were folders. `taken` are files that it took away, `edited` files that
    it changed in place. `unsure` and `unsettled` are paths whose contents it met and left, and are not known.
    """

    output: bytes
    flags: list[bytes] = field(default_factory=list)
    read: dict[bytes, File] = field(default_factory=dict)
    links: dict[bytes, bytes] = field(default_factory=dict)
    names: dict[bytes, Names] = field(default_factory=dict)
    left: dict[bytes, File | Link] = field(default_factory=dict)
    asked: set[bytes] = field(default_factory=set)
    folders: set[bytes] = field(default_factory=set)
    listed: set[bytes] = field(default_factory=set)
    made: set[bytes] = field(default_factory=set)
    taken: set[bytes] = field(default_factory=set)
    edited: set[bytes] = field(default_factory=set)
    unsure: set[bytes] = field(default_factory=set)
    unsettled: set[bytes] = field(default_factory=set)

    def changed(self) -> set[bytes]:
        """All paths that it made, changed or took away."""
        return {*self.left, *self.made, *self.taken, *self.edited, *self.unsettled}


@dataclass
class Recorded:
    """A recording with contents: the build folder, the folders of the sources, the key and the keyed digests of the
    environment, and the commands in the order of their starts. `ninjas` are paths that Ninja itself changed, and
    `failed` the first outputs of commands that did not end well."""

    build: bytes
    sources: list[bytes]
    key: bytes
    environment: dict[bytes, bytes]
    commands: list[Command]
    ninjas: set[bytes]
    failed: set[bytes]


def read_recording(folder: bytes) -> Recorded:
    """The recording in a folder. Raises BadRecording."""
    observed, contents = (_read(folder, name) for name in (b"observed", b"contents"))
    if observed.split(b"\n")[0] == OLD or not contents:
        raise BadRecording(f"{os.fsdecode(folder)} has no contents: record the build with --contents")
    reader = _Reader(Lines("observed", observed, OBSERVED), Lines("contents", contents, CONTENTS))
    found = reader.read()
    found.failed = set(_failed(_read(folder, b"trace")))
    return found


def _read(folder: bytes, name: bytes) -> bytes:
    try:
        return read_regular(os.path.join(folder, name))
    except FileNotFoundError as why:
        if name == b"contents":
            return b""
        raise BadRecording(f"{os.fsdecode(folder)} is no recording that was made with --contents: it has no file "
                           f"{os.fsdecode(name)}") from why
    except NoFile as why:
        raise BadRecording(f"{os.fsdecode(name)}: {why.strerror}") from why
    except OSError as why:
        raise BadRecording(f"cannot read {os.fsdecode(os.path.join(folder, name))}: {why.strerror}") from why


def _failed(trace: bytes) -> Iterator[bytes]:
    """The first outputs of the edges whose commands failed or were stopped."""
    lines = Fields("trace")
    for at, it in enumerate(trace.split(b"\n")):
        words = it.split(b" ")
        if words[0] in (b"fail", b"abort") and len(words) > 1:
            yield canonical(lines.text(at, words[1]))


class _Reader(Entries):
    """Reads both files, of which `contents` refers to `observed` by numbers."""

    def __init__(self, observed: Lines, contents: Lines) -> None:
        super().__init__(observed, contents)
        self.commands: list[Command] = []
        self.ninjas: set[bytes] = set()

    def read(self) -> Recorded:
        self.read_head()
        self._read_observed()
        self._read_blocks(self.read_contents())
        return Recorded(self.build, self.sources, self.key, self.environment, self.commands, self.ninjas, set())

    def _read_observed(self) -> None:
        lines = self.observed
        command: Command | None = None
        is_ninja = False
        for at, it in enumerate(lines.lines[1:], 1):
            word, *words = it.split(b" ")
            if word == b"path" and words:
                self.take_path(at, words)
            elif word == b"ninja":
                is_ninja, command = True, None
            elif word == b"edge":
                if len(words) != 1:
                    raise lines.fault(at, "an edge without a name")
                command, is_ninja = Command(lines.text(at, words[0])), False
                self.commands.append(command)
            elif word == b"flag" and command is not None:
                command.flags.append(b" ".join(words))
            elif word in _KEPT and (command is not None or is_ninja):
                text = lines.text(at, words.pop(0)) if word in _WITH_TEXT and words else b""
                paths = [self.paths[number] for number in lines.numbers(at, words, len(self.paths))]
                if is_ninja or word == b"prepared":
                    self.ninjas.update(paths)
                if command is not None:
                    _note(command, word, text, paths)

    def _read_blocks(self, begin: int) -> None:
        lines, last, command = self.contents, -1, Command(b"")
        for at, it in enumerate(lines.lines[begin:], begin):
            word, *words = it.split(b" ")
            if word == b"edge":
                number = lines.number(at, b" ".join(words), len(self.commands))
                if number <= last:
                    raise lines.fault(at, "numbers that do not rise")
                command, last = self.commands[number], number
            elif word not in _IN_BLOCK:
                raise lines.fault(at, "a line that may not stand there")
            elif word in (b"read", b"left"):
                for number in lines.numbers(at, words, len(self.versions)):
                    entry, content = self.versions[number]
                    _meet(command, word, self.paths[entry], content)
            else:
                its = {self.paths[number] for number in lines.numbers(at, words, len(self.paths))}
                if word == b"there":
                    command.asked |= its
                elif word == b"unsure":
                    command.unsure |= its
                elif word == b"unsettled":
                    command.unsettled |= its


def _meet(command: Command, word: bytes, path: bytes, content: Content) -> None:
    """Notes a content that a command met or left."""
    if word == b"left":
        if not isinstance(content, Names):
            command.left[path] = content
    elif isinstance(content, File):
        command.read[path] = content
    elif isinstance(content, Link):
        command.links[path] = content.text
    else:
        command.names[path] = content


def _note(command: Command, word: bytes, text: bytes, paths: list[bytes]) -> None:
    """Notes what a line of `observed` says."""
    if word in (b"status", b"mode", b"there"):
        command.asked.update(paths)
    elif word in (b"folder", b"found", b"removed", b"prepared"):
        command.folders.update(paths)
    elif word == b"listed":
        command.folders.update(paths)
        command.listed.update(paths)
    elif word == b"link":
        command.links.update(dict.fromkeys(paths, text))
    elif word == b"linked":
        command.left.update(dict.fromkeys(paths, Link(text)))
    elif word in (b"left", b"made"):
        command.made.update(paths)
    elif word == b"edited":
        command.edited.update(paths)
    elif word == b"taken":
        command.taken.update(paths)
