"""Version 2 of the file `observed`, as what it says: read by its page (docs/FORMATS.md), and not by the recorder."""

import hashlib
import pathlib
import re
from dataclasses import dataclass, field

LOOKS = ("read", "status", "mode", "there", "folder", "link", "missing", "passed", "listed", "own", "searched", "after")
CHANGES = ("left", "edited", "taken", "temps", "linked", "made", "found", "ensured", "removed")
WORDS = ("cached", *LOOKS, *CHANGES, "prepared")
WITH_FIELD = ("link", "searched", "linked", "ensured")
FLAGS = ("cut", "late", "socket", "ipc", "proc", "namespace", "uring", "attributes", "notified", "deep", "unresolved",
         "unknown", "twin")
HEAD = ("path", "also", "same", "opening", "hidden")
_BACK = {b"\\s": b" ", b"\\t": b"\t", b"\\n": b"\n", b"\\r": b"\r", b"\\\\": b"\\", b"\\0": b""}


class Fault(Exception):
    """The number of a fault, and its line."""


@dataclass
class Block:
    """What one command did: by each word the entries by their paths, and the flags with call, program and text."""

    flags: list[tuple[bytes, ...]] = field(default_factory=list)
    entries: dict[str, set[bytes]] = field(default_factory=dict)
    texts: set[tuple[str, bytes, bytes]] = field(default_factory=set)
    outside: int = 0

    def of(self, word: str) -> set[bytes]:
        return self.entries.get(word, set())

    def has(self, word: str, path: bytes) -> bool:
        return path in self.of(word)


@dataclass
class Observation:
    """A whole file. `blocks` has `ninja` under the empty name."""

    by: tuple[bytes, ...]
    paths: list[bytes] = field(default_factory=list)
    folders: list[int | None] = field(default_factory=list)
    also: dict[bytes, bytes] = field(default_factory=dict)
    same: list[set[bytes]] = field(default_factory=list)
    opening: set[bytes] = field(default_factory=set)
    hidden: dict[bytes, int] = field(default_factory=dict)
    blocks: dict[bytes, Block] = field(default_factory=dict)
    is_whole: bool = False


def text_of(word: bytes) -> bytes:
    if not re.fullmatch(rb"(?:[^\\\t\r ]|\\[strn\\])+|\\0", word):
        raise ValueError
    return re.sub(rb"\\[strn0\\]", lambda it: _BACK[it[0]], word)


def number_of(word: bytes) -> int:
    if not re.fullmatch(rb"0|[1-9]\d*", word):
        raise ValueError
    return int(word)


def numbers_of(words: list[bytes], count: int) -> list[int]:
    """The numbers of ranges that rise."""
    found: list[int] = []
    for word in words:
        first, is_range, last = word.partition(b"-")
        begin, end = number_of(first), number_of(last if is_range else first)
        assert begin <= end < count and (not found or begin > found[-1]), words
        found += range(begin, end + 1)
    assert found, words
    return found


def read(path: pathlib.Path) -> Observation:
    """A file without a fault; an assertion fails where it has one."""
    data = path.read_bytes()
    text = data[: data.rfind(b"\n") + 1]
    lines = text.splitlines(keepends=False)
    assert lines[0] == b"rebug-observed 2", lines[0]
    word, *rest = lines[1].split(b" ")
    assert word == b"by" and len(rest) == 3, lines[1]
    found = Observation(tuple(map(text_of, rest)))
    block, stage, last = None, 0, -1
    count = sum(1 for it in lines if it.startswith(b"path "))
    for at, line in enumerate(lines[2:], 2):
        word, *rest = line.decode("latin-1").split(" ")
        words = [it.encode("latin-1") for it in rest]
        if word == "end":
            assert at == len(lines) - 1, line
            before = b"".join(it + b"\n" for it in lines[:at])
            due = [count, len(found.blocks) - (b"" in found.blocks), at]
            found.is_whole = words == [*(b"%d" % it for it in due), hashlib.sha256(before).hexdigest().encode()]
        elif block is None and word in HEAD:
            assert HEAD.index(word) >= stage, line
            stage = HEAD.index(word)
            _head(found, word, words, count)
        elif word == "ninja":
            assert not found.blocks and not words, line
            block, last = found.blocks.setdefault(b"", Block()), -1
        elif word == "edge":
            (name,) = map(text_of, words)
            assert name not in found.blocks, line
            block, last = found.blocks.setdefault(name, Block()), -1
        else:
            assert block is not None, line
            last = _line(found, block, word, words, count, last)
    return found


def _head(found: Observation, word: str, words: list[bytes], count: int) -> None:
    paths = found.paths
    if word == "path":
        path = text_of(words[0])
        assert path not in paths and len(words) <= 2 and 1 <= len(path) <= 4096, words
        folder = number_of(words[1]) if len(words) == 2 else None
        assert folder is None or folder < len(paths), words
        paths.append(path)
        found.folders.append(folder)
    elif word == "also":
        path, number = text_of(words[0]), number_of(words[1])
        assert path not in paths and path not in found.also and number < count and len(words) == 2, words
        found.also[path] = paths[number]
    elif word == "same":
        its = {paths[it] for it in numbers_of(words, count)}
        assert len(its) > 1, words
        found.same.append(its)
    elif word == "opening":
        assert not found.opening, words
        found.opening = {paths[it] for it in numbers_of(words, count)}
    else:
        assert len(words) == 2, words
        found.hidden[text_of(words[0])] = number_of(words[1])


def _line(found: Observation, block: Block, word: str, words: list[bytes], count: int, last: int) -> int:
    is_ninja = block is found.blocks.get(b"")
    if word == "flag":
        assert len(words) == 4 and words[0].decode() in FLAGS and last == -1 and not is_ninja, words
        block.flags.append((words[0], *map(text_of, words[1:])))
        return -1
    if word == "outside":
        assert len(words) == 1 and last < len(WORDS), words
        block.outside = number_of(words[0])
        return len(WORDS)
    at = WORDS.index(word)
    assert at > last or at == last and word in WITH_FIELD, (word, words)
    assert not is_ninja or word in CHANGES, (word, words)
    text = text_of(words.pop(0)) if word in WITH_FIELD else b""
    for it in numbers_of(words, count):
        block.entries.setdefault(word, set()).add(found.paths[it])
        block.texts.add((word, text, found.paths[it]))
    return at
