"""Edits of the files that generators read, and the texts that come of them.

An edit names a call by its line and its name, or a line. All edits of a file are of its text as it was read, so several
can be made together, whatever their order.
"""

from __future__ import annotations

import enum
import re
from dataclasses import dataclass, field
from typing import Iterable

from .calls import Block, Call, Word, cmake_calls, gn_blocks, meson_calls


class How(enum.Enum):
    """What an edit does."""

    AFTER = "a line behind the last line of a call"
    AT_END = "a line at the end of the file"
    WORDS = "words before the closing parenthesis of a command of CMake"
    SOURCE = "an argument behind the first one of a call of Meson"
    KEYWORD = "an item of a keyword argument of a call of Meson"
    NAME = "a variable for what a call of Meson gives"
    MOVE = "lines that go up, in front of another line"
    DEPS = "an item of `deps` of a target of GN"


@dataclass(frozen=True)
class Edit:
    """What is put where. `line` is the first line of the call `call`, `end` the last line of what AFTER stands behind
    or of what MOVE takes, `key` a keyword's name, and `to` the line that MOVE goes in front of."""

    file: str
    line: int
    how: How
    text: str = ""
    call: str = ""
    key: str = ""
    end: int = 0
    to: int = 0


class NoPlace(Exception):
    """Why an edit cannot be made, as a sentence."""


@dataclass
class _Changes:
    """What is put into a text: pieces at offsets, which stand in the order in which they came, and lines that move."""

    pieces: dict[int, list[str]] = field(default_factory=dict)
    taken: list[tuple[int, int]] = field(default_factory=list)
    moved: dict[int, list[tuple[int, int]]] = field(default_factory=dict)

    def put(self, at: int, piece: str) -> None:
        if piece not in self.pieces.setdefault(at, []):
            self.pieces[at].append(piece)

    def text(self, old: str, begin: int, end: int, is_whole: bool = True) -> str:
        """The part of the text between two offsets, with what is put there."""
        marks = {begin, end, *(it for it in self.pieces if begin <= it < end)}
        if is_whole:
            marks |= {at for span in self.taken for at in span} | set(self.moved)
        found, at = [], begin
        for mark in sorted(it for it in marks if begin <= it <= end):
            if not (is_whole and any(first <= at < last for first, last in self.taken)):
                found.append(old[at:mark])
            at = mark
            if is_whole:
                found += [self.text(old, *span, is_whole=False) for span in self.moved.get(mark, ())]
            is_taken = is_whole and any(first <= mark < last for first, last in self.taken)
            found += [] if is_taken or mark == end and end < len(old) else self.pieces.get(mark, [])
        return "".join(found)


def edited(texts: dict[str, str], edits: Iterable[Edit]) -> dict[str, str]:
    """The new texts of the files that are edited. Raises NoPlace."""
    of_file: dict[str, list[Edit]] = {}
    for it in dict.fromkeys(edits):
        of_file.setdefault(it.file, []).append(it)
    return {file: _Editor(file, texts[file], of_one).edited() for file, of_one in of_file.items()}


class _Editor:
    def __init__(self, file: str, text: str, edits: list[Edit]) -> None:
        self.file, self.text, self.edits = file, text, edits
        self.end = "\r\n" if "\r\n" in text else "\n"
        self.starts = [0, *(it.end() for it in re.finditer("\n", text))]
        self.changes = _Changes()
        self._calls: list[Call] | None = None

    def edited(self) -> str:
        keyed: dict[tuple[int, str, str], list[Edit]] = {}
        for it in self.edits:
            if it.how is How.KEYWORD:
                keyed.setdefault((it.line, it.call, it.key), []).append(it)
            else:
                self._one(it)
        for of_key in keyed.values():
            self._keyword(of_key)
        return self.changes.text(self.text, 0, len(self.text))

    def _one(self, it: Edit) -> None:
        if it.how is How.AFTER:
            self._after(it)
        elif it.how is How.AT_END:
            is_open = self.text and not self.text.endswith("\n")
            self.changes.put(len(self.text), (self.end if is_open else "") + it.text + self.end)
        elif it.how is How.MOVE:
            self._move(it)
        elif it.how is How.DEPS:
            self._deps(it)
        elif it.how is How.WORDS:
            self._words(it)
        elif it.how is How.SOURCE:
            first = self._words_of(it)[0]
            self.changes.put(first.end, ", " + it.text)
        else:
            call = self._call(it)
            if self.text[self._start(it.line) : call.begin].strip():
                raise NoPlace(f"the call of {it.call} in line {it.line} of {self.file} does not begin its line")
            self.changes.put(call.begin, it.text + " = ")

    def _start(self, line: int) -> int:
        """The offset of a line, or the text's end where there are not so many."""
        return self.starts[line - 1] if line <= len(self.starts) else len(self.text)

    def _pad(self, at: int) -> str:
        """The blanks that the line of an offset begins with."""
        begin = self.text.rfind("\n", 0, at) + 1
        found = re.compile(r"[ \t]*").match(self.text, begin)
        return found[0] if found else ""

    def _call(self, it: Edit) -> Call:
        if self._calls is None:
            read = cmake_calls if it.how is How.WORDS else meson_calls
            self._calls = read(self.text)
        found = [call for call in self._calls if call.line == it.line and call.name.lower() == it.call.lower()]
        if len(found) != 1:
            raise NoPlace(f"line {it.line} of {self.file} has no one call of {it.call}")
        return found[0]

    def _words_of(self, it: Edit) -> list[Word]:
        found = self._call(it).words
        if not found:
            raise NoPlace(f"the call of {it.call} in line {it.line} of {self.file} has no argument")
        return found

    def _after(self, it: Edit) -> None:
        line = it.end or it.line
        at, pad = self._start(line + 1), self._pad(self._start(it.line))
        is_open = at == len(self.text) and self.text and not self.text.endswith("\n")
        self.changes.put(at, (self.end if is_open else "") + pad + it.text + self.end)

    def _move(self, it: Edit) -> None:
        span = self._start(it.line), self._start(it.end + 1)
        if not it.to < it.line <= it.end or not self.text.endswith("\n", *span):
            raise NoPlace(f"the lines {it.line} to {it.end} of {self.file} cannot go up")
        if span not in self.changes.taken:
            self.changes.taken.append(span)
            self.changes.moved.setdefault(self._start(it.to), []).append(span)

    def _words(self, it: Edit) -> None:
        """On a line of its own where the command has several."""
        call = self._call(it)
        last_line = self.text.rfind("\n", call.opened, call.closed) + 1
        if not last_line:
            self.changes.put(call.closed, " " + it.text)
        elif self.text[last_line : call.closed].strip():
            self.changes.put(call.closed, self.end + self._pad(call.closed) + it.text)
        else:
            last = call.words[-1].begin if call.words else call.opened
            self.changes.put(last_line, self._pad(last) + it.text + self.end)

    def _keyword(self, edits: list[Edit]) -> None:
        """The items of one keyword argument: in front of those that it has."""
        first = edits[0]
        words, items = self._words_of(first), ", ".join(dict.fromkeys(it.text for it in edits))
        old = [it for it in words if it.keyword == first.key]
        if old:
            begin = self.text.index(":", old[0].begin) + 1
            was = self.text[begin : old[0].end]
            begin += len(was) - len(was.lstrip())
            if self.text.startswith("[", begin):
                self.changes.put(begin + 1, items + ("" if self._is_empty(begin) else ", "))
            else:
                self.changes.put(begin, f"[{items}, ")
                self.changes.put(old[0].end, "]")
            return
        last, call = words[-1], self._call(first)
        is_list = len(edits) > 1 and "," in items
        value = f"{first.key}: {f'[{items}]' if is_list else items}"
        is_long = "\n" in self.text[call.opened : call.closed]
        pad = self.end + (self._pad(last.begin) or "  ") if is_long else " "
        self.changes.put(last.end, "," + pad + value)

    def _is_empty(self, at: int) -> bool:
        return bool(re.compile(r"\[\s*\]").match(self.text, at))

    def _deps(self, it: Edit) -> None:
        blocks = [block for block in gn_blocks(self.text) if block.line == it.line]
        if len(blocks) != 1:
            raise NoPlace(f"line {it.line} of {self.file} begins no one target")
        block = blocks[0]
        inner = _outermost(self.text[block.opened : block.closed])
        if re.search(r"\bdeps\b", self.text[block.opened : block.closed]) and not re.search(r"\bdeps\s*\+?=", inner):
            raise NoPlace(f"the target in line {it.line} of {self.file} has its deps inside of a condition")
        sign = "+=" if re.search(r"\bdeps\s*\+?=", inner) else "="
        line = f"deps {sign} [ {it.text} ]"
        close = self.text.rfind("\n", block.opened, block.closed) + 1
        if not close:
            self.changes.put(block.closed, f" {line} ")
        else:
            self.changes.put(close, self._pad(block.closed) + "  " + line + self.end)


def _outermost(text: str) -> str:
    """The parts of a block of GN that stand in no inner braces."""
    found, deep = [], 0
    for it in text:
        deep += it == "{"
        found.append(it if not deep else " ")
        deep -= it == "}"
    return "".join(found)


def block_of(text: str, line: int) -> Block | None:
    """The target of a file of GN that begins in this line."""
    return next((it for it in gn_blocks(text) if it.line == line), None)
