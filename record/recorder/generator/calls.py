"""Calls in the files of generators: where each begins and ends, and the words between its parentheses.

The files are read as text, by the rules that each language has for comments and strings. Every reader goes once through
the text, and what it does not understand it steps over.
"""

from __future__ import annotations

import re
from dataclasses import dataclass, field

_NAME = re.compile(r"[A-Za-z_]\w*")
_BLANK = re.compile(r"[ \t]*")
_BRACKET = re.compile(r"\[(=*)\[")
_CMAKE_WORD = re.compile(r"(?:[^\s()\"#\\]|\\.)+", re.S)
_QUOTED = re.compile(r'"(?:[^"\\]|\\.)*"', re.S)
_MESON_LONG = re.compile(r"f?'''.*?'''", re.S)
_MESON_QUOTED = re.compile(r"f?'(?:[^'\\\n]|\\.)*'")
_ASSIGNED = re.compile(r"[ \t]*([A-Za-z_]\w*)[ \t]*=[ \t]*\Z")
_LONGEST_NAME = 1_000  # of what stands in front of a call on its line
_KEYWORD = re.compile(r"[A-Za-z_]\w*[ \t]*:")


@dataclass
class Word:
    """An argument of a call, as it is written. `keyword` is the name before a colon, in Meson's files."""

    text: str
    begin: int
    end: int
    keyword: str = ""


@dataclass
class Call:
    """A call: its name, the offset of that, the offset behind the open parenthesis and of the closed one, the lines,
    and the variable of Meson's file that is what the call gives."""

    name: str
    begin: int
    opened: int
    closed: int
    line: int
    last_line: int
    words: list[Word] = field(default_factory=list)
    variable: str = ""


class _Lines:
    """The line of an offset, asked for rising offsets, and where that line begins."""

    def __init__(self, text: str) -> None:
        self.text, self.at, self.line, self.begin = text, 0, 1, 0

    def of(self, offset: int) -> int:
        self.line += self.text.count("\n", self.at, offset)
        self.begin = max(self.begin, self.text.rfind("\n", self.at, offset) + 1)
        self.at = offset
        return self.line


def cmake_calls(text: str) -> list[Call]:
    """The commands of a file of CMake, in the order of the text."""
    found: list[Call] = []
    lines, at, missing = _Lines(text), 0, set[str]()
    call: Call | None = None
    deep = 0
    while at < len(text):
        letter = text[at]
        if letter == "#":
            at = _behind_bracket(text, at + 1, missing) or _line_end(text, at)
        elif call is None:
            name = _NAME.match(text, at)
            if not name:
                at += 1
                continue
            at = _BLANK.match(text, name.end()).end()  # type: ignore[union-attr]
            if text.startswith("(", at):
                at += 1
                call, deep = Call(name[0], name.start(), at, at, lines.of(name.start()), 0), 1
        elif letter in "()":
            deep += 1 if letter == "(" else -1
            if not deep:
                call.closed, call.last_line = at, lines.of(at)
                found.append(call)
                call = None
            at += 1
        else:
            at = _cmake_word(text, at, missing, call)
    return found


def _cmake_word(text: str, at: int, missing: set[str], call: Call) -> int:
    """Takes the word of a command that begins here, if one does. Gives the offset behind it."""
    end = _behind_bracket(text, at, missing)
    if not end:
        found = _QUOTED.match(text, at) if text[at] == '"' else _CMAKE_WORD.match(text, at)
        if not found:
            return at + 1
        end = found.end()
    call.words.append(Word(text[at:end], at, end))
    return end


def _behind_bracket(text: str, at: int, missing: set[str]) -> int:
    """The offset behind a bracket argument that begins here; 0 where none does. `missing` has the ends that the rest of
    the text does not have."""
    found = _BRACKET.match(text, at)
    if not found or found[1] in missing:
        return 0
    end = text.find(f"]{found[1]}]", found.end())
    if end < 0:
        missing.add(found[1])
        return 0
    return end + len(found[1]) + 2


def _line_end(text: str, at: int) -> int:
    end = text.find("\n", at)
    return len(text) if end < 0 else end


def meson_calls(text: str) -> list[Call]:
    """The calls of functions and methods in a file of Meson, each behind those that it stands in."""
    found: list[Call] = []
    lines, at = _Lines(text), 0
    open_calls: list[Call | None] = []
    begins: list[int] = []
    name: re.Match[str] | None = None
    while at < len(text):
        letter = text[at]
        if letter == "#":
            at = _line_end(text, at)
            continue
        quoted = _meson_string(text, at) if letter in "'f" else 0
        word = None if quoted else _NAME.match(text, at)
        if quoted or word:
            at = quoted or word.end()  # type: ignore[union-attr]
            name = word
            continue
        if letter in "([{":
            call = None
            if letter == "(" and name and not text[name.end() : at].strip(" \t"):
                call = Call(name[0], name.start(), at + 1, at + 1, lines.of(name.start()), 0)
                if call.begin - lines.begin <= _LONGEST_NAME:
                    assigned = _ASSIGNED.match(text, lines.begin, call.begin)
                    call.variable = assigned[1] if assigned else ""
                found.append(call)
            open_calls.append(call)
            begins.append(at + 1)
        elif letter in ")]}" and open_calls:
            call, begin = open_calls.pop(), begins.pop()
            if call is not None:
                call.closed, call.last_line = at, lines.of(at)
                _meson_word(text, begin, at, call)
        elif letter == "," and open_calls and open_calls[-1] is not None:
            _meson_word(text, begins[-1], at, open_calls[-1])
            begins[-1] = at + 1
        if not letter.isspace():
            name = None
        at += 1
    return [it for it in found if it.last_line]


def _meson_string(text: str, at: int) -> int:
    """The offset behind a string that begins here; 0 where none does. One that does not end goes to the text's end."""
    if text.startswith(("'''", "f'''"), at):
        found = _MESON_LONG.match(text, at)
        return found.end() if found else len(text)
    found = _MESON_QUOTED.match(text, at)
    return found.end() if found else 0


def _meson_word(text: str, begin: int, end: int, call: Call) -> None:
    """Takes an argument between two commas, without the comments and blanks before and behind it."""
    while begin < end:
        if text[begin].isspace():
            begin += 1
        elif text[begin] == "#":
            begin = min(end, _line_end(text, begin))
        else:
            break
    end = _before_comments(text, begin, end)
    if begin < end:
        keyword = _KEYWORD.match(text, begin, end)
        call.words.append(Word(text[begin:end], begin, end, keyword[0].rstrip(": \t") if keyword else ""))


def _before_comments(text: str, begin: int, end: int) -> int:
    """The end of an argument without the lines of comments behind it."""
    at = last = begin
    while at < end:
        if text[at] == "#":
            at = min(end, _line_end(text, at))
            continue
        quoted = _meson_string(text, at) if text[at] in "'f" else 0
        at = min(end, quoted) if quoted else at + 1
        if not text[at - 1].isspace():
            last = at
    return last


_GN_TOKEN = re.compile(r'#[^\n]*|"(?:[^"\\\n]|\\.)*"|[A-Za-z_]\w*|[(){}]|[^\S\n]+|\n|.', re.S)


@dataclass
class Block:
    """A target of a file of GN, as `action("name") { .. }`: the function, the name, the offsets behind the open brace
    and of the closed one, the lines, and how deep it stands in others."""

    function: str
    name: str
    opened: int
    closed: int
    line: int
    last_line: int
    deep: int


def gn_blocks(text: str) -> list[Block]:
    """The targets of a file of GN whose name is a plain string, and the templates, in the order of their ends."""
    found: list[Block] = []
    open_blocks: list[Block | None] = []
    line, last = 1, ["", "", "", ""]
    for token in _GN_TOKEN.finditer(text):
        it = token[0]
        if it == "{":
            function, opened, name, closed = last
            is_block = opened == "(" and closed == ")" and name.startswith('"') and "$" not in name
            open_blocks.append(Block(function, name[1:-1], token.end(), 0, line, 0, len(open_blocks))
                               if is_block else None)
        elif it == "}" and open_blocks:
            block = open_blocks.pop()
            if block is not None:
                block.closed, block.last_line = token.start(), line
                found.append(block)
        line += it == "\n"
        if not it.isspace() and not it.startswith("#"):
            last = [*last[1:], it]
    return found
