"""Reads dependency files by rebug's grammar (docs/FORMATS.md, "Depfiles").

Only edges with `depfile` and without `deps` need it: of the others Ninja itself keeps the list.
"""

from __future__ import annotations

import re
from typing import Container

from .fields import LONGEST_PATH, canonical

_BLANK = re.compile(rb"\\\r?\n|[ \t]")
_BREAK = re.compile(rb"[ \t\r\n]")


def read_depfile(text: bytes, outputs: Container[bytes]) -> list[bytes] | None:
    """The prerequisites, each once; None where rebug would refuse the text for these outputs."""
    found: dict[bytes, None] = {}
    at = 0
    while at < len(text):
        targets, prerequisites, has_colon, at = _line(text, at)
        if (targets or prerequisites) and not has_colon:
            return None
        if prerequisites and not any(_name(it) in outputs for it in targets):
            return None
        if any(len(it) > LONGEST_PATH for it in prerequisites):
            return None
        found.update((canonical(it), None) for it in prerequisites)
    return list(found)


def _name(word: bytes) -> bytes | None:
    return canonical(word) if len(word) <= LONGEST_PATH else None


def _line(text: bytes, at: int) -> tuple[list[bytes], list[bytes], bool, int]:
    """The words before and after the separating colon of the line at `at`, and where the next line begins."""
    words: tuple[list[bytes], list[bytes]] = ([], [])
    has_colon = False
    while at < len(text):
        blank = _BLANK.match(text, at)
        if blank:
            at = blank.end()
        elif text.startswith((b"\n", b"\r\n"), at):
            return *words, has_colon, text.index(b"\n", at) + 1
        elif text.startswith(b":", at) and not has_colon and _ends_word(text, at + 1):
            has_colon, at = True, at + 1
        else:
            word, at = _word(text, at, has_colon)
            words[has_colon].append(word)
    return *words, has_colon, at


def _ends_word(text: bytes, at: int) -> bool:
    return at >= len(text) or bool(_BREAK.match(text, at)) and not _lone_cr(text, at) or bool(_BLANK.match(text, at))


def _lone_cr(text: bytes, at: int) -> bool:
    return text.startswith(b"\r", at) and not text.startswith(b"\r\n", at)


def _word(text: bytes, at: int, has_colon: bool) -> tuple[bytes, int]:
    word = bytearray()
    while at < len(text):
        if text[at : at + 1] in (b" ", b"\t", b"\n") or text.startswith(b"\r\n", at):
            break
        if text.startswith(b":", at) and not has_colon and _ends_word(text, at + 1):
            break
        if text.startswith(b"$$", at):
            word += b"$"
            at += 2
        elif text.startswith(b"\\", at):
            piece, at, is_over = _backslashes(text, at)
            word += piece
            if is_over:
                break
        else:
            word += text[at : at + 1]
            at += 1
    return bytes(word), at


def _backslashes(text: bytes, at: int) -> tuple[bytes, int, bool]:
    """What a run of backslashes gives: bytes of the word, where they end, and whether the word ends there."""
    end = at
    while text.startswith(b"\\", end):
        end += 1
    count = end - at
    if text.startswith((b"\n", b"\r\n"), end):
        return b"\\" * (count - 1), end - 1, True
    if text.startswith(b" ", end):
        if count % 2:
            return b"\\" * (count // 2) + b" ", end + 1, False
        return b"\\" * count, end, True
    if text.startswith(b"#", end) or text.startswith(b":", end) and not _ends_word(text, end + 1):
        return b"\\" * (count - 1) + text[end : end + 1], end + 1, False
    return b"\\" * count, end, False
