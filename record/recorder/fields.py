"""Paths and fields as rebug's texts have them. Everything here is bytes: paths need not be UTF-8."""

from __future__ import annotations

import re

LONGEST_PATH = 4096
_PLAIN = re.compile(rb"[A-Za-z0-9_+\-./]+")
# The controls of seven and of eight bits, and the bytes that Python decodes by surrogates.
_CONTROLS = re.compile("[\0-\x1f\x7f-\x9f\udc80-\udcff]")
_TO_ESCAPE = re.compile(rb"[ \t\n\r\\]").search
# a backslash first, since the others bring one along
_ESCAPES = ((b"\\", b"\\\\"), (b" ", b"\\s"), (b"\t", b"\\t"), (b"\n", b"\\n"), (b"\r", b"\\r"))


def canonical(path: bytes) -> bytes:
    """The canonical form of a path, as rebug compares paths."""
    if not (b"//" in path or b"./" in path or path.endswith((b"/", b"."))):
        return path
    kept: list[bytes] = []
    is_rooted = path.startswith(b"/")
    for part in path.split(b"/"):
        if part in (b"", b"."):
            continue
        if part != b"..":
            kept.append(part)
        elif kept and kept[-1] != b"..":
            kept.pop()
        elif not is_rooted:
            kept.append(part)
    text = b"/".join(kept)
    return b"/" + text if is_rooted else text or b"."


def quoted(path: bytes) -> bytes:
    """A path as it stands in a command."""
    return path if _PLAIN.fullmatch(path) else b"'" + path.replace(b"'", b"'\\''") + b"'"


def field(text: bytes) -> bytes:
    """A text as one field of a trace line."""
    if _TO_ESCAPE(text):
        for byte, escape in _ESCAPES:
            text = text.replace(byte, escape)
    return text or b"\\0"


def line(*parts: bytes | int | str) -> bytes:
    """A trace line: bytes are fields, numbers are written in decimal, and words are words."""
    return b" ".join([field(it) if isinstance(it, bytes) else b"%d" % it if isinstance(it, int) else it.encode()
                      for it in parts])


def shown(text: bytes) -> str:
    """Bytes as they are shown to a reader in a sentence."""
    return text.decode("utf-8", "backslashreplace")


def printable(text: str) -> str:
    """A line as a terminal may show it. A name in it may be anything: control characters (also those of eight bits) and
    bytes that are no UTF-8 are written as `\\xNN`, so that none moves the cursor, begins a line or sets a colour."""
    return _CONTROLS.sub(lambda found: f"\\x{ord(found[0]) & 0xFF:02x}", text)
