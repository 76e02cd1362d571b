"""Programs by their names: those that only search a folder, those that only make one, and Pythons."""

from __future__ import annotations

import re

SEARCHING = re.compile(rb"(?:[\w.+]+-)*(?:cc1(?:plus|obj|objplus)?|lto1|f951|d21|gnat1|clang(?:\+\+|-cpp)?|flang|collect2|"
                       rb"ld(?:\.\w+)?|lld|mold|gold|cpp|as|c?cc|c\+\+|c89|c99|gcc|g\+\+|gfortran|javac|rustc)(?:-[\d.]+)?")
"""Compilers and linkers: each asks for a search folder once, and takes a missing one for an empty one."""

ENSURING = re.compile(rb"install|ginstall|javac|rustc|ccache|sccache")
"""Programs that make a folder where it is missing, and go on alike in both cases."""

MAY_ENSURE = re.compile(rb"python[\d.]*|pypy[\d.]*|perl[\d.]*")
"""Programs that do so with a folder, or one above it, which the same process tries to make (makedirs, make_path)."""

_PYTHON = re.compile(rb"python[\d.]*|pypy[\d.]*")
_MODULES = (b".py", b".pyc", b".so")


def name_of(path: bytes) -> bytes:
    """The name of a program by its path."""
    return path.rpartition(b"/")[2]


def ensures(name: bytes, words: bytes) -> bool:
    """Whether a program that is run by these words, each with a NUL behind it, only sees to it that folders are
    there."""
    if ENSURING.fullmatch(name):
        return True
    given = words.split(b"\0")[1:]
    if name == b"cmake":
        return given[:1] == [b"-E"]
    return name == b"mkdir" and any(it.startswith(b"--p") or it[:1] == b"-" != it[1:2] and b"p" in _letters(it)
                                    for it in given)


def _letters(word: bytes) -> bytes:
    """The options of one letter in a word of mkdir; a mode stands behind `m`."""
    return word[1:].partition(b"m")[0] + (b"p" if word.startswith(b"-mp") else b"")


def is_python(name: bytes) -> bool:
    """Whether a program's name is that of a Python."""
    return _PYTHON.fullmatch(name) is not None


def can_be_module(path: bytes) -> bool:
    """Whether an entry of this path would be taken for a module: its name ends as that of one, or it is a package's."""
    return path.endswith(_MODULES)
