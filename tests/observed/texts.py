"""The files `observed` and `filters` as texts: what is read of them, and the first fault (docs/FORMATS.md)."""

from __future__ import annotations

import pathlib
from collections.abc import Iterator
from dataclasses import dataclass

from rows import sealed

# What the recorder wrote of examples/flaky, with strace 6.1 and four jobs.
RECORDED = """\
rebug-observed 1
by strace-6.1
path generate
path version.in
path .
path version.h
path table.in
path table.h
path list.c
path list.o
path list.o.d
path text.c
path text.o
path text.o.d
path about.c
path about.o
path about.o.d
path main.c
path main.o
path main.o.d
path app
edge version.h
reads 0-1
stats 2
writes 3
outside 19
edge table.h
reads 0 4
stats 2
writes 5
outside 62
edge list.o
reads 6
stats 2
misses 7
writes 7-8
outside 112
edge text.o
reads 9
stats 2
misses 10
writes 10-11
outside 112
edge about.o
reads 3 12
stats 2
misses 13
writes 13-14
outside 112
edge main.o
reads 3 5 15
stats 2
misses 16
writes 16-17
outside 112
edge app
reads 7 10 13 16
stats 2
misses 18
writes 18
outside 193
"""
# Who reads and who writes paths of it, and who asked for them before they were there.
LOOKS = {
    "who reads generate": ["reads version.h", "reads table.h"],
    "who reads version.in": ["reads version.h"],
    "who reads version.h": ["reads about.o", "reads main.o"],
    "who reads table.h": ["reads main.o"],
    "who reads list.c": ["reads list.o"],
    "who reads main.o": ["misses main.o", "reads app"],
    "who reads text.o.d": [],
    "who reads app": ["misses app"],
    "who writes version.h": ["writes version.h"],
    "who writes list.o.d": ["writes list.o"],
    "who writes main.o": ["writes main.o"],
    "who writes app": ["writes app"],
    "who writes generate": [],
}

# A build of three commands, and what stands in the way of a certificate: the command and its flags.
BUILD = """\
rule c
  command = c $out
build a: c in
build b: c in
build c: c in
"""
TRACE = """\
rebug-trace 1
stamp in 1
lane 0
plan
start a 0
finish a 2
start b 0
finish b 2
start c 0
finish c 2
"""
FLAGGED = sealed("rebug-observed 2\nby x 6.1 x86-64\nedge a\nflag cut \\0 x \\0\nflag socket connect x s\nedge b\n"
                 "flag twin \\0 \\0 \\0\nedge c\n")
NOT_WHOLE = [("a", "cut"), ("a", "socket"), ("b", "twin")]

# Texts of `observed`, with the number of their first fault and its line.
FAULTS = {
    "": (104, 1),
    "rebug-observed 3\nby x\n": (104, 1),
    "rebug-observed 20\nby x 6.1 x86-64\n": (104, 1),
    "rebug-observed 1\n": (100, 2),
    "rebug-observed 1\nby x y\n": (100, 2),
    "rebug-observed 1\nby x\npath a\n\n": (100, 4),
    "rebug-observed 1\nby x\npath a\npath ./a\n": (103, 4),
    "rebug-observed 1\nby x\nedge a\npath b\n": (100, 4),
    "rebug-observed 1\nby x\nedge a whole\n": (100, 3),
    "rebug-observed 1\nby x\npath a\nedge a\nstats 0\nreads 0\n": (100, 6),
    "rebug-observed 1\nby x\npath a\nedge a\nreads 0 x\n": (101, 5),
    "rebug-observed 1\nby x\npath a\nedge a\nreads 0-1\n": (105, 5),
    "rebug-observed 1\nby x\npath a\nedge a\nreads 0 0\n": (105, 5),
    "rebug-observed 1\nby x\npath a\nedge a\nreads\n": (100, 5),
    "rebug-observed 1\nby x\nedge a\nedge a\n": (103, 4),
}
# The same of version 2, each behind the first two lines, and with the last line that is due.
FAULTS_2 = {
    "path a\npath ./a\n": (103, 4),
    "path a\nalso a 0\n": (103, 4),
    "path a 0\n": (105, 3),
    "path a\nalso b 1\n": (105, 4),
    "path a\nsame 0\n": (100, 4),
    "path a\nopening 0\npath b\n": (100, 5),
    "edge a\npath b\n": (100, 4),
    "edge a\nflag whole \\0 \\0 \\0\n": (100, 4),
    "edge a cut\n": (100, 3),
    "path a\nedge a\nleft 0\nread 0\n": (100, 6),
    "path a\nedge a\nread 0\nread 0\n": (100, 6),
    "path a\nedge a\nreads 0\n": (100, 5),
    "path a\nedge a\nread 0 x\n": (101, 5),
    "path a\nedge a\nread 0-1\n": (105, 5),
    "path a\nedge a\nread 0 0\n": (105, 5),
    "path a\nedge a\nread\n": (100, 5),
    "path a\nedge a\nlink 0\n": (100, 5),
    "path a\nninja\nread 0\n": (100, 5),
    "edge a\nninja\n": (100, 4),
    "edge a\nedge a\n": (103, 4),
    "edge a\nedge nobody\n": (60, 4),
    "edge a\nend 0 1 3 x\nedge b\n": (100, 5),
}


@dataclass(frozen=True)
class Pattern:
    """The text of a filter, a path that a command reads though no line says so, and whether the filter hides it."""

    text: str
    path: str
    hides: bool


PATTERNS = (
    Pattern("*.pyc", "a.pyc", True),
    Pattern("*.pyc", "x.pyc/y", True),
    Pattern("*.pyc", "a.py", False),
    Pattern("/dev", "/dev/null", True),
    Pattern("/dev", "dev/null", False),
    Pattern("/dev", "/device", False),
    Pattern("logs/*.txt", "logs/a.txt", True),
    Pattern("logs/*.txt", "logs/a/b.txt", False),
    Pattern("logs/*.txt", "b/logs/a.txt", False),
    Pattern("# caches\n\n.ccache\n", "/home/me/.ccache/0/x", True),
    Pattern("#.ccache", ".ccache", False),
)
# Texts of `filters`, with the number of their first fault and its line.
FILTER_FAULTS = {
    "a\n\na//b\n": (100, 3),
    "logs/": (100, 1),
    "/dev\n/": (100, 2),
}


def write_recording(folder: pathlib.Path, **texts: str) -> None:
    """A recording of the build of three commands, with these files beside it."""
    folder.mkdir()
    for name, text in {"build.ninja": BUILD, "trace": TRACE, **texts}.items():
        (folder / name).write_text(text, encoding="ascii")


def reading(path: str) -> str:
    """An observation in which one command reads a path."""
    return f"rebug-observed 1\nby hand\npath {path}\npath a\nedge a\nreads 0\nwrites 1\n"


def faulty() -> Iterator[tuple[str, str, int, int]]:
    """Files of a recording that have a fault: the name, the text, and the number and the line of the first fault."""
    faults_2 = {sealed(f"rebug-observed 2\nby x 6.1 x86-64\n{text}"): fault for text, fault in FAULTS_2.items()}
    faults_2 |= {sealed("rebug-observed 2\n"): (100, 2), sealed("rebug-observed 2\nby x\n"): (100, 2)}
    for name, faults in (("observed", FAULTS | faults_2), ("filters", FILTER_FAULTS)):
        for text, (code, line) in faults.items():
            yield name, text, code, line
