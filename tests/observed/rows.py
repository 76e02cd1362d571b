"""Observations that are written by hand, and the conflicts that `races` has to tell of each (docs/RACES.md, "By
observation")."""

from __future__ import annotations

import hashlib
import pathlib

# b.o waits for gen.h, and all for each of the others. What makes the manifest runs before all else.
MANIFEST = """\
rule c
  command = c $out
build build.ninja: c build.in
build gen.h: c gen.in
build a.o: c a.c
build b.o: c b.c || gen.h
build all: c a.o b.o
"""
SOURCES, OUTPUTS = ("build.in", "gen.in", "a.c", "b.c"), ("build.ninja", "gen.h", "a.o", "b.o", "all")
# The places of the observations, by their numbers.
PATHS = (".", "gen.h", "a.c", "a.o", "b.c", "b.o", "log", "all", "build.ninja")

# What commands were seen to do, with the names of paths in place of their numbers, and what is told: the kind, what
# the user does and what the maker did, the place, and the outputs of the maker and of the user.
ROWS: tuple[tuple[str, list[str]], ...] = (
    # Each look at what another leaves is a race.
    ("edge gen.h; writes gen.h; edge a.o; reads gen.h a.c; writes a.o", ["race read output gen.h gen.h a.o"]),
    ("edge gen.h; writes gen.h; edge a.o; reads a.c; misses gen.h; writes a.o", ["race miss output gen.h gen.h a.o"]),
    ("edge gen.h; writes gen.h; edge a.o; stats gen.h", ["race stat output gen.h gen.h a.o"]),
    ("edge gen.h; writes log; edge a.o; reads log", ["race read undeclared log gen.h a.o"]),
    ("edge gen.h; writes a.c; edits a.c; edge a.o; reads a.c", ["race read edit a.c gen.h a.o"]),
    ("edge gen.h; deletes a.c; edge a.o; reads a.c", ["race read delete a.c gen.h a.o"]),
    ("edge gen.h; temps log; edge a.o; misses log", ["race miss temporary log gen.h a.o"]),
    # A folder's entries are a place of their own; of two files below it one race is told.
    ("edge gen.h; writes gen.h log; edge a.o; lists .", ["race list entry . gen.h a.o"]),
    ("edge gen.h; reads a.c; edge a.o; lists .", []),
    # Of two that leave one file a clash alone is told, once, and of a temporary too.
    ("edge gen.h; writes log; edge a.o; writes log", ["clash log gen.h a.o"]),
    ("edge gen.h; temps log; edge a.o; writes log", ["clash log gen.h a.o"]),
    ("edge a.o; reads log; writes log; edge b.o; reads log; temps log", ["clash log a.o b.o"]),
    (
        "edge gen.h; writes log; edge a.o; writes log; edge b.o; writes log",
        ["clash log gen.h a.o", "clash log a.o b.o"],
    ),
    # The maker waits for the user: no order mends that, or the next build shows the user another file.
    ("edge gen.h; reads b.o; writes gen.h; edge b.o; writes b.o", ["cycle read output b.o b.o gen.h"]),
    (
        "edge a.o; reads a.c; writes a.o; edge all; writes a.c all; edits a.c",
        ["unstable read edit a.c all a.o"],
    ),
    ("edge a.o; misses log; edge all; writes log", ["unstable miss undeclared log all a.o"]),
    ("edge a.o; stats log; edge all; writes log", []),
    # What waits, what is one command's own, and what makes the manifest.
    (
        "edge gen.h; writes gen.h; edge b.o; reads gen.h b.c; writes b.o; edge all; reads a.o b.o; writes all",
        [],
    ),
    ("edge gen.h; writes log; edge b.o; writes log; edge all; reads log; writes log", []),
    ("edge a.o; reads a.o log; writes a.o log", []),
    ("edge build.ninja; writes log build.ninja; edge a.o; reads log build.ninja", []),
)
CONFLICTS = ("race", "cycle", "unstable", "clash")


def line_of(said: str, paths: tuple[str, ...]) -> str:
    """A line of the file `observed`, whose paths are these."""
    kind, *names = said.split(" ")
    if kind == "edge":
        return f"{said}\n"
    numbers = sorted(paths.index(name) for name in names)
    return f"{kind} {' '.join(map(str, numbers))}\n"


def observed(seen: str, paths: tuple[str, ...]) -> str:
    """The file `observed`, of version 1, that says these paths, and what commands were seen to do with them."""
    named = "".join(f"path {path}\n" for path in paths)
    return f"rebug-observed 1\nby hand\n{named}{''.join(line_of(said, paths) for said in seen.split('; '))}"


# The words of version 2 for the kinds of the rows, in the order of the lines.
WORDS = {"reads": "read", "stats": "there", "misses": "missing", "lists": "listed", "writes": "left", "edits": "edited",
         "deletes": "taken", "temps": "temps"}


def sealed(lines: str) -> str:
    """A file of version 2 with the last line that is due behind these lines."""
    each = lines.splitlines()
    paths, edges = (sum(it.startswith(word) for it in each) for word in ("path ", "edge "))
    return f"{lines}end {paths} {edges} {len(each)} {hashlib.sha256(lines.encode()).hexdigest()}\n"


def unsealed(text: str) -> str:
    """The lines of a file of version 2 without its last one."""
    return text[:text.rindex("end ")]


def observed_2(seen: str, paths: tuple[str, ...]) -> str:
    """The same in version 2. Each path but the first is an entry of the first."""
    lines = [f"path {path}{' 0' if number else ''}" for number, path in enumerate(paths)]
    for block in f"; {seen}".split("; edge ")[1:]:
        output, *said = block.split("; ")
        did = {kind: set(names) for kind, *names in (it.split(" ") for it in said)}
        if "writes" in did:
            did["writes"] -= did.get("edits", set())
        lines.append(f"edge {output}")
        for kind, word in WORDS.items():
            if did.get(kind):
                lines.append(f"{word} {' '.join(map(str, sorted(map(paths.index, did[kind]))))}")
    return sealed("rebug-observed 2\nby hand 0 x86-64\n" + "".join(f"{it}\n" for it in lines))


def write_recording(folder: pathlib.Path, text: str) -> None:
    """A recording of a build in which all commands ran, and did what this file `observed` says."""
    runs = "".join(f"start {output} 0\nfinish {output} 2\n" for output in OUTPUTS)
    stamps = "".join(f"stamp {source} 1\n" for source in SOURCES)
    files = {
        "build.ninja": MANIFEST,
        "trace": f"rebug-trace 1\n{stamps}lane 0\nplan {' '.join(OUTPUTS)}\n{runs}",
        "observed": text,
    }
    folder.mkdir()
    for name, text in files.items():
        (folder / name).write_text(text, encoding="ascii")


def told_of(finding: dict) -> str:
    """A finding of `races --json` as the rows have it."""
    if finding["kind"] == "clash":
        return f"clash {finding['path']} {finding['first']['output']} {finding['other']['output']}"
    words = (finding[member] for member in ("kind", "look", "change", "path"))
    return f"{' '.join(words)} {finding['maker']['output']} {finding['user']['output']}"


def conflicts(objects: list[dict]) -> list[str]:
    """Those of the objects of `races --json` that are conflicts."""
    return [told_of(it) for it in objects if it["kind"] in CONFLICTS]
