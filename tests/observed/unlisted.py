"""Observations that are written by hand, and the unlisted inputs that `races` has to tell of each (docs/RACES.md, "By
observation"): files that a command read though no line says so, and after whose change Ninja would not run it again."""

from __future__ import annotations

import pathlib
from dataclasses import dataclass

from rows import observed

# c makes a file, cc lists what it read, and r may find that nothing changed.
RULES = """\
rule c
  command = c $out
rule cc
  command = cc $out
  deps = gcc
  depfile = $out.d
rule r
  command = r $out
  restat = 1
"""
# The places of the observations, by their numbers.
PATHS = ("a.c", "a.h", "gen.h", "lib.a", "a.o", "app", "log", "app.d")


@dataclass(frozen=True)
class Row:
    """Build lines, which stand apart by `; `, what the commands did, with the names of paths in place of their numbers,
    what app lists where its rule keeps a list, and the unlisted inputs of app that are due."""

    builds: str
    seen: str
    due: str = ""
    listed: str = "a.c"

    def unlisted(self) -> list[str]:
        return self.due.split()


# A source that no edge makes: it is covered where it counts for an edge that app meets.
SOURCES = (
    Row("build app: c a.c", "edge app; reads a.c a.h; writes app", due="a.h"),
    Row("build a.o: c a.c a.h; build app: c a.o", "edge app; reads a.h a.o; writes app"),
    Row("build a.o: c a.c a.h; build app: c a.c || a.o", "edge app; reads a.c a.h; writes app", due="a.h"),
)
ROWS = (
    *SOURCES,
    # What counts for the edge: its line, and its list.
    Row("build app: c a.c", "edge app; reads a.c; writes app"),
    Row("build app: c a.c | a.h", "edge app; reads a.c a.h; writes app"),
    Row("build app: cc a.c", "edge app; reads a.c a.h; writes app", listed="a.c a.h"),
    Row("build app: cc a.c", "edge app; reads a.c a.h log; writes app", listed="a.h", due="log"),
    # A file that another edge makes. An order-only input covers nothing, and Ninja runs app again behind a.o.
    Row(
        "build gen.h: c a.c; build app: c || gen.h",
        "edge gen.h; writes gen.h; edge app; reads gen.h; writes app",
        due="gen.h",
    ),
    Row(
        "build gen.h: c a.c; build a.o: c gen.h; build app: c a.o",
        "edge gen.h; writes gen.h; edge app; reads gen.h a.o; writes app",
    ),
    Row(
        "build gen.h: c a.c; build all: phony gen.h; build app: c | all",
        "edge gen.h; writes gen.h; edge app; reads gen.h; writes app",
    ),
    Row(
        "build gen.h: c a.c; build all: phony gen.h; build app: c || all",
        "edge gen.h; writes gen.h; edge app; reads gen.h; writes app",
        due="gen.h",
    ),
    # A way over an edge with restat holds back, which is not told.
    Row(
        "build gen.h: c a.c; build lib.a: r gen.h; build app: c lib.a",
        "edge gen.h; writes gen.h; edge app; reads gen.h lib.a; writes app",
    ),
    # What the command leaves itself, its depfile, and what has a stronger finding: a race, and an undeclared file.
    Row("build app: c a.c", "edge app; reads a.c log; writes app log"),
    Row("build app: cc a.c", "edge app; reads a.c app.d; writes app"),
    Row("build gen.h: c a.c; build app: c a.c", "edge gen.h; writes gen.h; edge app; reads gen.h; writes app"),
    Row("build gen.h: c a.c; build app: c || gen.h", "edge gen.h; writes gen.h log; edge app; reads log; writes app"),
    # Other names of files (OTHER_NAMES): on the line of the edge, in its list, and on the way to an edge with the file.
    Row("build app: c a.c /b/a.h", "edge app; reads a.c a.h; writes app"),
    Row("build app: cc a.c", "edge app; reads a.c a.h; writes app", listed="a.c /b/a.h"),
    Row("build a.o: c a.c /b/a.h; build app: c a.o", "edge app; reads a.h a.o; writes app"),
    # A link counts with the file to which it leads. The file does not count with a link that leads to it: the link can
    # lead elsewhere tomorrow.
    Row("build app: c a.c lib.a", "edge app; reads a.c lib.a log; writes app"),
    Row("build app: c a.c log", "edge app; reads a.c lib.a log; writes app", due="lib.a"),
)
# Each has the file to which it leads: /b/a.h is a.h by its absolute path, and lib.a is a link to log.
OTHER_NAMES = {"/b/a.h": "a.h", "lib.a": "log"}


def events_of(build: str, listed: str) -> str:
    """The events of a build line's edge: its command ran, or it has none."""
    output, rule, *_ = build.removeprefix("build ").replace(":", "").split(" ")
    if rule == "phony":
        return f"pass {output}\n"
    return f"start {output} 0\nfinish {output} 2{f' list {listed}' if rule == 'cc' else ''}\n"


def sources_of(builds: list[str]) -> list[str]:
    """The files that build lines name and no build line makes, and the headers that lists have."""
    words = [build.removeprefix("build ").replace(":", "").split(" ") for build in builds]
    named = {word for _, _, *inputs in words for word in inputs} - {"|", "||"} - {output for output, *_ in words}
    return sorted(named | {"a.c", "a.h"})


def write_recording(folder: pathlib.Path, row: Row) -> None:
    """A recording of a build whose commands all ran, each behind those before it, and did what was seen."""
    builds = row.builds.split("; ")
    events = "".join(events_of(build, row.listed) for build in builds)
    stamps = "".join(f"stamp {source} 1\n" for source in sources_of(builds))
    outputs = " ".join(build.removeprefix("build ").partition(":")[0] for build in builds)
    files = {
        "build.ninja": RULES + "\n".join([*builds, ""]),
        "trace": f"rebug-trace 1\n{stamps}lane 0\nplan {outputs}\n{events}",
        "observed": observed(row.seen, PATHS),
        "names": "".join(["rebug-names 1\n", *(f"{other} {own}\n" for other, own in OTHER_NAMES.items())]),
    }
    folder.mkdir()
    for name, text in files.items():
        (folder / name).write_text(text, encoding="ascii")
