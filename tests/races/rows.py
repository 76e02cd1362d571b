"""Small builds, and which of their commands race (docs/RACES.md, "The rule")."""

from __future__ import annotations

from dataclasses import dataclass

# The rules of the manifests: of what keeps no list, and of what keeps one.
RULES = """\
rule gen
  command = gen $out
rule cc
  command = cc $out
  depfile = $out.d
  deps = gcc
rule plain
  command = cc $out
  depfile = $out.d
"""
# What every trace begins with.
OPENING = """\
rebug-trace 1
jobs 8
stamp m.c 1
stamp v.in 1
lane 0
plan
"""


@dataclass(frozen=True)
class Row:
    """The build lines behind the rules, the events behind the plan, and the answers: of each its kind, the first output
    of the maker, that of the user, and the path. Lines stand apart by `; `."""

    builds: str
    events: str
    due: str

    def files(self) -> dict[str, str]:
        manifest, events = (it.replace("; ", "\n") + "\n" for it in (self.builds, self.events))
        return {"build.ninja": RULES + manifest, "trace": OPENING + events}

    def answers(self) -> list[str]:
        return self.due.split("; ") if self.due else []


ROWS = {
    "m.o lists what v.h's command makes, and does not wait for it": Row(
        builds="build v.h: gen v.in; build m.o: cc m.c",
        events="start v.h 0; finish v.h 2; start m.o 0; finish m.o 3 list m.c v.h",
        due="race v.h m.o v.h",
    ),
    "an order-only input is waiting": Row(
        builds="build v.h: gen v.in; build m.o: cc m.c || v.h",
        events="start v.h 0; finish v.h 2; start m.o 0; finish m.o 3 list m.c v.h",
        due="",
    ),
    "so is one through phony edges": Row(
        builds="build v.h: gen v.in; build a: phony v.h; build b: phony a; build m.o: cc m.c || b",
        events="start v.h 0; finish v.h 2; pass a; pass b; start m.o 0; finish m.o 3 list m.c v.h",
        due="",
    ),
    "so is one through another command": Row(
        builds="build v.h: gen v.in; build w.h: gen v.h; build m.o: cc m.c || w.h",
        events="start v.h 0; finish v.h 2; start w.h 0; finish w.h 3; start m.o 0; finish m.o 4 list m.c v.h w.h",
        due="",
    ),
    "a validation is not": Row(
        builds="build v.h: gen v.in; build m.o: cc m.c |@ v.h",
        events="start v.h 0; finish v.h 2; start m.o 0; finish m.o 3 list m.c v.h",
        due="race v.h m.o v.h",
    ),
    "a group that lacks the path is not either": Row(
        builds="build v.h: gen v.in; build t.h: gen v.in; build a: phony t.h; build m.o: cc m.c || a",
        events="start v.h 0; finish v.h 2; start t.h 0; finish t.h 2; pass a; start m.o 0; finish m.o 3 list v.h t.h",
        due="race v.h m.o v.h",
    ),
    "a depfile that Ninja reads anew each time is a list as well": Row(
        builds="build v.h: gen v.in; build m.o: plain m.c",
        events="start v.h 0; finish v.h 2; start m.o 0; finish m.o 3 depfile m.o:\\sm.c\\sv.h\\n",
        due="race v.h m.o v.h",
    ),
    "the maker waits for the user: no order mends that": Row(
        builds="build m.o: cc m.c; build v.h: gen v.in | m.o",
        events="start m.o 0; finish m.o 2 list m.c v.h; start v.h 0; finish v.h 3",
        due="cycle v.h m.o v.h",
    ),
    "a command lists what it makes itself": Row(
        builds="build m.o | m.h: cc m.c",
        events="start m.o 0; finish m.o 2,2 list m.c m.h",
        due="own m.o m.o m.h",
    ),
    "a phony edge with inputs stands for those that make them": Row(
        builds="build v.h: gen v.in; build all.h: phony v.h; build m.o: cc m.c",
        events="start v.h 0; finish v.h 2; pass all.h; start m.o 0; finish m.o 3 list m.c all.h",
        due="race v.h m.o all.h",
    ),
    "one without inputs makes nothing": Row(
        builds="build old.h: phony; build m.o: cc m.c",
        events="pass old.h; start m.o 0; finish m.o 2 list m.c old.h",
        due="",
    ),
    "what makes the manifest runs before all else": Row(
        builds="build build.ninja v.h: gen v.in; build m.o: cc m.c",
        events="start v.h 0; finish v.h 2,2; start m.o 0; finish m.o 3 list m.c v.h",
        due="",
    ),
    "a path that a list repeats races once, and so does each path of one maker": Row(
        builds="build v.h w.h: gen v.in; build m.o: cc m.c",
        events="start v.h 0; finish v.h 2,2; start m.o 0; finish m.o 3 list w.h v.h w.h",
        due="race v.h m.o w.h; race v.h m.o v.h",
    ),
}
