"""Small builds that are recorded with --observe by real Ninja with four jobs: each has one planted conflict, or none.
No compiler is needed: commands are the shell's. Where the order of two commands matters, the later one sleeps, or waits
for a file that it then reads."""

from __future__ import annotations

import os
import pathlib
import subprocess
import sys
from dataclasses import dataclass, field

TOP = pathlib.Path(__file__).resolve().parents[2]
RECORDER = TOP / "record/rebug-record"

RULES = """rule sh
  command = $do
"""


@dataclass(frozen=True)
class Planted:
    """A build: the lines of its manifest below the rule `sh`, its sources, and what is due of it. `lines` are parts of
    what `races` is to write; `found` is the kind of each finding with what the maker does and how the user looks, where
    it says so; `pair` is whether the first finding is of two commands whose order a schedule can change; `certain` is
    whether `certify` says so. `links` has symbolic links that are there before, each with its target."""

    build: str
    sources: dict[str, str] = field(default_factory=dict)
    lines: tuple[str, ...] = ()
    found: tuple[tuple[str, str | None, str | None], ...] = ()
    pair: bool = True
    certain: bool = False
    links: dict[str, str] = field(default_factory=dict)


BUILDS = {
    "a command reads what another makes": Planted(
        """build table: sh in
  do = cp in table
build user: sh in
  do = until [ -e table ]; do sleep 0.05; done; cat table in > user
""",
        {"in": "x\n"},
        ("race table made by table (build.ninja:3)", "used by user (build.ninja:5), which does not wait for it [1]",
         "mend: build.ninja:5: build user: ... | table"),
        (("race", "output", "read"),)),
    "a command asks before the other made it": Planted(
        """build table: sh in
  do = sleep 4; cp in table
build user: sh in
  do = cat table > user 2> /dev/null || cp in user
""",
        {"in": "x\n"},
        ("race table made by table", "which asked for it before it was there, and does not wait for it [1]"),
        (("race", "output", "miss"),)),
    "a file that is no output": Planted(
        """build stamp: sh in
  do = cp in extra; touch stamp
build user: sh in
  do = until [ -e extra ]; do sleep 0.05; done; cat extra in > user
""",
        {"in": "x\n"},
        ("race extra: stamp (build.ninja:3) writes it, though no line says so",
         "used by user (build.ninja:5), which does not wait for it [1]",
         "mend: build.ninja:3: build stamp | extra: ...",
         "mend: build.ninja:5: build user: ... | extra"),
        (("race", "undeclared", "read"),)),
    "a source that is changed in place": Planted(
        """build stamp: sh
  do = echo more >> in; touch stamp
build user: sh in
  do = cat in > user
""",
        {"in": "x\n"},
        ("race in: stamp (build.ninja:3) changes it in place", "used by user (build.ninja:5), which does not wait"),
        (("race", "edit", "read"),)),
    "a file that is taken away": Planted(
        """build stamp: sh
  do = sleep 4; rm old; touch stamp
build user: sh in
  do = cat old > user
""",
        {"in": "x\n", "old": "y\n"},
        ("race old: stamp (build.ninja:3) takes it away", "used by user (build.ninja:5), which does not wait"),
        (("race", "delete", "read"),)),
    "a folder that is listed": Planted(
        """build parts/one: sh in
  do = cp in parts/one
build user: sh in
  do = ls parts > user
""",
        {"in": "x\n", "parts/zero": "y\n"},
        ("race parts: parts/one (build.ninja:3) makes or takes away an entry of this folder",
         "used by user (build.ninja:5), which lists the folder, and does not wait for it [1]"),
        (("race", "entry", "list"),)),
    "two commands write one file": Planted(
        """build one: sh in
  do = cp in both; touch one
build two: sh in
  do = sleep 4; cp in both; touch two
""",
        {"in": "x\n"},
        ("clash both: one (build.ninja:3) writes it",
         "so does two (build.ninja:5): both write, and neither waits for the other [1]",
         "mend: another path for one of the two"),
        (("clash", None, None),)),
    "two commands with one temporary": Planted(
        """build one: sh in
  do = cp in work.tmp; cp work.tmp one; rm work.tmp
build two: sh in
  do = sleep 4; cp in work.tmp; cp work.tmp two; rm work.tmp
""",
        {"in": "x\n"},
        ("clash work.tmp: one (build.ninja:3) makes it, and takes it away again", "so does two (build.ninja:5)"),
        (("clash", None, None),)),
    "a file that changes behind its user": Planted(
        """build user: sh in
  do = cat in > user
build stamp: sh user
  do = echo more >> in; touch stamp
""",
        {"in": "x\n"},
        ("unstable in: stamp (build.ninja:5) changes it in place",
         "used by user (build.ninja:3), which looked at it before: the next build shows it another file [1]",
         "mend: another path for what it writes there"),
        (("unstable", "edit", "read"),), pair=False),
    "a command asks for an output of one that waits for it": Planted(
        """build user: sh in
  do = cat late > user 2> /dev/null || cp in user
build late: sh user
  do = cp user late
""",
        {"in": "x\n"},
        ("cycle late made by late (build.ninja:5)", "used by user (build.ninja:3), for which the maker waits"),
        (("cycle", None, "miss"),)),
    "a file that is no output, behind its maker": Planted(
        """build stamp: sh in
  do = cp in extra; touch stamp
build user: sh in || stamp
  do = cat extra in > user
""",
        {"in": "x\n"},
        ("undeclared extra: stamp (build.ninja:3) writes it, though no line says so",
         "used by user (build.ninja:5) [1]",
         "mend: build.ninja:3: build stamp | extra: ..."),
        (("undeclared", None, "read"),), pair=False, certain=True),
    "a source that two build lines name by two names": Planted(
        """build one: sh in | linked/x.h
  do = cat in x.h > one
build two: sh x.h
  do = cat x.h linked/in > two
build three: sh l.h two | in
  do = cat l.h in > three
""",
        {"in": "x\n", "x.h": "y\n"}, found=(("unlisted", None, "read"),), pair=False, certain=True,
        lines=("unlisted in: commands read it, though neither their lines nor their lists have it",
               "read by two (build.ninja:5)"),
        links={"linked": ".", "l.h": "x.h"}),
    "a command that always runs": Planted(
        """build check: sh in
  do = cat in conf > /dev/null
build behind: sh check
  do = cat conf > behind
""",
        {"in": "x\n", "conf": "y\n"}, certain=True),
    "another's output": Planted(
        """build lib: sh in
  do = cat in > lib
build stamp: sh lib
  do = cat in >> lib; touch stamp
""",
        {"in": "x\n"},
        ("undeclared lib: stamp (build.ninja:5) writes it", "an output of lib (build.ninja:3), whose line says so [1]",
         "mend: another path for what it writes there"),
        (("undeclared", None, None),), pair=False, certain=True),
    "a file that no line lists": Planted(
        """build user: sh in
  do = cat in settings > user
build other: sh in
  do = cp in other
""",
        {"in": "x\n", "settings": "y\n"},
        ("unlisted settings: commands read it, though neither their lines nor their lists have it\n"
         "  read by user (build.ninja:3) [1]",
         "mend: build.ninja:3: build user: ... | settings, or a depfile that lists it"),
        (("unlisted", None, "read"),), pair=False, certain=True),
    "an output that comes first, and is read": Planted(
        """build table: sh in
  do = cp in table
build user: sh in || table
  do = cat in table > user
""",
        {"in": "x\n"},
        ("unlisted table: commands read it, though", "  read by user (build.ninja:5) [1]"),
        (("unlisted", None, "read"),), pair=False, certain=True),
    "a file that the maker of an order-only input lists": Planted(
        """build table: sh in settings
  do = cat in settings > table
build user: sh in || table
  do = cat in settings > user
""",
        {"in": "x\n", "settings": "y\n"},
        ("unlisted settings: commands read it, though", "  read by user (build.ninja:5) [1]"),
        (("unlisted", None, "read"),), pair=False, certain=True),
    "a file that the maker of an input lists": Planted(
        """build table: sh in settings
  do = cat in settings > table
build user: sh in table
  do = cat in settings table > user
""",
        {"in": "x\n", "settings": "y\n"}, certain=True),
    "a file that the maker of an input lists, which can leave its output": Planted(
        """build table: sh in settings
  do = cat in settings > table
  restat = 1
build user: sh in table
  do = cat in settings table > user
""",
        {"in": "x\n", "settings": "y\n"}, certain=True),
    "a race, and a file that no line lists": Planted(
        """build table: sh in
  do = cp in table
build user: sh in
  do = until [ -e table ]; do sleep 0.05; done; cat in settings table > user
""",
        {"in": "x\n", "settings": "y\n"},
        ("race table made by table (build.ninja:3)", "unlisted settings: ", "  read by user (build.ninja:5) [2]",
         "1 race; 1 unlisted input; 2 commands ran"),
        (("race", "output", "read"), ("unlisted", None, "read"))),
    "a file that is no output, and two that no line lists": Planted(
        """build stamp: sh in
  do = cp in extra; touch stamp
build user: sh in || stamp
  do = cat extra in settings more > user
""",
        {"in": "x\n", "settings": "y\n", "more": "z\n"},
        ("undeclared extra: stamp (build.ninja:3)", "  used by user (build.ninja:5) [1]",
         "unlisted settings: ", "  read by user (build.ninja:5) [2]",
         "unlisted more: ", "  read by user (build.ninja:5) [3]",
         "no race; 1 undeclared output; 2 unlisted inputs; 2 commands ran"),
        (("undeclared", None, "read"), ("unlisted", None, "read"), ("unlisted", None, "read")), pair=False,
        certain=True),
    "a file that no line lists, and more read than the words have": Planted(
        "".join(f"build user{k}: sh\n  do = cat settings > user{k}\n" for k in range(5)),
        {"settings": "y\n"},
        ("unlisted settings: commands read it, though", "  read by user0 (build.ninja:3) [1]",
         "  read by user2 (build.ninja:7) [3]", "  and by 2 more (--all tells them)\n",
         "no race; 5 unlisted inputs; 5 commands ran"),
        (("unlisted", None, "read"),) * 5, pair=False, certain=True),
    "everything is declared": Planted(
        """build table: sh in
  do = cp in table
build user: sh in | table
  do = cat table in > user
build both: sh user table
  do = cat user table > both
""",
        {"in": "x\n"}, certain=True),
    "two outputs in a folder that Ninja makes": Planted(
        """build d/one: sh in
  do = cp in d/one
build d/two: sh in
  do = cp in d/two
build user: sh in | d/one
  do = test -d d && cat in d/one > user
""",
        {"in": "x\n"}, certain=True),
    "a command asks for a folder that Ninja makes for another": Planted(
        """build d/one: sh in
  do = cp in d/one
build user: sh in
  do = sleep 1; test -d d && cat in > user
""",
        {"in": "x\n"}),
    "a command takes a folder of outputs away before it is made again": Planted(
        """build clean: sh in
  do = rm -rf d; touch clean
build d/one: sh in || clean
  do = cp in d/one
build d/two: sh in || clean
  do = cp in d/two
""",
        {"in": "x\n", "d/old": "y\n"}, certain=True),
    "a command goes through a link that another one moves, for its output alone": Planted(
        """build slow: sh in
  do = sleep 1; touch slow
build move: sh in
  do = ln -sfn v2 cur; touch move
build cur/d/one: sh in || slow
  do = true
""",
        {"in": "x\n", "v1/old": "y\n", "v2/old": "y\n"}, links={"cur": "v1"}),
    "a command waits for the link on the way to its output": Planted(
        """build cur: sh in
  do = mkdir -p v1 && ln -s v1 cur
build cur/d/one: sh in || cur
  do = cp in cur/d/one
""",
        {"in": "x\n"}, certain=True),
    "a link to an output leads to nothing until another command has run": Planted(
        """build slow: sh in
  do = sleep 1; touch slow
build make: sh in
  do = mkdir -p none; touch make
build cur/d/one: sh in || slow
  do = true
""",
        {"in": "x\n"}, links={"cur": "none"}),
    "a response file in a folder that Ninja makes for another command": Planted(
        """rule by_file
  command = cp d/words $out
  rspfile = d/words
  rspfile_content = x
build slow: sh in
  do = sleep 1; touch slow
build d/one: sh in
  do = cp in d/one
build two: by_file in || slow
""",
        {"in": "x\n"}),
    "two commands make one folder": Planted(
        """build d/one: sh in
  do = mkdir -p d && cp in d/one
build d/two: sh in
  do = mkdir -p d && cp in d/two
""",
        {"in": "x\n"}, certain=True),
}


def write_files(folder: pathlib.Path, files: dict[str, str]) -> None:
    """Writes files below a folder."""
    for name, text in files.items():
        (folder / name).parent.mkdir(parents=True, exist_ok=True)
        (folder / name).write_text(text)


def record(folder: pathlib.Path, recorded: pathlib.Path, *words: str) -> None:
    """Records the build in a folder, and says so where that fails."""
    ran = subprocess.run([sys.executable, RECORDER, folder, recorded, "--observe", *words], capture_output=True,
                         text=True, timeout=600, check=False, stdin=subprocess.DEVNULL,
                         env={**os.environ, "LC_ALL": "C"})
    if ran.returncode != 0:
        raise RuntimeError(f"rebug-record ends with {ran.returncode}\n{ran.stdout}{ran.stderr}")


def record_planted(it: Planted, room: pathlib.Path) -> pathlib.Path:
    """Records a build from nothing in a folder of its own; the recording's folder."""
    folder = room / "build"
    folder.mkdir()
    write_files(folder, {"build.ninja": RULES + it.build, **it.sources})
    for name, target in it.links.items():
        (folder / name).symlink_to(target)
    record(folder, room / "recorded", "-j", "4")
    return room / "recorded"
