"""Small projects with a planted race, each built once in good order and recorded, so that its race can be provoked.

In each the maker writes a file and the user reads it without waiting for it. No compiler is needed: commands are
copies, and depfiles are written by the shell.
"""

from __future__ import annotations

import os
import pathlib
import shutil
import subprocess
import sys
import tempfile
import unittest
from dataclasses import dataclass, field

import builds

PROVOKE = builds.RECORDER.parent / "rebug-provoke"
STAND_IN = pathlib.Path(__file__).resolve().parent / "programs/races.py"

NOBODY = 65534

RULES = """rule gen
  command = cat $in > $out
rule use
  command = cat $in $reads > $out && echo "$out: $in $reads" > $out.d
  depfile = $out.d
  deps = gcc
rule plain
  command = cat $in $reads > $out && echo "$out: $in $reads" > $out.d
  depfile = $out.d
rule soft
  command = { cat $in $reads 2>/dev/null || echo without; } > $out; echo "$out: $in $reads" > $out.d
  depfile = $out.d
  deps = gcc
rule link
  command = cat $in > $out
"""
SOURCES = {"v.in": "#define V 1\n", "m.c": "m\n", "n.c": "n\n"}


@dataclass
class Planted:
    """A project: its statements behind RULES, files beside SOURCES, what is built before the recording, and the answer
    that is due. `sources` are files of the folder `../src`; `../elsewhere` is there, too, and `links` lead there."""

    text: str
    first: list[str]
    due: str = "it fails so"
    files: dict[str, str] = field(default_factory=dict)
    sources: dict[str, str] = field(default_factory=dict)
    own: list[str] = field(default_factory=list)
    links: dict[str, str] = field(default_factory=dict)


GEN = "build v.h: gen v.in\n"
USE = "build m.o: use m.c\n  reads = v.h\n"
APP = "build app: link m.o\n"
PLANTED = {
    "order_only_missing": Planted(GEN + USE + APP, ["v.h"]),
    "group_lacks_it": Planted(GEN + "build w.h: gen n.c\nbuild headers: phony w.h\n"
                              + USE.replace("m.c\n", "m.c || headers\n") + APP, ["v.h"]),
    "depfile_without_deps": Planted(GEN + USE.replace("use", "plain") + APP, ["v.h"]),
    "job_alone": Planted(GEN + USE + APP, ["v.h"], own=["-j", "1"]),
    "validation_alone": Planted(GEN + USE.replace("m.c\n", "m.c |@ v.h\n") + APP, ["v.h"]),
    "phony_between": Planted("rule both\n  command = cat $in > $out && cp $out v.h\nbuild v.stamp: both v.in\n"
                             "build v.h: phony v.stamp\n" + USE + APP, ["v.stamp"]),
    "second_output": Planted("rule two\n  command = cp $in a.h && cp $in v.h\nbuild a.h v.h: two v.in\n" + USE + APP,
                             ["v.h"]),
    "implicit_output": Planted("rule two\n  command = cp $in a.h && cp $in v.h\nbuild a.h | v.h: two v.in\n" + USE
                               + APP, ["v.h"]),
    "maker_in_a_subninja": Planted("subninja sub/part.ninja\n" + USE + APP, ["v.h"],
                                   files={"sub/part.ninja": "# part\n\n" + GEN}),
    "user_in_an_include": Planted(GEN + "include sub/part.ninja\n" + APP, ["v.h"], files={"sub/part.ninja": USE}),
    "odd_names": Planted("rule odd\n  command = cat $in 'v $$v.h' > $out && echo 'x: m.c v\\ $$$$v.h' > d\n"
                         "  depfile = d\n  deps = gcc\nbuild v$ $$v.h: gen v.in\nbuild m$:m.o: odd m.c\n"
                         "build app: link m$:m.o\n", ["v $v.h"]),
    "statement_of_three_lines": Planted("build $\n    v.h: gen $\n    v.in\n"
                                        + USE.replace("use m.c", "use $\n  m.c") + APP, ["v.h"]),
    "maker_with_orders": Planted("build w.h: gen n.c\nbuild v.h: gen v.in || w.h |@ check\nbuild check: gen n.c\n"
                                 + USE.replace("m.c\n", "m.c | n.c || w.h |@ check\n") + APP, ["v.h"]),
    "absolute_names": Planted("build @/v.h: gen @/v.in\nbuild @/m.o: use @/m.c\n  reads = @/v.h\n"
                              "build app: link @/m.o\n", ["v.h"]),
    "restat": Planted("rule keep\n  command = cmp -s $in $out || cp $in $out\n  restat = 1\nbuild v.h: keep v.in\n"
                      + USE + APP, ["v.h"]),
    "generator_and_pool": Planted("pool one\n  depth = 1\nrule g\n  command = cp $in $out\n  generator = 1\n"
                                  "  pool = one\nbuild v.h: g v.in\n" + USE.replace("reads", "pool = one\n  reads")
                                  + APP, ["v.h"]),
    "other_bytes": Planted(GEN + USE.replace("use", "soft") + APP, ["v.h"], "it gives other bytes so"),
    "into_the_sources": Planted("build ../src/v.h: gen ../src/v.in\nbuild m.o: use ../src/m.c\n"
                                "  reads = ../src/v.h\n" + APP, ["../src/v.h"],
                                sources={"v.in": "1\n", "m.c": "m\n"}),
    "behind_a_link": Planted(GEN.replace("v.h", "out/v.h") + "build out/m.o: use m.c\n  reads = out/v.h\n"
                             "build app: link out/m.o\n", ["out/v.h"], links={"out": "../elsewhere"}),
    "logs_elsewhere": Planted("builddir = ../elsewhere/logs\n" + GEN + USE + APP, ["v.h"]),
    "statement_elsewhere": Planted(GEN + "include ../elsewhere/part.ninja\n" + APP, ["v.h"],
                                   files={"../elsewhere/part.ninja": USE}),
    "nothing_of_it_is_used": Planted(GEN + "rule lists\n  command = cp $in $out && echo \"$out: $in v.h\" > $out.d\n"
                                     "  depfile = $out.d\n  deps = gcc\nbuild m.o: lists m.c\n" + APP, ["v.h"],
                                     "no difference seen"),
    "other_bytes_each_time": Planted(GEN + "rule random\n  command = head -c 32 /dev/urandom > $out; "
                                     "echo \"$out: v.h\" > $out.d\n  depfile = $out.d\n  deps = gcc\n"
                                     "build m.o: random m.c\n" + APP, ["v.h"], "no difference seen"),
    "fails_in_any_order": Planted(GEN + "rule once\n  command = cat $in v.h > $out; "
                                  "echo \"$out: $in v.h\" > $out.d; [ ! -e no ]\n  depfile = $out.d\n  deps = gcc\n"
                                  "build m.o: once m.c\n" + APP, ["v.h"], "nothing can be told"),
}
# Those of the two that are no race that can be told by bytes or statuses, and one whose mended build fails.
FAINT = {"nothing_of_it_is_used": 0, "other_bytes_each_time": 0, "fails_in_any_order": 3}


def python_for_all() -> str | None:
    """A Python that each user can run; None where there is none."""
    for it in (sys.executable, "/usr/bin/python3", "/usr/local/bin/python3"):
        try:
            done = subprocess.run([it, PROVOKE, "-h"], user=NOBODY, group=NOBODY, extra_groups=[], capture_output=True)
        except OSError:
            continue
        if not done.returncode:
            return it
    return None


def everything(*tops: pathlib.Path) -> dict[str, tuple]:
    """All that stands there: its names, with bytes, modes, owners, stamps of change, and inodes."""
    found = {}
    for it in (path for top in tops for path in [top, *top.rglob("*")]):
        status = it.lstat()
        content = os.readlink(it) if it.is_symlink() else it.read_bytes() if it.is_file() else b""
        found[str(it)] = (content, status.st_mode, status.st_uid, status.st_gid, status.st_mtime_ns, status.st_ino)
    return found


class Made:
    """A project's folders in a room of its own, built and recorded."""

    def __init__(self, name: str, planted: Planted) -> None:
        self.planted = planted
        self.room = pathlib.Path(tempfile.mkdtemp(prefix="rebug-provoke-"))
        os.chmod(self.room, 0o755)
        self.build, self.source, self.recording = (self.room / it for it in ("build", "src", "recorded"))
        self.elsewhere = self.room / "elsewhere"
        for folder in (self.elsewhere, self.build):
            folder.mkdir()
        for name, to in planted.links.items():
            (self.build / name).symlink_to(to)
        text = RULES + planted.text.replace("@", str(self.build)) if "@/" in planted.text else RULES + planted.text
        self.write(self.build, {**SOURCES, **planted.files, "build.ninja": text})
        self.write(self.source, planted.sources)
        self.ninja(*(f"{self.build}/{it}" if "@/" in planted.text else it for it in planted.first))
        words = [sys.executable, builds.RECORDER, self.build, self.recording, *planted.own]
        done = subprocess.run(words, stdin=subprocess.DEVNULL, stdout=subprocess.PIPE, stderr=subprocess.STDOUT)
        if done.returncode:
            self.remove()
        assert done.returncode == 0, (name, done.stdout)

    @staticmethod
    def write(folder: pathlib.Path, files: dict[str, str]) -> None:
        folder.mkdir(exist_ok=True)
        for name, text in files.items():
            (folder / name).parent.mkdir(exist_ok=True)
            (folder / name).write_text(text)

    def ninja(self, *words: str) -> None:
        subprocess.run(["ninja", *words], cwd=self.build, check=True, stdin=subprocess.DEVNULL, capture_output=True)

    def words(self, *more: str, program: object = STAND_IN, python: str = sys.executable) -> list[object]:
        words = more if more and (more[0].isdigit() or "--all" in more) else ("1", *more)
        return [python, PROVOKE, self.build, self.recording, *words, "--rebug", program]

    def provoke(self, *more: str, program: object = STAND_IN, python: str = sys.executable,
                **how: object) -> tuple[int, str]:
        """The status, and what was answered and said."""
        done = subprocess.run(self.words(*more, program=program, python=python), stdin=subprocess.DEVNULL,
                              stdout=subprocess.PIPE, stderr=subprocess.STDOUT, text=True, **how)
        return done.returncode, done.stdout

    def everything(self) -> dict[str, tuple]:
        """All that stands in the two folders, and in those beside them."""
        return everything(self.room)

    def remove(self) -> None:
        shutil.rmtree(self.room, ignore_errors=True)


class WithProjects(unittest.TestCase):
    """Cases with small projects, whose races are those that a test names."""

    def made(self, text: str, first: list[str], told: str = "", **more: object) -> Made:
        found = Made("project", Planted(text, first, **more))
        self.addCleanup(found.remove)
        if told:
            (found.recording / "told").write_text(told + "\n")
        return found

    def keeps_all(self, it: Made, due: str, more: list[str], **how: object) -> str:
        """Provokes the first race, whose answer is due; nothing has changed then. Gives what was said."""
        before = everything(it.room)
        status, said = it.provoke(*more, **how)
        if "makes no copy" in said:
            self.skipTest(said)
        self.assertEqual(said.splitlines()[-1:], [due], (status, said))
        self.assertEqual(everything(it.room), before)
        return said
