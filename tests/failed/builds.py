"""Builds that fail on the day that they are recorded, by real Ninja with four jobs: each has a maker that takes as long
as it takes the user, which does not wait for it, to fail. No compiler is needed: commands are the shell's, and say what
real ones say."""

from __future__ import annotations

import os
import pathlib
import random
import subprocess
import sys
import time
from dataclasses import dataclass, replace

TOP = pathlib.Path(__file__).resolve().parent.parent.parent
RECORDER = TOP / "record/rebug-record"
# Seconds between two builds of one folder: the clock of a file system may tick every ten milliseconds, and Ninja takes
# a source for unchanged that has its output's stamp.
APART = 0.02


@dataclass
class Failing:
    """A build that fails: its files, and what is due of it. `named` is a path that the error names, with its maker and
    its user; else `beside` is the maker that stands among those that were running or still to run, and None in both
    where no race is the cause. `before` are the files of a day before, on which the build passed, where there was one;
    `listed` is a path that the user listed on that day, with its maker."""

    files: dict[str, str]
    user: str
    named: tuple[str, str] | None = None
    beside: str | None = None
    before: dict[str, str] | None = None
    listed: tuple[str, str] | None = None


RULES = """more = :
rule slow
  command = sh slow.sh; cp $in $out && $more
rule quick
  command = cp $in $out
rule sh
  command = $do
rule cc
  command = sh cc.sh $in $out
  depfile = $out.d
  deps = gcc
rule link
  command = cat $in > $out
"""
# Waits until a command has failed, or for half a minute.
SLOW = """n=0
while ! [ -e it-failed ] && [ $n -lt 600 ]; do
  sleep 0.05
  n=$((n + 1))
done
"""
# Compiles as gcc does, as far as headers go: SOURCE OUT.
CC = r"""n=0
echo "$2: $1" > "$2.d"
while read -r word name; do
  n=$((n + 1))
  if [ "$word" = "error" ]; then
    echo "$1:$n:1: error: expected ';' before '}' token"
    touch it-failed
    exit 1
  fi
  [ "$word" = "include" ] || continue
  if ! [ -e "$name" ]; then
    echo "$1:$n:10: fatal error: $name: No such file or directory"
    echo "    $n | #include \"$name\""
    echo "compilation terminated."
    touch it-failed
    exit 1
  fi
  echo "$2: $name" >> "$2.d"
done < "$1"
cat "$1" > "$2"
"""
SOURCES = {"cc.sh": CC, "slow.sh": SLOW, "no.sh": "touch it-failed\nexit 1\n", "v.in": "V 1\n", "one.c": "int one\n",
           "two.c": "int two\n"}
REST = "build one.o: cc one.c\nbuild two.o: cc two.c\nbuild app: link one.o two.o m.o\n"

# The kinds of flakes that users meet.
KINDS = {
    "a_generated_header": Failing(
        {"m.c": "include version.h\nint m\n",
         "build.ninja": "build version.h: slow v.in\nbuild m.o: cc m.c\n" + REST},
        "m.o", ("version.h", "version.h")),
    "b_script_reads_another_generators_output": Failing(
        {"m.c": "int m\n", "gen.py": "print(open('names.txt').read())\n",
         "build.ninja": "build names.txt: slow v.in\nbuild table.h: sh gen.py\n"
                        "  do = python3 gen.py > table.h || sh no.sh\n"
                        "build m.o: cc m.c || table.h\n" + REST},
        "table.h", ("names.txt", "names.txt")),
    "c_extra_header_that_no_line_declares": Failing(
        {"m.c": "include extra.h\nint m\n",
         "build.ninja": "build gen.h: slow v.in\n  more = cp v.in extra.h\nbuild m.o: cc m.c\n" + REST},
        "m.o", beside="gen.h"),
    "e_built_test_reads_anothers_data": Failing(
        {"m.c": "int m\n",
         "build.ninja": "build data/expected.txt: slow v.in\nbuild m.o: cc m.c\n" + REST
                        + "build test.done: sh app v.in\n"
                        + "  do = cmp v.in data/expected.txt && touch test.done || sh no.sh\n"},
        "test.done", ("data/expected.txt", "data/expected.txt")),
    "i_stamp_file_with_an_undeclared_header": Failing(
        {"m.c": "include made.h\nint m\n",
         "build.ninja": "build gen.stamp: slow v.in\n  more = cp v.in made.h\nbuild m.o: cc m.c\n" + REST},
        "m.o", beside="gen.stamp"),
    "syntax_error": Failing(
        {"m.c": "include v.in\nerror here\n", "build.ninja": "build m.o: cc m.c\n" + REST}, "m.o"),
    "syntax_error_beside_a_generator": Failing(
        {"m.c": "include v.in\nerror here\n",
         "build.ninja": "build version.h: slow v.in\nbuild m.o: cc m.c || v.in\n" + REST}, "m.o"),
    "second_day": Failing(
        {"m.c": "include version.h\nerror here\n", "v.in": "V 2\n",
         "build.ninja": "build version.h: quick v.in\nbuild m.o: cc m.c\n" + REST},
        "m.o", before={"m.c": "include version.h\nint m\n"}, listed=("version.h", "version.h")),
    "longer_name": Failing(
        {"m.c": "include reversion.h\nint m\n",
         "build.ninja": "build version.h: slow v.in\nbuild m.o: cc m.c\n" + REST}, "m.o",
        beside="version.h"),
}

# What compilers and scripts say of a file that is not there; NAME is its path as they were given it.
SAID = ("{source}:3:10: fatal error: {name}: No such file or directory",
        "{source}:7:10: fatal error: '{name}' file not found", "cat: {name}: No such file or directory",
        "FileNotFoundError: [Errno 2] No such file or directory: '{name}'",
        "Can't open perl script \"{name}\": No such file or directory",
        "cp: cannot stat '{name}': No such file or directory", "{name}: File not found.",
        "tar: {name}: Cannot open: No such file or directory",
        "error: couldn't read {name}: No such file or directory (os error 2)", "ERROR: cannot open {name} (ENOENT)")

# Ten builds of the sizes and the names of real projects: name, commands, the folder of an object, the header.
REAL = (("json_c", 85, "CMakeFiles/json-c.dir/{0}.c.o", "json_config.h"),
        ("cmark", 47, "src/CMakeFiles/cmark.dir/{0}.c.o", "src/cmark_version.h"),
        ("wayland", 88, "src/libwayland-server.so.0.21.0.p/{0}.c.o", "src/wayland-protocol.c"),
        ("libxkbcommon", 170, "libxkbcommon.a.p/src_{0}.c.o", "parser.h"),
        ("ninja", 64, "CMakeFiles/libninja.dir/src/{0}.cc.o", "build/browse_py.h"),
        ("libevent", 165, "CMakeFiles/event_core_static.dir/{0}.c.o", "include/event2/event-config.h"),
        ("mbedtls", 138, "library/CMakeFiles/mbedcrypto.dir/{0}.c.o", "library/error.c"),
        ("fribidi", 66, "lib/libfribidi.a.p/{0}.c.o", "gen.tab/bidi-type.tab.i"),
        ("dav1d", 120, "src/libdav1d_bitdepth_8.a.p/{0}.c.o", "vcs_version.h"),
        ("libdrm", 90, "libdrm.so.2.4.0.p/xf86drm_{0}.c.o", "generated_static_table_fourcc.h"))


def real(place: int) -> Failing:
    """A build like one of these projects: its objects, archives of a few each, tests of these, a quick generator that
    is waited for, and the slow one that one command does not wait for."""
    name, count, path, header = REAL[place]
    dice = random.Random(name)
    objects = [path.format(f"{dice.choice(('util', 'core', 'parse', 'io'))}_{it}") for it in range(count * 3 // 4)]
    user = objects[dice.randrange(4)]
    said = SAID[place].format(source=f"../src/{place}.c", name=header if place % 2 else f"./{header}")
    lines = [RULES.replace("sh cc.sh $in $out", "sh cc.sh $in $out $needs"), "builddir = .\n",
             f"build {header}: slow v.in\n", "build quick.h: quick v.in\n"]
    for it in objects:
        lines.append(f"build {it}: cc v.in || quick.h\n" + (f"  needs = {header}\n" if it == user else ""))
    for at in range(0, len(objects), 12):
        lines.append(f"build lib{at}.a: link {' '.join(objects[at : at + 12])}\nbuild test{at}: link lib{at}.a\n")
    tests = " ".join(f"test{at}" for at in range(0, len(objects), 12))
    lines.append(f"build all: phony {header} {tests}\ndefault all\n")
    compiler = ('echo "$2: $1" > "$2.d"\nif [ -n "$3" ] && ! [ -e "$3" ]; then\n  cat error\n  exec sh no.sh\nfi\n'
                'cp "$1" "$2"\n')
    files = {**SOURCES, "cc.sh": compiler, "error": f"In file included from ../src/{place}.c:1:\n{said}\n",
             "build.ninja": "".join(lines)}
    return Failing(files, user, (header, header))


BUILDS = {**{name: replace(it, files={**SOURCES, **it.files, "build.ninja": RULES + it.files["build.ninja"]})
             for name, it in KINDS.items()},
          **{f"like_{REAL[place][0]}": real(place) for place in range(len(REAL))}}


def write(build: pathlib.Path, files: dict[str, str]) -> None:
    for path, text in files.items():
        (build / path).parent.mkdir(parents=True, exist_ok=True)
        (build / path).write_text(text, encoding="utf-8")


def record(name: str, room: pathlib.Path) -> pathlib.Path:
    """Records the build in a folder of its own, and gives the recording. A build of the day before is not recorded."""
    it, build, recorded = BUILDS[name], room / name / "build", room / name / "recorded"
    if it.before is not None:
        write(build, it.files | it.before)
        subprocess.run(["ninja", "-C", build, "-j", "1"], stdin=subprocess.DEVNULL, stdout=subprocess.DEVNULL,
                       timeout=600, check=True)
        time.sleep(APART)
    write(build, it.files)
    words = [sys.executable, RECORDER, build, recorded, "-j", "4"]
    done = subprocess.run(words, stdin=subprocess.DEVNULL, stdout=subprocess.PIPE, stderr=subprocess.STDOUT,
                          timeout=600, env={**os.environ, "LC_ALL": "C"})
    assert done.returncode, f"{name}: the build does not fail:\n{done.stdout.decode(errors='replace')}"
    return recorded
