"""Projects that the tests make and build six times each, recorded: clean, a header touched, broken, mended, interrupted
midway, resumed. Beside each recording stands what `ninja -n -v` had planned and what Ninja's log then got.

Between them they have names with blanks and outside of ASCII, folders behind symbolic links, response files, restat,
the console pool, steps after a link, and manifests that make themselves anew.
"""

import json
import os
import re
import subprocess

import builds
from builds import Chain

STEPS = ("clean", "header_touched", "broken", "mended", "interrupted", "resumed")
QUICK = "printf '#define STEP 1\\n' >\"$1\"\n"
SLOW = 'begun="$(dirname "$1")/begun"; touch "$begun"; ' + builds.until_gone('"$begun"') + "\n"


class Project(Chain):
    """A build folder below a symbolic link."""

    def __init__(self, name, build):
        super().__init__(name)
        os.rmdir(self.build)
        (self.folder / "real" / build).mkdir(parents=True)
        (self.folder / "linked").symlink_to("real")
        self.build = self.logs = self.folder / "linked" / build

    def step(self, name, *words, **how):
        """Records a build, with what Ninja had planned before it and logged of it."""
        environment = {**os.environ, "NINJA_STATUS": "\x1e%t "}
        said = subprocess.run(["ninja", "-n", "-v", *words], cwd=self.build, stdin=subprocess.DEVNULL,
                              capture_output=True, env=environment).stdout.split(b"\n")
        planned = [it[1:].decode("latin-1").split(" ", 1) for it in said if it.startswith(b"\x1e")]
        before = self.log()
        self.record(name, *words, **how)
        logged = self.log()[len(before) :] if self.log()[: len(before)] == before else None
        (self.folder / f"{name}.planned").write_text(json.dumps({"planned": planned, "logged": logged}))

    def log(self):
        """The lines of the build log as (end, output)."""
        lines = [it.split(b"\t") for it in builds.read(self.logs / ".ninja_log").split(b"\n")[1:-1]]
        return [[int(it[1]), it[3].decode("latin-1")] for it in lines]

    def six(self, header, source, slow):
        """The six builds: `header` is touched, `source` is broken, `slow` is a script whose header others include."""
        good = (self.build / source).read_bytes()
        self.step("clean")
        self.write(header, (self.build / header).read_bytes() + b"\n")
        self.step("header_touched")
        self.write(source, b"#error no\nno\n" + good)
        self.step("broken", "-k", "0", status=1)
        self.write(source, good)
        self.step("mended")
        self.write(slow, SLOW)
        self.write(source, good + b"\n")
        self.step("interrupted", interrupt_when="begun")
        self.write(slow, QUICK)
        self.step("resumed")


CMAKE = """cmake_minimum_required(VERSION 3.13)
project(greeting C)
set(CMAKE_NINJA_FORCE_RESPONSE_FILE 1)
configure_file(version.in version.h)
add_custom_command(OUTPUT step.h COMMAND sh ${CMAKE_SOURCE_DIR}/step.sh step.h DEPENDS step.sh VERBATIM)
add_custom_command(OUTPUT kept.h COMMAND ${CMAKE_COMMAND} -E copy_if_different ${CMAKE_SOURCE_DIR}/kept.in kept.h
                   DEPENDS kept.in VERBATIM)
add_custom_target(steps DEPENDS step.h kept.h)
include_directories(${CMAKE_BINARY_DIR})
add_library(words STATIC "w one.c" "w_\u00fc.c" w3.c)
add_dependencies(words steps)
add_library(more OBJECT m1.c m2.c)
add_executable(greet greet.c $<TARGET_OBJECTS:more>)
add_dependencies(greet steps)
target_link_libraries(greet words)
add_custom_command(TARGET greet POST_BUILD COMMAND ${CMAKE_COMMAND} -E copy greet "greet too" VERBATIM)
add_custom_target(talk ALL COMMAND ${CMAKE_COMMAND} -E echo talking USES_TERMINAL)
"""


def write_sources(it, folder, texts):
    for name, text in texts.items():
        it.write(f"{folder}/{name}", text)


def c_sources():
    return {"version.in": "#define VERSION 1\n", "kept.in": "#define KEPT 1\n", "step.sh": QUICK,
            "words.h": "#define W 1\n",
            "w one.c": '#include "words.h"\n#include "step.h"\nint w1(void) { return W + STEP; }\n',
            "w_\u00fc.c": '#include "words.h"\n#include "kept.h"\nint w2(void) { return W + KEPT; }\n',
            "w3.c": '#include "version.h"\nint w3(void) { return VERSION; }\n',
            "m1.c": "int m1(void) { return 1; }\n", "m2.c": '#include "words.h"\nint m2(void) { return W; }\n',
            "greet.c": "int w1(void);\nint w2(void);\nint m1(void);\nint main(void) { return w1() + w2() + m1(); }\n"}


def cmake_project():
    """CMake: response files, a step after the link, restat of its own rules, USES_TERMINAL, configure_file."""
    it = Project("cmake_project", "b\u00fcild it")
    write_sources(it, "../src \u00fc", {"CMakeLists.txt": CMAKE, **c_sources()})
    subprocess.run(["cmake", "-G", "Ninja", "-S", it.build / "../src \u00fc", "-B", it.build], check=True,
                   capture_output=True)
    it.six("../src \u00fc/words.h", "../src \u00fc/w one.c", "../src \u00fc/step.sh")
    it.write("../src \u00fc/kept.in", "#define KEPT 1\n")
    it.step("restat")
    it.write("../src \u00fc/version.in", "#define VERSION 2\n")
    it.record("manifest_made_anew")


MESON = """project('greeting', 'c', default_options : ['buildtype=debug'])
configure_file(input : 'version.in', output : 'version.h', copy : true)
step = custom_target('step', input : 'step.sh', output : 'step.h', command : ['sh', '@INPUT@', '@OUTPUT@'])
kept = custom_target('kept', input : 'kept.in', output : 'kept.h', command : ['cp', '@INPUT@', '@OUTPUT@'])
words = static_library('words', 'w one.c', 'w_\u00fc.c', 'w3.c', step, kept)
executable('greet', 'greet.c', 'm1.c', 'm2.c', link_with : words)
run_target('talk', command : ['echo', 'talking'])
"""


def meson_project():
    """Meson: its own rules, a generated header, a manifest that Meson makes anew."""
    it = Project("meson_project", "b\u00fcild it/below")
    write_sources(it, "../../src", {"meson.build": MESON, **c_sources()})
    subprocess.run(["meson", "setup", it.build, it.build / "../../src"], check=True, capture_output=True)
    it.six("../../src/words.h", "../../src/w one.c", "../../src/step.sh")
    it.step("console", "talk", "greet")
    it.write("../../src/meson.build", MESON + "# another line\n")
    it.record("manifest_made_anew")


HAND = """ninja_required_version = 1.5
builddir = kept here
rule make_manifest
  command = cat build.in > build.ninja && touch $out
  generator = 1
  restat = 1
rule cc
  command = cc -MD -MF $out.d -c $in -o $out
  depfile = $out.d
  deps = gcc
rule keep
  command = cmp -s $in $out || cp $in $out
  restat = 1
rule step
  command = sh $in $out
rule pack
  command = cat $out.rsp > $out && ls -d $in >> $out
  rspfile = $out.rsp
  rspfile_content = $in_newline
rule link
  command = cc $in -o $out && echo linked > $out.done
rule talk
  command = echo talking && touch $out
  pool = console
rule packed
  command = sleep 0.05; cat $in > $out
  pool = two
pool two
  depth = 2
build build.ninja: make_manifest build.in
build step.h: step ../src/step.sh
build kept.h: keep ../src/kept.in
build version.h: keep ../src/version.in
build headers: phony step.h kept.h version.h
build a$ one.o: cc ../src/w$ one.c || headers
build \u00fc.o: cc ../src/w_\u00fc.c || headers
build w3.o: cc ../src/w3.c || headers
build m1.o: cc ../src/m1.c
build m2.o: cc ../src/m2.c
build greet.o: cc ../src/greet.c
build greet | greet.done: link a$ one.o \u00fc.o w3.o m1.o m2.o greet.o
build pack.txt: pack a$ one.o \u00fc.o m1.o
build talk.txt: talk greet
build p1: packed ../src/w3.c
build p2: packed ../src/w3.c
build p3: packed ../src/w3.c
build p4: packed p1 | p3
build all: phony talk.txt pack.txt p1 p2 p3 p4
default all
"""


def hand_project():
    """A manifest by hand, which makes itself anew: everything that generators seldom write."""
    it = Project("hand_project", "b\u00fcild")
    it.logs = it.build / "kept here"
    write_sources(it, "../src", {**c_sources()})
    for name in ("w one.c", "w_\u00fc.c", "w3.c"):
        text = (it.build / "../src" / name).read_text()
        it.write(f"../src/{name}", re.sub(r'"(step|kept|version)\.h"', rf'"../b{chr(252)}ild/\1.h"', text))
    it.write("build.in", HAND)
    it.write("build.ninja", HAND)
    subprocess.run(["ninja", "build.ninja"], cwd=it.build, check=True, capture_output=True)
    it.six("../src/words.h", "../src/w one.c", "../src/step.sh")
    it.write("../src/kept.in", "#define KEPT 1\n")
    it.step("restat")
    it.write("build.in", HAND.replace("echo talking", "echo talking again"))
    it.record("manifest_made_anew")


PROJECTS = {
    "cmake_project": (cmake_project, ("ninja", "cmake", "cc"), (*STEPS, "restat", "manifest_made_anew")),
    "meson_project": (meson_project, ("ninja", "meson", "cc"), (*STEPS, "console", "manifest_made_anew")),
    "hand_project": (hand_project, ("ninja", "cc"), (*STEPS, "restat", "manifest_made_anew")),
}
builds.CHAINS.update(PROJECTS)
