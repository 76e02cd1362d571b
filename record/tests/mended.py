"""Small projects of CMake, Meson and GN with one flake each, and what mends it.

A compiler that begins some time late (`programs/slow_cc`) has each build pass, so that the flake is found by what was
observed. The edits that are due are those of the table in docs/MEND.md.
"""

from __future__ import annotations

import dataclasses
import os
import pathlib
import re
import shutil
import subprocess
import sys
import tempfile
from dataclasses import dataclass, field

import builds

MEND = builds.RECORDER.parent / "rebug-mend"
PROGRAMS = pathlib.Path(__file__).resolve().parent / "programs"
STAND_IN = PROGRAMS / "observed_races.py"
SECONDS = 300

# Writes headers; `-i IN OUT` copies a file, some time later.
GEN = """#!/bin/sh
if [ "$1" = -i ]; then sleep @; cat "$2" > "$3" || exit 1; exit 0; fi
for f; do case $f in *.c) echo "int gen_c(void){return 3;}" > $f;; *) echo "#define V 1" > $f;; esac; done
"""
CORE = '#include "v.h"\nint core(void){return V;}\n'
MAIN = "int core(void);\nint main(void){return core();}\n"
ONE = '#include "v.h"\nint main(void){return V;}\n'
HEAD = """cmake_minimum_required(VERSION 3.16)
project(flake C)
set(GEN ${CMAKE_SOURCE_DIR}/gen.sh)
"""
VERSION = "add_custom_command(OUTPUT v.h COMMAND ${GEN} v.h DEPENDS ${GEN})\n"
MESON = "project('flake', 'c')\ngen = find_program('gen.sh')\n"


@dataclass
class Project:
    """The files of a project, and the mends that are due, in the words of the answer. The compiler begins `slow`
    seconds late, where its words have `slow_for`; `gen.sh -i` reads after a time. `targets` are words for Ninja.
    What `left` names in the build folder no line declares, so that it is taken away for a build from nothing."""

    files: dict[str, str]
    due: list[str]
    slow: float = 0.5
    slow_for: str = ""
    reads_after: float = 0.5
    targets: list[str] = field(default_factory=list)
    generator: str = "Ninja"
    left: list[str] = field(default_factory=list)

    @property
    def tool(self) -> str:
        """What configures it."""
        of_file = {"CMakeLists.txt": "cmake", "meson.build": "meson", ".gn": "gn"}
        return next(tool for file, tool in of_file.items() if file in self.files)


PROJECTS = {
    "c01-same-dir": Project({
        "CMakeLists.txt": HEAD + VERSION + """\
add_custom_target(version ALL DEPENDS v.h)
add_library(core STATIC core.c)
target_include_directories(core PRIVATE ${CMAKE_CURRENT_BINARY_DIR})
add_executable(app main.c)
target_link_libraries(app core)
""",
        "core.c": CORE,
        "main.c": MAIN,
    }, ["CMakeLists.txt:6: add_dependencies(core version)"]),
    "c02-other-dir": Project({
        "CMakeLists.txt": HEAD + """\
add_subdirectory(src)
add_subdirectory(gen)
""",
        "gen/CMakeLists.txt": VERSION + """\
add_custom_target(headers ALL
  DEPENDS v.h)
""",
        "src/CMakeLists.txt": """\
include_directories(${CMAKE_BINARY_DIR}/gen)
add_library(core STATIC
  core.c
)
add_executable(app main.c)
target_link_libraries(app core)
""",
        "src/core.c": CORE,
        "src/main.c": MAIN,
    }, ["src/CMakeLists.txt:4: add_dependencies(core headers)"]),
    "c03-carried-by-library": Project({
        "CMakeLists.txt": HEAD + VERSION + """\
include_directories(${CMAKE_CURRENT_BINARY_DIR})
add_library(tables STATIC tables.c v.h)
add_executable(app one.c)
""",
        "tables.c": CORE,
        "one.c": ONE,
    }, ["CMakeLists.txt:7: target_sources(app PRIVATE ${CMAKE_CURRENT_BINARY_DIR}/v.h)"]),
    "c04-library-of-other-dir": Project({
        "CMakeLists.txt": HEAD + """\
include_directories(${CMAKE_BINARY_DIR}/proto)
add_subdirectory(proto)
add_executable(app one.c)
""",
        "proto/CMakeLists.txt": VERSION + "add_library(proto STATIC core.c v.h)\n",
        "proto/core.c": CORE,
        "one.c": ONE,
    }, ["proto/CMakeLists.txt:1: add_custom_target(v_h_made DEPENDS ${CMAKE_CURRENT_BINARY_DIR}/v.h) and "
         "CMakeLists.txt:6: add_dependencies(app v_h_made)"]),
    "c05-post-build": Project({
        "CMakeLists.txt": HEAD + """\
include_directories(${CMAKE_BINARY_DIR})
add_executable(tool tool.c)
add_custom_command(TARGET tool POST_BUILD COMMAND ${GEN} v.h)
add_executable(app one.c)
""",
        "tool.c": "int main(void){return 0;}\n",
        "one.c": """\
#include "x.h"
#include "v.h"
int main(void){return V;}
""",
        "x.h": "\n",
    }, ["CMakeLists.txt:7: add_dependencies(app tool)",
        "CMakeLists.txt:6: BYPRODUCTS ${CMAKE_CURRENT_BINARY_DIR}/v.h in add_custom_command",
        "CMakeLists.txt:5: set_property(TARGET tool APPEND PROPERTY LINK_DEPENDS ${CMAKE_CURRENT_SOURCE_DIR}/gen.sh)"],
        slow=1.2, slow_for="one.c", left=["v.h"]),
    "c06-custom-custom": Project({
        "CMakeLists.txt": HEAD + VERSION + """\
add_custom_command(
  OUTPUT w.h
  COMMAND ${GEN} -i v.h w.h
  DEPENDS ${GEN}
)
add_custom_target(both ALL DEPENDS v.h w.h)
""",
    }, ["CMakeLists.txt:5: DEPENDS ${CMAKE_CURRENT_BINARY_DIR}/v.h in add_custom_command"]),
    "c07-custom-custom-dirs": Project({
        "CMakeLists.txt": HEAD + """\
add_subdirectory(a)
add_subdirectory(x)
""",
        "a/CMakeLists.txt": VERSION + "add_custom_target(va ALL DEPENDS v.h)\n",
        "x/CMakeLists.txt": """\
add_custom_command(OUTPUT w.h COMMAND ${GEN} -i ${CMAKE_BINARY_DIR}/a/v.h w.h DEPENDS ${GEN})
add_custom_target(wb ALL DEPENDS w.h)
""",
    }, ["x/CMakeLists.txt:1: DEPENDS va ${CMAKE_BINARY_DIR}/a/v.h in add_custom_command"]),
    "c08-external-project": Project({
        "CMakeLists.txt": HEAD + """\
include(ExternalProject)
ExternalProject_Add(ext SOURCE_DIR ${CMAKE_SOURCE_DIR}/ext CONFIGURE_COMMAND ""
  BUILD_COMMAND ${GEN} ${CMAKE_BINARY_DIR}/v.h INSTALL_COMMAND "")
add_executable(app one.c)
target_include_directories(app PRIVATE ${CMAKE_BINARY_DIR})
""",
        "ext/x": "",
        "one.c": ONE,
    }, ["CMakeLists.txt:7: add_dependencies(app ext)",
        "CMakeLists.txt:5: BUILD_BYPRODUCTS ${CMAKE_CURRENT_BINARY_DIR}/v.h in ExternalProject_Add",
        "no: ext-prefix/src/ext-stamp/ext-build is a step of ExternalProject_Add, which names what it reads itself"],
        slow=2.5, slow_for="one.c", left=["v.h", "ext-prefix"]),
    "c09-target-command": Project({
        "CMakeLists.txt": HEAD + """\
add_custom_target(stamp ALL COMMAND ${GEN} ${CMAKE_BINARY_DIR}/v.h)
add_executable(app one.c)
target_include_directories(app PRIVATE ${CMAKE_BINARY_DIR})
""",
        "one.c": ONE,
    }, ["CMakeLists.txt:5: add_dependencies(app stamp)",
        "CMakeLists.txt:4: BYPRODUCTS ${CMAKE_CURRENT_BINARY_DIR}/v.h in add_custom_target",
        "CMakeLists.txt:4: DEPENDS ${CMAKE_CURRENT_SOURCE_DIR}/gen.sh in add_custom_target"],
        left=["v.h"]),
    "c10-pch-unity": Project({
        "CMakeLists.txt": HEAD + VERSION + """\
add_custom_target(version ALL DEPENDS v.h)
add_library(core STATIC core.c two.c)
target_include_directories(core PRIVATE ${CMAKE_CURRENT_BINARY_DIR})
target_precompile_headers(core PRIVATE pre.h)
add_library(uni STATIC core.c two.c)
set_target_properties(uni PROPERTIES UNITY_BUILD ON)
target_include_directories(uni PRIVATE ${CMAKE_CURRENT_BINARY_DIR})
""",
        "core.c": CORE,
        "two.c": """\
#include "v.h"
int two(void){return V;}
""",
        "pre.h": "#include \"v.h\"\n",
    }, ["CMakeLists.txt:6: add_dependencies(core version)",
        "CMakeLists.txt:9: add_dependencies(uni version)"]),
    "c11-object-library": Project({
        "CMakeLists.txt": HEAD + VERSION + """\
add_custom_target(version ALL DEPENDS v.h)
add_library(obj OBJECT core.c)
target_include_directories(obj PRIVATE ${CMAKE_CURRENT_BINARY_DIR})
add_executable(app main.c $<TARGET_OBJECTS:obj>)
""",
        "core.c": CORE,
        "main.c": MAIN,
    }, ["CMakeLists.txt:6: add_dependencies(obj version)"]),
    "c12-function-loop": Project({
        "CMakeLists.txt": HEAD + VERSION + """\
add_custom_target(version ALL DEPENDS v.h)
include(cmake/make.cmake)
if(TRUE)
  make_app(one)
endif()
foreach(n a b)
  add_executable(app_${n} one.c)
  target_include_directories(app_${n} PRIVATE ${CMAKE_CURRENT_BINARY_DIR})
endforeach()
""",
        "cmake/make.cmake": """\
function(make_app name)
  add_executable(${name} ${name}.c)
  target_include_directories(${name} PRIVATE ${CMAKE_CURRENT_BINARY_DIR})
endfunction()
""",
        "one.c": ONE,
    }, ["CMakeLists.txt:8: add_dependencies(one version)",
        "CMakeLists.txt:14: add_dependencies(app_a version)",
        "CMakeLists.txt:14: add_dependencies(app_b version)"]),
    "c13-check-target": Project({
        "CMakeLists.txt": HEAD + """\
add_executable(app plain.c)
add_custom_target(check ALL COMMAND ${GEN} -i ${CMAKE_BINARY_DIR}/app ${CMAKE_BINARY_DIR}/copy)
""",
        "plain.c": "int main(void){return 0;}\n",
    }, ["CMakeLists.txt:5: DEPENDS app in add_custom_target",
        "CMakeLists.txt:5: DEPENDS ${CMAKE_CURRENT_SOURCE_DIR}/gen.sh in add_custom_target"],
        slow=0, reads_after=1.5),
    "c14-configure-file": Project({
        "CMakeLists.txt": HEAD + """\
configure_file(v.h.in v.h)
add_executable(app one.c)
target_include_directories(app PRIVATE ${CMAKE_BINARY_DIR})
""",
        "v.h.in": "#define V 1\n",
        "one.c": ONE,
    }, []),
    "c15-link-script": Project({
        "CMakeLists.txt": HEAD + """\
add_custom_command(OUTPUT app.map COMMAND ${CMAKE_COMMAND} -E copy ${CMAKE_SOURCE_DIR}/map.in app.map DEPENDS map.in)
add_custom_target(map ALL DEPENDS app.map)
add_library(so SHARED core.c)
target_include_directories(so PRIVATE ${CMAKE_SOURCE_DIR})
target_link_options(so PRIVATE -Wl,--version-script=${CMAKE_BINARY_DIR}/app.map)
""",
        "map.in": "{ global: core; local: *; };\n",
        "core.c": "int core(void){return 1;}\n",
    }, ["CMakeLists.txt:6: set_property(TARGET so APPEND PROPERTY LINK_DEPENDS ${CMAKE_CURRENT_BINARY_DIR}/app.map)"]),
    "c16-cycle-of-targets": Project({
        "CMakeLists.txt": HEAD + VERSION + """\
include_directories(${CMAKE_CURRENT_BINARY_DIR})
add_library(core STATIC core.c)
add_executable(app main.c v.h)
target_link_libraries(app core)
""",
        "core.c": CORE,
        "main.c": """\
#include "v.h"
int core(void);
int main(void){return core();}
""",
    }, ["CMakeLists.txt:6: target_sources(core PRIVATE ${CMAKE_CURRENT_BINARY_DIR}/v.h)"]),
    "m01-variable": Project({
        "meson.build": MESON + """\
version = custom_target('version', output: 'v.h', command: [gen, '@OUTPUT@'], build_by_default: true)
core = static_library('core', 'core.c')
executable('app', 'main.c', link_with: core)
""",
        "core.c": CORE,
        "main.c": MAIN,
    }, ["meson.build:4: version among the sources of static_library('core')"]),
    "m02-subdir-no-variable": Project({
        "meson.build": MESON + """\
subdir('gen')
subdir('src')
""",
        "gen/meson.build": """\
custom_target('version-h',
  output: 'v.h',
  command: [gen, '@OUTPUT@'],
  build_by_default: true,
)
inc = include_directories('.')
""",
        "src/meson.build": """\
app_sources = [
  'one.c', # [the one
]
executable('app',
  app_sources,
  include_directories: inc,
  install: false)
""",
        "src/one.c": ONE,
    }, ["src/meson.build:4: version_h among the sources of executable('app')"]),
    "m03-two-outputs": Project({
        "meson.build": MESON + """\
made = custom_target('made', output: ['g.c', 'v.h'], command: [gen, '@OUTPUT@'])
lib = static_library('lib', made)
executable('app', 'one.c', link_with: lib)
""",
        "one.c": ONE,
    }, ["meson.build:5: made[1] among the sources of executable('app')"]),
    "m04-custom-custom": Project({
        "meson.build": MESON + """\
custom_target('v', output: 'v.h', command: [gen, '@OUTPUT@'], build_by_default: true)
custom_target('w', output: 'w.h',
  command: [gen, '-i', 'v.h', '@OUTPUT@'],
  build_by_default: true)
""",
    }, ["meson.build:4: depends: v in custom_target"]),
    "m05-generator": Project({
        "meson.build": MESON + """\
v = custom_target('v', output: 'v.h', command: [gen, '@OUTPUT@'], build_by_default: true)
g = generator(gen, output: '@BASENAME@.h', arguments: ['-i', 'v.h', '@OUTPUT@'])
executable('app', 'plain.c', g.process('x.in'))
""",
        "plain.c": """\
#include "x.h"
int main(void){return V;}
""",
        "x.in": "",
    }, ["meson.build:4: depends: v in generator"]),
    "m06-vcs-tag": Project({
        "meson.build": MESON + """\
vcs_tag(command: ['echo', '1'], input: 'v.h.in', output: 'v.h')
executable('app', 'one.c')
""",
        "v.h.in": "#define V @VCS_TAG@\n",
        "one.c": ONE,
    }, ["meson.build:4: v_h among the sources of executable('app')"]),
    "m07-run-target": Project({
        "meson.build": MESON + """\
custom_target('v', output: 'v.h', command: [gen, '@OUTPUT@'], build_by_default: true)
run_target('go', command: [gen, '-i', 'v.h', 'w.h'])
""",
    }, ["meson.build:4: depends: v in run_target"], targets=["all", "go"]),
    "m08-subproject": Project({
        "meson.build": MESON + """\
subproject('sub')
executable('app', 'one.c', c_args: '-Isubprojects/sub')
""",
        "one.c": ONE,
        "subprojects/sub/meson.build": """\
project('sub', 'c')
gen = find_program('../../gen.sh')
version = custom_target('version', output: 'v.h', command: [gen, '@OUTPUT@'], build_by_default: true)
""",
    }, ["meson.build:4: subproject('sub').get_variable('version') among the sources of executable('app')"]),
    "m09-loop": Project({
        "meson.build": MESON + """\
version = custom_target('version', output: 'v.h', command: [gen, '@OUTPUT@'], build_by_default: true)
foreach n : ['a', 'b']
  executable('app_' + n, 'one.c')
endforeach
""",
        "one.c": ONE,
    }, ["meson.build:5: version among the sources of executable('app_a')"]),
    "m10-declared-later": Project({
        "meson.build": MESON + """\
executable('app', sources: ['one.c'])
version = custom_target('version', output: 'v.h', command: [gen, '@OUTPUT@'], build_by_default: true)
""",
        "one.c": ONE,
    }, ["meson.build:3: version among the sources of executable('app'), with "
         "the declaration of what it names moved above it"]),
    "m11-link-script": Project({
        "meson.build": MESON + """\
custom_target('map', input: 'map.in', output: 'app.map', build_by_default: true,
  command: ['cp', '@INPUT@', '@OUTPUT@'])
shared_library('so', 'core.c', link_args: '-Wl,--version-script=app.map')
""",
        "map.in": "{ global: core; local: *; };\n",
        "core.c": "int core(void){return 1;}\n",
    }, ["meson.build:5: link_depends: map in shared_library"]),
    "m12-private-header": Project({
        "meson.build": MESON + """\
g = generator(gen, output: '@BASENAME@.h', arguments: ['@OUTPUT@'])
lib = static_library('lib', 'core.c', g.process('v.in'))
executable('app', 'one.c', c_args: '-Iliblib.a.p')
""",
        "v.in": "",
        "core.c": CORE,
        "one.c": ONE,
    }, ["no: a generator() makes the file, which is private to the target that has it among its sources"]),
    "m13-many-users": Project({
        "meson.build": MESON + """\
version = custom_target('version', output: 'v.h', command: [gen, '@OUTPUT@'], build_by_default: true)
v_dep = declare_dependency(include_directories: '.')
executable('p', 'one.c', dependencies: v_dep)
executable('q', 'one.c', dependencies: v_dep)
""",
        "one.c": ONE,
    }, ["meson.build:4: sources: version in declare_dependency"]),
    "m14-pch": Project({
        "meson.build": MESON + """\
version = custom_target('version', output: 'v.h', command: [gen, '@OUTPUT@'], build_by_default: true)
executable('app', 'one.c', c_pch: 'pch/pre.h')
""",
        "one.c": ONE,
        "pch/pre.h": "#include \"v.h\"\n",
    }, ["meson.build:4: version among the sources of executable('app')"]),
    "m15-depends-already": Project({
        "meson.build": MESON + """\
a = custom_target('a', output: 'a.h', command: [gen, '@OUTPUT@'])
v = custom_target('v', output: 'v.h', command: [gen, '@OUTPUT@'], build_by_default: true)
custom_target('w', output: 'w.h', depends: a, command: [gen, '-i', 'v.h', '@OUTPUT@'], build_by_default: true)
""",
    }, ["meson.build:5: depends: v in custom_target"]),
    "n01-test-driver": Project({
        "CMakeLists.txt": HEAD + """\
add_executable(unit plain.c)
add_custom_command(
  OUTPUT result.txt
  COMMAND ${GEN} -i ${CMAKE_BINARY_DIR}/unit result.txt
)
add_custom_target(check ALL DEPENDS result.txt)
""",
        "plain.c": "int main(void){return 0;}\n",
    }, ["CMakeLists.txt:5: DEPENDS unit in add_custom_command",
        "CMakeLists.txt:5: DEPENDS ${CMAKE_CURRENT_SOURCE_DIR}/gen.sh in add_custom_command"],
        slow=0, reads_after=1.5),
    "n02-if-target": Project({
        "CMakeLists.txt": HEAD + """\
if(NOT TARGET core)
  add_library(core STATIC core.c)
  target_include_directories(core PRIVATE ${CMAKE_CURRENT_BINARY_DIR})
endif()
if(TARGET core)
  add_custom_command(OUTPUT v.h COMMAND ${GEN} v.h DEPENDS ${GEN})
  add_custom_target(version ALL DEPENDS v.h)
endif()
""",
        "core.c": CORE,
    }, ["CMakeLists.txt:5: add_dependencies(core version)"]),
    "n03-generator-expression": Project({
        "CMakeLists.txt": """\
cmake_minimum_required(VERSION 3.20)
project(flake C)
set(GEN ${CMAKE_SOURCE_DIR}/gen.sh)
add_custom_command(OUTPUT $<LOWER_CASE:V>.h COMMAND ${GEN} v.h DEPENDS ${GEN})
add_custom_command(OUTPUT $<1:w>.h COMMAND ${GEN} -i v.h w.h DEPENDS ${GEN})
add_custom_target(both ALL DEPENDS v.h w.h)
""",
    }, ["CMakeLists.txt:5: DEPENDS ${CMAKE_CURRENT_BINARY_DIR}/v.h in add_custom_command"]),
    "n04-multi-config": Project({
        "CMakeLists.txt": HEAD + VERSION + """\
add_custom_target(version ALL DEPENDS v.h)
add_library(core STATIC core.c)
target_include_directories(core PRIVATE ${CMAKE_CURRENT_BINARY_DIR})
""",
        "core.c": CORE,
    }, ["CMakeLists.txt:6: add_dependencies(core version)"], generator="Ninja Multi-Config"),
    "n05-function-of-commands": Project({
        "CMakeLists.txt": HEAD + VERSION + """\
add_custom_target(version ALL DEPENDS v.h)
include(cmake/make.cmake)
make_header(w)
make_header(x)
add_custom_target(made ALL DEPENDS w.h x.h)
""",
        "cmake/make.cmake": """\
function(make_header name)
  add_custom_command(OUTPUT ${name}.h COMMAND ${GEN} -i v.h ${name}.h DEPENDS ${GEN})
endfunction()
""",
    }, ["cmake/make.cmake:2: DEPENDS ${CMAKE_CURRENT_BINARY_DIR}/v.h in add_custom_command"]),
    "n06-interface-library": Project({
        "CMakeLists.txt": HEAD + VERSION + """\
add_custom_target(version ALL DEPENDS v.h)
add_library(headers INTERFACE)
target_include_directories(headers INTERFACE ${CMAKE_CURRENT_BINARY_DIR})
add_executable(p one.c)
target_link_libraries(p headers)
add_executable(q one.c)
target_link_libraries(q headers)
""",
        "one.c": ONE,
    }, ["CMakeLists.txt:6: add_dependencies(headers version)"]),
    "n07-link-chain": Project({
        "CMakeLists.txt": HEAD + VERSION + """\
add_custom_target(version ALL DEPENDS v.h)
add_library(core STATIC core.c)
target_include_directories(core PUBLIC ${CMAKE_CURRENT_BINARY_DIR})
add_executable(app main.c)
target_link_libraries(app core)
""",
        "core.c": CORE,
        "main.c": """\
#include "v.h"
int core(void);
int main(void){return core();}
""",
    }, ["CMakeLists.txt:6: add_dependencies(core version)"]),
    "n08-included-file": Project({
        "CMakeLists.txt": HEAD + VERSION + """\
add_custom_target(version ALL DEPENDS v.h)
include(targets.cmake)
""",
        "targets.cmake": """\
add_library(core STATIC core.c)
target_include_directories(core PRIVATE ${CMAKE_CURRENT_BINARY_DIR})
""",
        "core.c": CORE,
    }, ["CMakeLists.txt:6: add_dependencies(core version)"]),
    "n09-later-folder-meson": Project({
        "meson.build": MESON + """\
subdir('src')
subdir('gen')
""",
        "gen/meson.build": """\
version = custom_target('version', output: 'v.h', command: [gen, '@OUTPUT@'], build_by_default: true)
""",
        "src/meson.build": "executable('app', 'one.c', c_args: '-Igen')\n",
        "src/one.c": ONE,
    }, ["no: no edit that was tried mends it"]),
    "n10-both-libraries-meson": Project({
        "meson.build": MESON + """\
version = custom_target('version', output: 'v.h', command: [gen, '@OUTPUT@'], build_by_default: true)
both_libraries('core', ['core.c'])
""",
        "core.c": CORE,
    }, ["meson.build:4: version among the sources of both_libraries('core')"]),
    "n11-some-with-dependency-meson": Project({
        "meson.build": MESON + """\
version = custom_target('version', output: 'v.h', command: [gen, '@OUTPUT@'], build_by_default: true)
v_dep = declare_dependency(include_directories: '.')
executable('p', 'one.c', dependencies: v_dep)
executable('q', 'one.c', dependencies: [v_dep])
executable('r', 'one.c')
""",
        "one.c": ONE,
    }, ["meson.build:4: sources: version in declare_dependency",
        "meson.build:7: version among the sources of executable('r')"]),
    "n12-used-sources-variable-meson": Project({
        "meson.build": MESON + """\
custom_target('version.h', output: 'v.h', command: [gen, '@OUTPUT@'], build_by_default: true)
if true
  sources = files('one.c')
  executable(
    'app', sources, # the one
    install: false, # no
  )
endif
""",
        "one.c": ONE,
    }, ["meson.build:6: version_h among the sources of executable('app')"]),
    "n13-own-project": Project({
        "CMakeLists.txt": HEAD + """\
add_subdirectory(third/party EXCLUDE_FROM_ALL)
add_executable(app one.c)
target_include_directories(app PRIVATE ${CMAKE_BINARY_DIR}/third/party)
add_custom_target(use ALL DEPENDS app)
add_custom_target(all_headers ALL DEPENDS ${CMAKE_BINARY_DIR}/third/party/v.h)
""",
        "third/party/CMakeLists.txt": """\
project(party C)
add_custom_command(OUTPUT v.h COMMAND ${GEN} v.h DEPENDS ${GEN})
add_custom_target(party_headers ALL DEPENDS v.h)
""",
        "one.c": ONE,
    }, ["CMakeLists.txt:5: add_dependencies(app party_headers)"]),
    "g01-deps-and-a-template": Project({
        ".gn": "buildconfig = \"//build/BUILDCONFIG.gn\"\n",
        "build/BUILDCONFIG.gn": "set_default_toolchain(\"//build/toolchain:gcc\")\n",
        "build/toolchain/BUILD.gn": """\
cc = getenv("CC")
toolchain("gcc") {
  tool("cc") {
    depfile = "{{output}}.d"
    command = "$cc -MMD -MF $depfile {{include_dirs}} -c {{source}} -o {{output}}"
    depsformat = "gcc"
    outputs = [ "{{source_out_dir}}/{{target_output_name}}.{{source_name_part}}.o" ]
  }
  tool("link") {
    outputs = [ "{{target_output_name}}" ]
    command = "$cc -o {{target_output_name}} {{inputs}}"
  }
  tool("stamp") {
    command = "touch {{output}}"
  }
  tool("copy") {
    command = "cp {{source}} {{output}}"
  }
}
""",
        "BUILD.gn": """\
template("two_apps") {
  executable(target_name + "_a") {
    sources = invoker.sources
    include_dirs = [ root_gen_dir ]
  }
}

two_apps("pair") {
  sources = [ "one.c" ]
}

group("all") {
  deps = [
    ":pair_a",
    "//lib:core",
    "//tools:version",
  ]
}
""",
        "lib/BUILD.gn": """\
source_set("core") {
  sources = [ "core.c" ]
  include_dirs = [ root_gen_dir ]
}
""",
        "tools/BUILD.gn": """\
action("version") {
  script = "gen.py"
  outputs = [ "$root_gen_dir/v.h" ]
  args = [ "gen/v.h" ]
}
""",
        "tools/gen.py": """\
import sys
open(sys.argv[1], "w").write("#define V 1\\n")
""",
        "lib/core.c": CORE,
        "one.c": ONE,
    }, ["no: //:pair_a is made by a template", "lib/BUILD.gn:1: deps of source_set(\"core\") has \"//tools:version\""]),
}


class Made:
    """A project in a room of its own."""

    def __init__(self, name: str, project: Project) -> None:
        self.name, self.project = name, project
        self.top = pathlib.Path(os.path.realpath(tempfile.mkdtemp(prefix="rebug-mend-")))
        self.environment = {**os.environ, "CC": str(PROGRAMS / "slow_cc"), "CCACHE_DISABLE": "1"}
        for file, text in {"gen.sh": GEN.replace("@", str(project.reads_after)), **project.files}.items():
            path = self.top / file
            path.parent.mkdir(parents=True, exist_ok=True)
            path.write_text(text)
        (self.top / "gen.sh").chmod(0o755)

    def run(self, *words: object, slow: bool = False) -> tuple[int, str]:
        """The status of words in the project's folder, and what they wrote."""
        environment = dict(self.environment)
        if slow and self.project.slow:
            environment["SLOW"] = str(self.project.slow)
            environment.update({"SLOWFOR": self.project.slow_for} if self.project.slow_for else {})
        done = subprocess.run(list(map(str, words)), cwd=self.top, env=environment, stdin=subprocess.DEVNULL,
                              stdout=subprocess.PIPE, stderr=subprocess.STDOUT, text=True, timeout=SECONDS)
        return done.returncode, done.stdout

    def configure(self) -> None:
        """Has the generator write the manifest. CMake gives another one the second time, when all is in its cache."""
        words = {"cmake": [["cmake", "-G", self.project.generator, "-S", ".", "-B", "b"], ["cmake", "b"]],
                 "meson": [["meson", "setup", "b"]], "gn": [["gn", "gen", "b"]]}[self.project.tool]
        for it in words:
            status, said = self.run(*it)
            assert status == 0, (self.name, said)

    def record(self, out: str) -> int:
        """Records a build; gives its status."""
        more = ["--", *self.project.targets] if self.project.targets else []
        return self.run(sys.executable, builds.RECORDER, "--observe", "-j", "4", "b", out, *more, slow=True)[0]

    def mend(self, *more: str, program: object = STAND_IN) -> tuple[int, str]:
        """The status of `rebug mend`, and what it wrote."""
        return self.run(sys.executable, MEND, "b", "before", "--rebug", program, *more)

    def patch(self, answer: str) -> None:
        """Has `patch` do what an answer says."""
        (self.top / "answer").write_text(answer)
        status, said = self.run("patch", "-p0", "-i", "answer") if "\n--- " in answer else (0, "")
        assert status == 0, (self.name, said)

    def from_nothing(self) -> None:
        """Takes away what the build made, also what no line declares."""
        self.run("ninja", "-C", "b", "-t", "clean")
        for it in (self.top / "b" / name for name in self.project.left):
            shutil.rmtree(it) if it.is_dir() else it.unlink(missing_ok=True)

    def races(self, out: str, program: object = STAND_IN) -> str:
        """What the program tells of a recording: the races and the failed commands alone."""
        told = self.run(program, "races", "--json", out)[1]
        return "".join(f"{it}\n" for it in told.splitlines() if '"unlisted"' not in it)

    def everything(self) -> dict[str, tuple[int, int, bytes]]:
        """All that stands in the project, with modes, stamps and bytes."""
        found = {}
        for it in sorted(self.top.rglob("*")):
            status = it.lstat()
            content = os.fsencode(os.readlink(it)) if it.is_symlink() else it.read_bytes() if it.is_file() else b""
            found[str(it.relative_to(self.top))] = (status.st_mode, status.st_mtime_ns, content)
        return found

    def remove(self) -> None:
        shutil.rmtree(self.top, ignore_errors=True)


@dataclass
class Result:
    """What came of a project: the mends that the answer tells, its status, whether it left all as it was, and after the
    patch what the recording of a build from nothing has."""

    name: str
    lines: list[str] = field(default_factory=list)
    status: int = -1
    built: int = -1
    built_again: int = -1
    is_unchanged: bool = False
    answer: str = ""
    races_after: str = ""


def mends_in(answer: str) -> list[str]:
    """The mends that an answer tells, each once, and why there is none."""
    found = [it[1] or "no: " + it[2] for it in re.finditer(r"^  (?:(?:and for the next build|mend), tried: (.*)|"
                                                            r"no edit: (.*))$", answer, re.M)]
    return list(dict.fromkeys(found))


def tried(name: str, project: Project, keep: pathlib.Path | None = None) -> Result:
    """Builds a project and records that, mends it, and records a build from nothing again. The recordings go into the
    folder `keep`."""
    it, found = Made(name, project), Result(name)
    try:
        it.configure()
        found.built = it.record("before")
        before = it.everything()
        found.status, found.answer = it.mend()
        found.is_unchanged = it.everything() == before
        found.lines = mends_in(found.answer)
        it.patch(found.answer)
        it.from_nothing()
        found.built_again = it.record("after")
        found.races_after = it.races("after")
        for out in ("before", "after") if keep is not None else ():
            shutil.copytree(it.top / out, keep / name / out, dirs_exist_ok=True)
    finally:
        it.remove()
    return found


def changed(project: Project, **more: object) -> Project:
    """The project with other values."""
    return dataclasses.replace(project, **more)
