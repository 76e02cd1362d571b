"""Answers about recordings that name the generator's targets."""

from __future__ import annotations

import json
import pathlib
import subprocess
import tempfile

MANIFEST = "rule c\n  command = c\nbuild core.o: c core.c\nbuild libcore.a: c core.o\nbuild v.h: c\nbuild all: phony v.h\n"
TRACE = "rebug-trace 1\njobs 1\nlane 0\n"
TARGETS = """rebug-targets 1
by cmake 3.25.1
top ..
file CMakeLists.txt
file lib/CMakeLists.txt
target STATIC_LIBRARY core exact
at 1 2 exact
compile 0
link 1
target custom\\scommand v.h guess
custom 2
"""
# What `edges` prints of the four build statements.
EDGES = ["core.o (core, lib/CMakeLists.txt:2)", "libcore.a (core, lib/CMakeLists.txt:2)", "v.h (v.h, build.ninja:5)",
         "all (build.ninja:6), phony"]
# Faults: what stands in the file in place of something else, with the line and the number that are named.
FAULTS = (
    ("rebug-targets 1", "rebug-targets 2", 1, 100),
    ("by cmake 3.25.1\n", "", 2, 100),
    ("top ..\n", "top ..\ntop ..\n", 4, 100),
    ("top ..\n", "", 3, 100),
    ("file lib/CMakeLists.txt\n", "file\n", 5, 100),
    ("core exact\n", "core sure\n", 6, 100),
    ("at 1 2 exact\n", "at 2 2 exact\n", 7, 101),
    ("at 1 2 exact\n", "at 1 -2 exact\n", 7, 101),
    ("compile 0\n", "compile 0\nat 0 1 exact\n", 9, 100),
    ("at 1 2 exact\n", "at 1 2 exact\nat 1 2 exact\n", 8, 100),
    ("compile 0\n", "compile\n", 8, 100),
    ("compile 0\n", "compile 4\n", 8, 101),
    ("compile 0\n", "compile 0-4\n", 8, 101),
    ("compile 0\n", "compile 3-2\n", 8, 101),
    ("compile 0\n", "compile 0-1-2\n", 8, 100),
    ("compile 0\n", "weld 0\n", 8, 100),
    ("link 1\n", "link 0-1\n", 9, 103),
    ("custom 2\n", "custom 2\nfile CMakeLists.txt\n", 12, 100),
    ("custom 2\n", "custom 2", 11, 100),
    ("custom 2\n", "custom 2\n\n", 12, 100),
)


def _asked(program: str, folder: pathlib.Path, lines: str, *options: str) -> subprocess.CompletedProcess[bytes]:
    return subprocess.run([program, "ask", *options, str(folder)], input=lines.encode(), capture_output=True,
                          timeout=600, check=False)


def _recorded(folder: pathlib.Path, targets: str) -> pathlib.Path:
    folder.mkdir(exist_ok=True)
    (folder / "build.ninja").write_text(MANIFEST, encoding="ascii")
    (folder / "trace").write_text(TRACE, encoding="ascii")
    (folder / "targets").write_text(targets, encoding="ascii")
    return folder


def names_targets(program: str) -> bool:
    """Whether answers have the target of a command and the line that declares it, in words and as JSON."""
    with tempfile.TemporaryDirectory() as room:
        folder = _recorded(pathlib.Path(room, "targets"), TARGETS)
        words = _asked(program, folder, "edges\n")
        objects = _asked(program, folder, "edges\nedge core.o\n", "--json")
    found = words.stdout.decode().splitlines()[1:]
    edges, edge = map(json.loads, objects.stdout.splitlines()[1:])
    core = {"basis": "exact", "declared": {"basis": "exact", "file": "lib/CMakeLists.txt", "line": 2},
            "kind": "STATIC_LIBRARY", "name": "core"}
    header = {"basis": "guess", "declared": None, "kind": "custom\\scommand", "name": "v.h"}
    targets = [it.get("target") for it in edges["edges"]]
    if (found, targets, edge.get("target"), edge["line"]) != (EDGES, [core, core, header, None], core, 3):
        print(found, targets, edge)
        return False
    return True


def names_faults_of_targets(program: str) -> bool:
    """Whether the first fault of a file `targets` is named by its line and number, and nothing is answered."""
    wrong = []
    with tempfile.TemporaryDirectory() as room:
        for old, new, line, code in FAULTS:
            assert TARGETS.count(old) == 1, old
            ran = _asked(program, _recorded(pathlib.Path(room, "faulty"), TARGETS.replace(old, new)), "edges\n")
            said = ran.stderr.decode()
            if ran.returncode != 1 or ran.stdout or f"targets:{line}: " not in said or f"({code}, docs" not in said:
                wrong.append((new, ran.returncode, said, ran.stdout))
    print("\n".join(map(str, wrong)), end="\n" if wrong else "")
    return not wrong
