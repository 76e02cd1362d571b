"""Two real projects with all their dependencies, and with one taken out, built and recorded each: which commands race?

The headers are made before the recording begins, so that what lacks a dependency is built all the same."""

import subprocess
import sys

import builds
from projects import CMAKE, HAND, Project, c_sources, write_sources

# What is taken out of each project, and the races that this leaves: output of the maker, of the user.
CMAKE_TAKEN = "add_dependencies(words steps)\n"
CMAKE_RACES = [("kept.h", "CMakeFiles/words.dir/w_\u00fc.c.o"), ("step.h", "CMakeFiles/words.dir/w_one.c.o")]
HAND_TAKEN = "build w3.o: cc ../src/w3.c || headers\n"
HAND_RACES = [("version.h", "w3.o")]


def record(it):
    """Records the build as it runs (`passed`), and then again from its logs (`logs`)."""
    it.record("passed")
    words = [sys.executable, builds.RECORDER, "--from-logs", it.build, it.folder / "logs"]
    with open(it.folder / "logs.said", "wb") as said:
        subprocess.run(words, check=True, stdout=said, stderr=subprocess.STDOUT)


def cmake(name, text):
    it = Project(name, "build")
    write_sources(it, "../src", {"CMakeLists.txt": text, **c_sources()})
    subprocess.run(["cmake", "-G", "Ninja", "-S", it.build / "../src", "-B", it.build], check=True, capture_output=True)
    subprocess.run(["ninja", "steps"], cwd=it.build, check=True, capture_output=True)
    record(it)


def hand(name, text):
    """The headers are found by -I., so that the lists have the names that the manifest has."""
    it = Project(name, "build")
    write_sources(it, "../src", {**c_sources()})
    it.write("build.in", text.replace("command = cc -MD", "command = cc -I. -MD"))
    it.write("build.ninja", text.replace("command = cc -MD", "command = cc -I. -MD"))
    subprocess.run(["ninja", "build.ninja", "headers"], cwd=it.build, check=True, capture_output=True)
    record(it)


def without(text, taken, left=""):
    assert taken in text
    return text.replace(taken, left)


RECORDED = {
    "cmake_whole": (lambda: cmake("cmake_whole", CMAKE), ("ninja", "cmake", "cc"), []),
    "cmake_taken": (lambda: cmake("cmake_taken", without(CMAKE, CMAKE_TAKEN)), ("ninja", "cmake", "cc"), CMAKE_RACES),
    "hand_whole": (lambda: hand("hand_whole", HAND), ("ninja", "cc"), []),
    "hand_taken": (lambda: hand("hand_taken", without(HAND, HAND_TAKEN, HAND_TAKEN.replace(" || headers", ""))),
                   ("ninja", "cc"), HAND_RACES),
}
builds.CHAINS.update({name: (make, tools, ("passed",)) for name, (make, tools, _) in RECORDED.items()})
