"""What a build has beside commands that write files: a project of its own inside it, and a chain of many commands. How
far the builds are is printed, and how many stand side by side depends on memory."""

from __future__ import annotations

import subprocess
import unittest
import unittest.mock

from builds import missing_tools
from recorder.ninja import found_ninja
from recorder.shuffle import main, side_by_side
from recorder.shuffle.commands import commands_of, read_manifest
from recorder.shuffle.patching import chained
from recorder.shuffle.rooms import layers_of_room
from recorder.shuffle.running import Place, Task
from recorder.shuffle.side_by_side import Bench
from recorder.shuffle.states import Before
from shuffled import Shuffled
from test_shuffle import LACKING, Case

MANY = 60_000
MEGABYTE = 1 << 20
NO_CMAKE = LACKING or missing_tools("cmake")
OUTER = """\
cmake_minimum_required(VERSION 3.16)
project(outer NONE)
include(ExternalProject)
ExternalProject_Add(made SOURCE_DIR ${CMAKE_SOURCE_DIR}/inner INSTALL_COMMAND "")
ExternalProject_Get_Property(made BINARY_DIR)
add_custom_command(OUTPUT used.txt VERBATIM COMMAND ${CMAKE_COMMAND} -E copy ${BINARY_DIR}/value.txt used.txt)
add_custom_target(use ALL DEPENDS used.txt)
"""
WAIT = "add_dependencies(use made)\n"
INNER = """\
cmake_minimum_required(VERSION 3.16)
project(inner NONE)
add_custom_command(OUTPUT value.txt COMMAND ${CMAKE_COMMAND} -E touch value.txt)
add_custom_target(value ALL DEPENDS value.txt)
"""
STAMPS = "made-prefix/src/made-stamp"


@unittest.skipIf(NO_CMAKE, NO_CMAKE)
class ProjectsInside(Case):
    """CMake's ExternalProject: one of the commands configures and builds another project."""

    def configured(self, text: str) -> Shuffled:
        it = self.made("", {"src/CMakeLists.txt": text, "src/inner/CMakeLists.txt": INNER})
        (it.build / "build.ninja").unlink()
        subprocess.run(["cmake", "-G", "Ninja", "-S", it.room / "src", "-B", it.build], check=True, capture_output=True)
        return it

    def test_who_does_not_wait_for_the_project_inside_is_named(self) -> None:
        self.differs(self.configured(OUTER), (f"{STAMPS}/made-build", "used.txt"))

    def test_who_waits_for_it_is_not(self) -> None:
        found = self.same(self.configured(OUTER + WAIT))
        self.assertEqual((found.end["commands"], found.end["left"], found.end["unsteady"]), (9, 0, []))


@unittest.skipIf(LACKING, LACKING)
class ManyCommands(Case):
    def test_a_chain_of_sixty_thousand_commands(self) -> None:
        """Ninja 1.11 follows a chain by calls of itself, so its stack grows with the chain."""
        it = self.made("".join(f"build o{number}: r\n  c = touch $out\n" for number in range(MANY)))
        build = bytes(it.build)
        manifest = read_manifest(build, b"build.ninja")
        commands = commands_of(manifest, b"build.ninja", [])
        files = chained(commands, commands.graph.commands[::-1])
        before = Before([build])
        layers = layers_of_room(before.folders, {})
        ninja = (found_ninja().program.encode(), b"-n")
        place = Place(build, ninja, manifest, before, tuple(layers), None, (), b".", frozenset())
        ran = Bench(place, 1).run(Task(files=files, length=MANY))
        self.assertEqual((ran.status, ran.fault, ran.failed), (0, b"", []))


class Progress(unittest.TestCase):
    def lines(self, *times: float) -> list[str]:
        """What a terminal gets where the voice is told at these times how far the builds are."""
        written: list[bytes] = []
        with unittest.mock.patch.object(main, "write_all", lambda handle, text: written.append(text)), \
                unittest.mock.patch("os.isatty", return_value=True), \
                unittest.mock.patch.object(main.time, "monotonic", side_effect=times):
            voice = main.Voice()
            voice.tell("order 2 again")
            for number, _ in enumerate(times):
                voice.progress(number, 9, len(times) - number)
        return [it.decode() for it in written if it != b"\r\x1b[K"]

    def test_a_line_once_a_second_has_what_is_left(self) -> None:
        self.assertEqual(self.lines(100.0, 100.5, 100.9, 101.1), [
            "rebug shuffle: order 2 again: 0 of 9 commands, 4 runs left",
            "rebug shuffle: order 2 again: 3 of 9 commands, 1 run left"])

    def test_no_line_where_nobody_looks(self) -> None:
        with (unittest.mock.patch.object(main, "write_all") as write,
              unittest.mock.patch("os.isatty", return_value=False)):
            main.Voice().progress(1, 2, 3)
        write.assert_not_called()


class SideBySide(unittest.TestCase):
    def bench(self, most: int, used: int, runs: int = 1, megabytes: int | None = None) -> Bench:
        place = unittest.mock.Mock(copying=None)
        return Bench(place, most, megabytes=megabytes, used=used * MEGABYTE, runs=runs)

    def test_as_many_as_memory_allows(self) -> None:
        """Of 1,250 MB that are free four fifths are 1,000: a copy of 136 MB with 64 to spare stands there five
        times."""
        with unittest.mock.patch.object(side_by_side, "memory_free", lambda: 1250 * MEGABYTE):
            for bench, due in ((self.bench(9, 136), 5), (self.bench(3, 136), 3), (self.bench(9, 2000), 1),
                               (self.bench(9, 136, runs=0), 1), (self.bench(9, 136, megabytes=400), 2)):
                self.assertEqual(bench._side_by_side(), due)

    def test_one_copy_in_another_path_at_a_time(self) -> None:
        with unittest.mock.patch.object(side_by_side, "memory_free", lambda: 1250 * MEGABYTE):
            self.assertEqual(Bench(unittest.mock.Mock(), 9, used=MEGABYTE, runs=1)._side_by_side(), 1)


if __name__ == "__main__":
    unittest.main()
