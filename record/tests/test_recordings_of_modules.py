"""Modules of Fortran and of C++20, by real compilers: clean, changed and failing builds with dyndep files are recorded.
And what Ninja does not keep in order is not recorded as if it did."""

from __future__ import annotations

import os
import pathlib
import re
import shutil
import signal
import subprocess
import sys
import time
import unittest

import builds
from dyndep_cases import JOBS
from recorder.manifest import Manifest
from versions import since

RECORDINGS = "modules"
MODULES = 8

# A module interface and its importer. clang 14 has no scanner, so the dyndep file stands there.
CXX = """rule interface
  command = clang++ -std=c++20 -x c++-module --precompile $in -o m.pcm && touch $out
rule importer
  command = clang++ -std=c++20 -fmodule-file=m.pcm -c $in -o $out
rule scan
  command = cp $in $out
build m.dd: scan m.told
build m.stamp: interface m.cppm || m.dd
  dyndep = m.dd
build u.o: importer u.cpp || m.dd
  dyndep = m.dd
"""
CXX_TOLD = "ninja_dyndep_version = 1\nbuild m.stamp | m.pcm: dyndep\nbuild u.o: dyndep | m.pcm\n"

# The user is looked at before the file is loaded that says what makes its input.
EARLY_USER = """rule cp
  command = cp $in $out
rule two
  command = cp $in $out; cp $in m
build x: cp m
build e: two src || dd
  dyndep = dd
"""
EARLY_USER_TOLD = "ninja_dyndep_version = 1\nbuild e | m: dyndep\n"

# The command of the dyndep file is the slow one, until the file `slow` names another one.
INTERRUPTED = f"""rule slowly
  command = if test "$$(cat slow)" = "$only"; then touch begun; {builds.until_gone("begun")}; fi; cp $in $out
build dd: slowly dd.in
build e: slowly dd.in || dd
  dyndep = dd
  only = e
"""

# A `use` in an include file, where the scanner of `scan` does not look: each compile wants the modules that it uses,
# and leaves those that it has. A source `a` has lines `module M`, `use M` and `include FILE`.
HIDDEN = """rule scan
  command = sh ./scan $in > $out
rule compile
  command = sh ./compile $in && touch $out
build all.dd: scan base a c
build base.o: compile base || all.dd
  dyndep = all.dd
build a.o: compile a || all.dd
  dyndep = all.dd
build c.o: compile c || all.dd
  dyndep = all.dd
build app: phony base.o a.o c.o
"""
HIDDEN_FILES = {
    "base": "module base\n", "a": "module am\ninclude hidden.inc\n", "c": "use base\nuse am\n",
    "hidden.inc": "use base\n",
    "scan": """echo 'ninja_dyndep_version = 1'
for it; do
  uses=$(sed -n 's/^use \\(.*\\)/ \\1.mod/p' $it | tr -d '\\n')
  echo "build $it.o$(sed -n 's/^module \\(.*\\)/ | \\1.mod/p' $it): dyndep |$uses"
done | sed 's/ |$//'
""",
    "compile": """set -e
while read -r word name; do
  case $word in
  module) echo $name > $name.mod ;;
  use) cat $name.mod > /dev/null ;;
  include) while read -r word name; do cat $name.mod > /dev/null; done < $name ;;
  esac
done < $1
""",
}
# The same by gfortran.
HIDDEN_FORTRAN = HIDDEN.replace("sh ./compile $in && touch $out", "gfortran -x f95 -c $in -o $out")
HIDDEN_FORTRAN_FILES = {
    "base": "module base\ninteger, parameter :: one = 1\nend module\n",
    "a": "module am\ninclude 'hidden.inc'\ninteger, parameter :: two = one + one\nend module\n",
    "c": "program c\nuse base\nuse am\nprint *, one, two\nend program\n",
    "hidden.inc": "use base\n", "scan": HIDDEN_FILES["scan"],
}
# A module with a submodule, and a program. CMake puts a dyndep file of its own beside each target.
SHAPES = {
    "shapes.f90": """module shapes
  interface
    module integer function area(side)
      integer, intent(in) :: side
    end function
  end interface
end module
""",
    "areas.f90": "submodule (shapes) areas\ncontains\n  module procedure area\n    area = side * side\n"
                 "  end procedure\nend submodule\n",
    "main.f90": "program main\n  use shapes\n  print *, area(2)\nend program\n",
    "CMakeLists.txt": "cmake_minimum_required(VERSION 3.20)\nproject(p Fortran)\n"
                      "set(CMAKE_Fortran_MODULE_DIRECTORY ${CMAKE_BINARY_DIR}/mods)\n"
                      "add_executable(app shapes.f90 areas.f90 main.f90)\n",
}
SIDES = "module sides\n  integer, parameter :: one = 1\nend module\n"

# The recordings of a hidden `use`, and the manifest of each.
HIDDEN_BY = {"hidden": HIDDEN, "hidden-fortran": HIDDEN_FORTRAN}
OUTPUTS = ("a.o", "base.o", "c.o", "all.dd", ".ninja_log", "base.mod", "am.mod")


def mended(manifest: str) -> str:
    """The manifest with the mend that the program prints: `build a.o: ... | base.o`."""
    return manifest.replace("build a.o: compile a ", "build a.o: compile a | base.o ")


def write(folder: pathlib.Path, **files: str) -> None:
    """Writes files, with stamps that differ from those before."""
    time.sleep(0.012)
    for name, text in files.items():
        path = folder / name
        path.parent.mkdir(parents=True, exist_ok=True)
        path.write_text(text)


class Modules(unittest.TestCase):
    def room(self, name: str) -> pathlib.Path:
        folder = builds.recordings() / RECORDINGS / name
        shutil.rmtree(folder, ignore_errors=True)
        (folder / "build").mkdir(parents=True)
        return folder

    def record(self, room: pathlib.Path, name: str, *words: str, status: int = 0, own: tuple[str, ...] = ()) -> str:
        """Records a build, and gives what the recorder said of it."""
        done = subprocess.run([sys.executable, builds.RECORDER, room / "build", room / name, *own, "--", *words],
                              stdin=subprocess.DEVNULL, capture_output=True, text=True)
        self.assertEqual(done.returncode, status, done.stdout + done.stderr)
        self.assertNotIn("rebug's rules differ", done.stderr)
        return done.stderr

    def edge(self, recording: pathlib.Path, output: str):
        manifest = Manifest(b"build.ninja", lambda name: (recording / os.fsdecode(name)).read_bytes())
        return manifest.producer[output.encode()]

    def test_fortran_by_cmake(self):
        lacking = builds.missing_tools("cmake", "gfortran", "ninja")
        if lacking:
            self.skipTest(lacking)
        for jobs in JOBS:
            room = self.room(f"fortran.{jobs}")
            source = room / "source"
            write(source, **self.fortran())
            subprocess.run(["cmake", "-G", "Ninja", "-S", source, "-B", room / "build"], check=True,
                           stdout=subprocess.DEVNULL)
            self.record(room, "clean", f"-j{jobs}")
            last = self.edge(room / "clean", f"CMakeFiles/app.dir/m{MODULES - 1}.f90.o")
            self.assertEqual((last.implicit, last.outputs[1:], last.restat),
                             ([b"mods/m%d.mod" % (MODULES - 2)], [b"mods/m%d.mod" % (MODULES - 1)], True))
            text = (source / "m2.f90").read_text()
            write(source, **{"m2.f90": text.replace("contains", "integer, parameter :: more = 1\ncontains")})
            self.record(room, "changed", f"-j{jobs}")
            write(source, **{"m2.f90": text.replace("end module", "end modul e")})
            self.record(room, "failing", f"-j{jobs}", "-k", "0", status=1)
            write(source, **{"m2.f90": text})
            self.record(room, "mended", f"-j{jobs}")

    def test_modules_of_fortran_that_a_compile_leaves_alone(self):
        """gfortran writes a module file again only where its content is another one. So the file is older than the
        source from then on. No later build compiles that source for it, also where the dyndep file is made anew."""
        lacking = builds.missing_tools("cmake", "gfortran", "ninja")
        if lacking:
            self.skipTest(lacking)
        for jobs, own in zip(JOBS, ((), ("--observe", "--observer", "own"))):
            room = self.room(f"left-alone.{jobs}")
            source = room / "source"
            write(source, **SHAPES)
            subprocess.run(["cmake", "-G", "Ninja", "-S", source, "-B", room / "build"], check=True,
                           stdout=subprocess.DEVNULL)

            def compiled(name: str, **files: str) -> list[str]:
                write(source, **files)
                self.record(room, name, f"-j{jobs}", own=own)
                ends = re.findall(r"^finish (?:\S+/)?(\w+)\.f90\.o ", (room / name / "trace").read_text(), re.M)
                return sorted(ends)

            self.assertEqual(compiled("clean"), ["areas", "main", "shapes"])
            areas = self.edge(room / "clean", "mods/shapes@areas.smod")
            self.assertEqual((areas.name, areas.implicit), (b"CMakeFiles/app.dir/areas.f90.o", [b"mods/shapes.mod"]))
            shapes, main = SHAPES["shapes.f90"], SHAPES["main.f90"]
            self.assertEqual(compiled("left-alone", **{"shapes.f90": shapes}), ["shapes"])
            self.assertEqual(compiled("another", **{"main.f90": main.replace("2", "3")}), ["main"])
            self.assertEqual(compiled("second", **{"shapes.f90": shapes + SIDES}), ["shapes"])
            main = main.replace("  print *, area(2)", "  use sides\n  print *, area(one)")
            self.assertEqual(compiled("used", **{"main.f90": main}), ["main"])
            self.assertEqual(self.edge(room / "used", "mods/sides.mod").outputs,
                             self.edge(room / "used", "mods/shapes.mod").outputs)
            body = SHAPES["areas.f90"].replace("side * side", "side ** 2")
            self.assertEqual(compiled("submodule", **{"areas.f90": body}), ["areas"])
            self.assertEqual(compiled("nothing"), [])

    def fortran(self) -> dict[str, str]:
        """The files of a project: each module uses the one before it."""
        files = {"main.f90": f"program main\n  use m{MODULES - 1}\n  print *, f{MODULES - 1}(1)\nend program\n"}
        for it in range(MODULES):
            use, call = (f"  use m{it - 1}\n", f" + f{it - 1}(x)") if it else ("", "")
            files[f"m{it}.f90"] = (f"module m{it}\n{use}implicit none\ncontains\ninteger function f{it}(x)\n"
                                   f"integer, intent(in) :: x\nf{it} = x{call}\nend function\nend module\n")
        names = " ".join(f"m{it}.f90" for it in range(MODULES))
        files["CMakeLists.txt"] = ("cmake_minimum_required(VERSION 3.20)\nproject(p Fortran)\n"
                                   "set(CMAKE_Fortran_MODULE_DIRECTORY ${CMAKE_BINARY_DIR}/mods)\n"
                                   f"add_executable(app {names} main.f90)\n")
        return files

    def test_modules_of_cxx(self):
        lacking = builds.missing_tools("clang++", "ninja")
        if lacking:
            self.skipTest(lacking)
        for jobs in JOBS:
            room = self.room(f"cxx.{jobs}")
            build = room / "build"
            source = "export module m;\nexport int f() { return 1; }\n"
            write(build, **{"build.ninja": CXX, "m.told": CXX_TOLD, "m.cppm": source,
                            "u.cpp": "import m;\nint main() { return f(); }\n"})
            self.record(room, "clean", f"-j{jobs}")
            self.assertEqual(self.edge(room / "clean", "m.pcm").name, b"m.stamp")
            write(build, **{"m.cppm": source.replace("1", "2")})
            self.record(room, "changed", f"-j{jobs}")
            self.assertEqual((room / "changed/trace").read_text().count("\nfinish "), 2)
            write(build, **{"m.cppm": "export module"})
            self.record(room, "failing", f"-j{jobs}", "-k", "0", status=1)

    @unittest.skipIf(since((1, 12)), "from 1.12 on the user waits")
    def test_an_order_that_ninja_does_not_keep(self):
        for jobs in JOBS:
            room = self.room(f"order.{jobs}")
            files = {"build.ninja": EARLY_USER, "dd": EARLY_USER_TOLD, "src": "1", "m": "0"}
            write(room / "build", **files)
            said = self.record(room, "refused", f"-j{jobs}", "x", "e", status=3)
            self.assertIn("it takes m for a source", said)
            self.assertFalse((room / "refused/replay").exists())
            for name in ("x", "e", ".ninja_log"):
                (room / "build" / name).unlink()
            write(room / "build", **files)
            self.record(room, "anyway", f"-j{jobs}", "x", "e", own=("--anyway", "--observe", "--observer", "own"))
            self.assertEqual(self.edge(room / "anyway", "e").outputs, [b"e"])
            self.assertIn(b"left-out e output m\n", (room / "anyway/dyndep/notes").read_bytes())

    def test_an_interrupt_before_a_load_and_behind_it(self):
        room = self.room("interrupted")
        build = room / "build"
        write(build, **{"build.ninja": INTERRUPTED, "dd.in": "ninja_dyndep_version = 1\nbuild e: dyndep | h\n",
                        "h": "", "slow": ""})
        for name, inputs in (("before", []), ("behind", [b"h"])):
            process = subprocess.Popen([sys.executable, builds.RECORDER, build, room / name, "--", "-j1", "e"],
                                       stdin=subprocess.DEVNULL, stdout=subprocess.DEVNULL, stderr=subprocess.PIPE)
            builds.wait_for(build / "begun")
            process.send_signal(signal.SIGINT)
            said = process.communicate(timeout=builds.LONGEST_SECONDS)[1].decode()
            self.assertIn(process.returncode, builds.STATUSES_OF_INTERRUPT, said)
            self.assertEqual(self.edge(room / name, "e").implicit, inputs)
            self.assertIn("\nabort ", (room / name / "trace").read_text())
            (build / "begun").unlink()
            (build / "slow").write_text("e")

    def test_a_use_that_the_scanner_does_not_see(self):
        room = self.room("hidden")
        write(room / "build", **HIDDEN_FILES, **{"build.ninja": HIDDEN})
        self.record(room, "hidden", "-j1", "app", own=("--observe", "--observer", "own"))
        self.assertEqual(self.edge(room / "hidden", "c.o").implicit, [b"base.mod", b"am.mod"])
        self.assertEqual(self.edge(room / "hidden", "a.o").implicit, [])
        self.record(room, "by-logs", "app", own=("--from-logs",))
        self.assertEqual(self.edge(room / "by-logs", "c.o").implicit, [b"base.mod", b"am.mod"])
        os.utime(room / "build/c")
        self.record(room, "lanes", "-j4", "app", own=("--lanes",))
        self.record_mended(room, HIDDEN)

    def record_mended(self, room: pathlib.Path, manifest: str) -> None:
        write(room / "build", **{"build.ninja": mended(manifest)})
        for name in OUTPUTS:
            (room / "build" / name).unlink()
        self.record(room, "mended", "-j4", "app", own=("--observe", "--observer", "own"))

    def test_a_use_of_fortran_that_the_scanner_does_not_see(self):
        lacking = builds.missing_tools("gfortran", "ninja")
        if lacking:
            self.skipTest(lacking)
        room = self.room("hidden-fortran")
        write(room / "build", **HIDDEN_FORTRAN_FILES, **{"build.ninja": HIDDEN_FORTRAN})
        self.record(room, "hidden", "-j1", "app", own=("--observe", "--observer", "own"))
        self.assertEqual(self.edge(room / "hidden", "a.o").implicit, [])
        self.record_mended(room, HIDDEN_FORTRAN)


if __name__ == "__main__":
    unittest.main()
