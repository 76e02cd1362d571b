"""Projects whose compiles get an order by dyndep files, and what an engineer changes in each between two builds.

A project has the folders `source` and `build` in a room. Fortran's modules come by CMake and gfortran, those of C++ by
CMake and clang, or by a manifest and a scanner that are written by hand.
"""

from __future__ import annotations

import os
import pathlib
import re
import shutil
import subprocess
import time
from collections.abc import Callable
from dataclasses import dataclass

APART = 0.012  # seconds between two changes, so that stamps of a coarse clock differ
Change = Callable[[pathlib.Path], None]


@dataclass(frozen=True)
class Tools:
    """The programs that configure and compile; `cxx` and `scanner` are those of one clang."""

    cmake: str = "cmake"
    cxx: str = "clang++"
    scanner: str = "clang-scan-deps"


@dataclass(frozen=True)
class Step:
    """A build, and what changes before it. `fails` says whether Ninja ends with another status than 0."""

    name: str
    changes: tuple[Change, ...] = ()
    words: tuple[str, ...] = ()
    fails: bool = False


@dataclass(frozen=True)
class Project:
    """A project. `make` writes it into a room and configures it."""

    name: str
    wants: tuple[str, ...]
    make: Callable[[pathlib.Path, Tools], None]
    steps: tuple[Step, ...]
    jobs: tuple[int, ...] = (1, 4)


def write(path: pathlib.Path, text: str) -> None:
    """Writes a file, with another stamp than those before."""
    time.sleep(APART)
    path.parent.mkdir(parents=True, exist_ok=True)
    path.write_text(text)


# Changes.


def edit(name: str, was: str, now: str) -> Change:
    """Puts another text into a source file, in the place of the first one like it."""
    def change(room: pathlib.Path) -> None:
        text = (room / "source" / name).read_text()
        if was not in text:
            raise ValueError(f"{name} does not have {was!r}")
        write(room / "source" / name, text.replace(was, now, 1))
    return change


def append(name: str, text: str) -> Change:
    """Puts a text at the end of a source file."""
    return lambda room: write(room / "source" / name, (room / "source" / name).read_text() + text)


def touch(name: str) -> Change:
    """Gives a source file a new stamp."""
    def change(room: pathlib.Path) -> None:
        time.sleep(APART)
        os.utime(room / "source" / name)
    return change


def remove(pattern: str) -> Change:
    """Takes a file of the build folder away, whose name fits the pattern."""
    def change(room: pathlib.Path) -> None:
        sorted((room / "build").glob(pattern))[0].unlink()
    return change


def clean(room: pathlib.Path) -> None:
    """Runs Ninja's own tool that takes outputs away."""
    subprocess.run(["ninja", "-t", "clean"], cwd=room / "build", check=True, stdout=subprocess.DEVNULL)


def configure(room: pathlib.Path, tools: Tools, *words: str) -> None:
    """Runs CMake in a new build folder."""
    shutil.rmtree(room / "build", ignore_errors=True)
    subprocess.run([tools.cmake, "-G", "Ninja", "-S", room / "source", "-B", room / "build", *words], check=True,
                   stdout=subprocess.DEVNULL)


# Fortran, by CMake.


def uses(number: int, count: int) -> list[int]:
    """The modules that a module uses: two earlier ones. The second half is a library of its own."""
    half = count // 2
    return sorted({it for it in (number - 1, number - (3 if number < half else half)) if it >= 0})


def library(number: int, count: int) -> str:
    """The library, and the folder, of a module."""
    return "core" if number < count // 2 else "phys"


def fortran_module(number: int, count: int) -> str:
    """The source of a module with one function."""
    used = uses(number, count)
    lines = [f"module m{number}", *(f"  use m{it}" for it in used), "  implicit none", "contains",
             f"  integer function f{number}(x)", "    integer, intent(in) :: x",
             f"    f{number} = mod(x + {number}" + "".join(f" + f{it}(x)" for it in used) + ", 1000)",
             "  end function", "end module", ""]
    return "\n".join(lines)


def libraries(names: Callable[[int], str], count: int) -> dict[str, str]:
    """The source files of the two libraries."""
    found: dict[str, str] = {}
    for it in range(count):
        found[library(it, count)] = f"{found.get(library(it, count), '')} {names(it)}"
    return found


def make_fortran(count: int) -> Callable[[pathlib.Path, Tools], None]:
    """A program of so many modules in two libraries."""
    def make(room: pathlib.Path, tools: Tools) -> None:
        source = room / "source"
        for it in range(count):
            write(source / library(it, count) / f"m{it}.f90", fortran_module(it, count))
        last, first = count - 1, count // 2 - 1
        write(source / "main.f90", f"program main\n  use m{last}\n  use m{first}\n  implicit none\n"
                                   f"  print *, f{last}(1), f{first}(2)\nend program\n")
        files = libraries(lambda it: f"{library(it, count)}/m{it}.f90", count)
        write(source / "CMakeLists.txt", "cmake_minimum_required(VERSION 3.20)\nproject(p Fortran)\n"
              "set(CMAKE_Fortran_MODULE_DIRECTORY ${CMAKE_BINARY_DIR}/mods)\n"
              + "".join(f"add_library({name} STATIC{of})\n" for name, of in files.items())
              + "target_link_libraries(phys core)\nadd_executable(app main.f90)\n"
                "target_link_libraries(app phys core)\n")
        # The program has the path of its main source, and a build id would be a sum of that.
        configure(room, tools, "-DCMAKE_EXE_LINKER_FLAGS=-Wl,--build-id=none")
    return make


INTERFACE = "contains\n", "integer, parameter :: more = 1\ncontains\n"
EXTRA = "module extra\n  integer :: k = 1\nend module\n"

FORTRAN = (
    Step("clean"), Step("nothing to do"), Step("touched", (touch("core/m2.f90"),)),
    Step("another body", (edit("core/m2.f90", "x + 2", "x + 2 + 0"),)),
    Step("another interface", (edit("core/m2.f90", *INTERFACE),)),
    Step("one use more", (edit("core/m5.f90", "  use m4\n", "  use m4\n  use m0\n"),)),
    Step("a use of the other library", (edit("phys/m8.f90", "  use m7\n", "  use m7\n  use m4\n"),)),
    Step("one use less", (edit("phys/m8.f90", "  use m4\n", ""),)),
    Step("a second module in a file", (append("core/m4.f90", EXTRA),)),
    Step("which is used", (edit("phys/m11.f90", "  implicit none\n", "  use extra\n  implicit none\n"),)),
    Step("which moves to another file", (edit("core/m4.f90", EXTRA, ""), append("core/m3.f90", EXTRA))),
    # Its module file stays, and phys/m11.f90 is not compiled again.
    Step("which is taken away", (edit("core/m3.f90", EXTRA, ""),)),
    Step("and is not used", (edit("phys/m11.f90", "  use extra\n", ""),)),
    Step("broken", (edit("core/m4.f90", "end module", "end modul e"),), ("-k", "0"), fails=True),
    Step("broken still", (), (), fails=True),
    Step("mended", (edit("core/m4.f90", "end modul e", "end module"),)),
    Step("a cycle of uses", (edit("core/m1.f90", "  use m0\n", "  use m5\n"),), fails=True),
    Step("no cycle", (edit("core/m1.f90", "  use m5\n", "  use m0\n"),)),
    Step("after -t clean", (clean,)),
    Step("one library", (touch("core/m0.f90"),), ("core",)), Step("and the rest"),
    Step("a module is gone", (remove("mods/m9.mod"),)),
    Step("a dyndep file is gone", (remove("CMakeFiles/phys.dir/Fortran.dd"),)),
    Step("CMake runs again", (edit("CMakeLists.txt", " core/m5.f90", ""), edit("phys/m6.f90", "  use m5\n", ""),
                              edit("phys/m6.f90", " + f5(x)", ""), edit("phys/m11.f90", "  use m5\n", ""),
                              edit("phys/m11.f90", " + f5(x)", ""), edit("main.f90", "  use m5\n", "  use m4\n"),
                              edit("main.f90", "f5(2)", "f4(2)"))),
    Step("nothing to do again"),
)
FORTRAN_LARGE = (
    Step("clean"), Step("touched", (touch("core/m7.f90"),)),
    Step("another interface", (edit("core/m0.f90", *INTERFACE),)),
    Step("broken", (edit("core/m12.f90", "end module", "end modul e"),), ("-k", "0"), fails=True),
    Step("mended", (edit("core/m12.f90", "end modul e", "end module"),)),
    Step("another body", (edit("core/m0.f90", "x + 0", "x + 0 + 0"),)),
)


# C++, by CMake.


def cxx_module(number: int, count: int) -> str:
    """The source of a module interface with one function."""
    used = uses(number, count)
    return (f"export module m{number};\n" + "".join(f"import m{it};\n" for it in used)
            + f"export int f{number}(int x) {{ return (x + {number}" + "".join(f" + f{it}(x)" for it in used)
            + ") % 1000; }\n")


def cxx_main(count: int) -> str:
    """A program that calls the last module of each library."""
    last, first = count - 1, count // 2 - 1
    return f"import m{last};\nimport m{first};\nint main() {{ return f{last}(1) + f{first}(2) > 5000; }}\n"


def make_cxx(count: int) -> Callable[[pathlib.Path, Tools], None]:
    """A program of so many modules in two libraries."""
    def make(room: pathlib.Path, tools: Tools) -> None:
        source = room / "source"
        for it in range(count):
            write(source / library(it, count) / f"m{it}.cppm", cxx_module(it, count))
        write(source / "main.cpp", cxx_main(count))
        files = libraries(lambda it: f"{library(it, count)}/m{it}.cppm", count)
        write(source / "CMakeLists.txt", "cmake_minimum_required(VERSION 3.28)\nproject(p CXX)\n"
              "set(CMAKE_CXX_STANDARD 20)\nset(CMAKE_CXX_EXTENSIONS OFF)\nset(CMAKE_CXX_SCAN_FOR_MODULES ON)\n"
              + "".join(f"add_library({name} STATIC)\ntarget_sources({name} PUBLIC FILE_SET CXX_MODULES FILES{of})\n"
                        for name, of in files.items())
              + "target_link_libraries(phys PUBLIC core)\nadd_executable(app main.cpp)\n"
                "target_link_libraries(app phys core)\n")
        configure(room, tools, f"-DCMAKE_CXX_COMPILER={tools.cxx}",
                  f"-DCMAKE_CXX_COMPILER_CLANG_SCAN_DEPS={shutil.which(tools.scanner)}")
    return make


BROKEN = "export int f3", "int broken( ;\nexport int f3"
CXX = (
    Step("clean"), Step("nothing to do"), Step("touched", (touch("core/m1.cppm"),)),
    Step("another body", (edit("core/m1.cppm", "(x + 1", "(x + 1 + 0"),)),
    Step("another interface", (edit("core/m1.cppm", "export int f1", "export int more();\nexport int f1"),)),
    Step("one import more", (edit("core/m2.cppm", "import m1;\n", "import m1;\nimport m0;\n"),)),
    Step("an import of the other library", (edit("phys/m7.cppm", "import m6;\n", "import m6;\nimport m4;\n"),)),
    Step("one import less", (edit("phys/m7.cppm", "import m4;\n", ""),)),
    Step("broken", (edit("core/m3.cppm", *BROKEN),), ("-k", "0"), fails=True),
    Step("mended", (edit("core/m3.cppm", *reversed(BROKEN)),)),
    Step("a cycle of imports", (edit("core/m1.cppm", "import m0;\n", "import m3;\n"),), fails=True),
    Step("no cycle", (edit("core/m1.cppm", "import m3;\n", "import m0;\n"),)),
    Step("no such module", (edit("phys/m9.cppm", "import m8;\n", "import m8;\nimport none;\n"),), ("-k", "0"),
         fails=True),
    Step("and no import of it", (edit("phys/m9.cppm", "import none;\n", ""),)),
    Step("after -t clean", (clean,)),
    Step("one library", (touch("core/m0.cppm"),), ("core",)), Step("and the rest"),
    Step("another flag (CMake runs)", (edit("CMakeLists.txt", "add_executable", "set_source_files_properties("
                                            "core/m4.cppm PROPERTIES COMPILE_FLAGS -DX=1)\nadd_executable"),)),
    Step("a module is gone", (remove("CMakeFiles/core.dir/**/m2.pcm"),)),
    Step("an object is gone", (remove("CMakeFiles/core.dir/**/m1.cppm.o"),)),
)


# C++, by a manifest that is written by hand.

SCAN = r"""echo 'ninja_dyndep_version = 1'
for source; do
  name=$(basename "$source" .cppm)
  imports=$(sed -n 's/^import \(.*\);/ \1.pcm/p' "$source" | tr -d '\n')
  case $source in
  *.cppm) echo "build $name.o | $name.pcm: dyndep |$imports" ;;
  *) echo "build $(basename "$source" .cpp).o: dyndep |$imports" ;;
  esac
done | sed 's/ |$//'
"""
INTERFACES = """  command = {cxx} -std=c++20 -x c++-module --precompile $in -o $name.pcm -fprebuilt-module-path=. && $
      {cxx} -std=c++20 -c $name.pcm -o $out
"""


def make_written(count: int) -> Callable[[pathlib.Path, Tools], None]:
    """A program of so many modules, which one dyndep file speaks of. A scanner in the shell's words writes the file."""
    def make(room: pathlib.Path, tools: Tools) -> None:
        source = room / "source"
        names = [f"{library(it, count)}/m{it}.cppm" for it in range(count)]
        for it, name in enumerate(names):
            write(source / name, cxx_module(it, count))
        write(source / "main.cpp", cxx_main(count))
        write(source / "scan", SCAN)
        text = ("rule scan\n  command = sh ../source/scan $in > $out\n"
                "rule interface\n" + INTERFACES.format(cxx=tools.cxx)
                + f"rule importer\n  command = {tools.cxx} -std=c++20 -fprebuilt-module-path=. -c $in -o $out\n"
                f"rule link\n  command = {tools.cxx} $in -o $out\n"
                f"build all.dd: scan {' '.join(f'../source/{it}' for it in names)} ../source/main.cpp"
                " | ../source/scan\n")
        for it, name in enumerate(names):
            text += f"build m{it}.o: interface ../source/{name} || all.dd\n  dyndep = all.dd\n  name = m{it}\n"
        text += ("build main.o: importer ../source/main.cpp || all.dd\n  dyndep = all.dd\n"
                 f"build app: link main.o {' '.join(f'm{it}.o' for it in range(count))}\n"
                 f"build core: phony {' '.join(f'm{it}.o' for it in range(count // 2))}\n")
        write(room / "build/build.ninja", text + "default app\n")
    return make


WRITTEN = tuple(it for it in CXX if not re.search("CMake|gone", it.name)) + (
    Step("a module is gone", (remove("m2.pcm"),)), Step("the dyndep file is gone", (remove("all.dd"),)))


# LAPACK's blas, whose manifest has two thousand lines `dyndep`.


def make_lapack(room: pathlib.Path, tools: Tools) -> None:
    """Configures LAPACK, whose sources stand in the room."""
    configure(room, tools, "-DBUILD_TESTING=OFF", "-DCBLAS=OFF", "-DLAPACKE=OFF")


LAPACK = (
    Step("clean", (), ("blas",)), Step("nothing to do", (), ("blas",)),
    Step("touched", (touch("BLAS/SRC/dgemm.f"),), ("blas",)),
    Step("broken", (append("BLAS/SRC/dgemv.f", "      x = = 1\n"),), ("-k", "0", "blas"), fails=True),
    Step("mended", (edit("BLAS/SRC/dgemv.f", "      x = = 1\n", ""),), ("blas",)),
)

ALL = (
    Project("fortran-12", ("cmake", "gfortran"), make_fortran(12), FORTRAN),
    Project("fortran-30", ("cmake", "gfortran"), make_fortran(30), FORTRAN_LARGE),
    Project("blas", ("cmake", "gfortran", "apt-get"), make_lapack, LAPACK),
    Project("cxx-10", ("clang",), make_cxx(10), CXX),
    Project("written-10", (), make_written(10), WRITTEN),
)
