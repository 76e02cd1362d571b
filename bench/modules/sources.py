"""What the projects take from Debian: the sources of LAPACK, and a CMake that knows the modules of C++."""

from __future__ import annotations

import importlib.machinery
import importlib.util
import pathlib
import re
import shutil
import subprocess
import tarfile
import tempfile

TOP = pathlib.Path(__file__).resolve().parents[2]
SUITE, BACKPORTS = "bookworm", "bookworm-backports"
KNOWS_MODULES = (3, 28)
# A clang that prints what a source imports, and in which CMake finds its own scanner: the latest one first.
CLANGS = range(30, 16, -1)


def ninjas():
    """The script that gets Ninjas from Debian, as a module."""
    loader = importlib.machinery.SourceFileLoader("ninjas", str(TOP / "tools/ninjas"))
    module = importlib.util.module_from_spec(importlib.util.spec_from_loader("ninjas", loader))
    loader.exec_module(module)
    return module


def lapack(folder: pathlib.Path) -> pathlib.Path:
    """The sources of LAPACK in the folder, which come from Debian where they are not there yet."""
    target = folder / "lapack"
    if not target.exists():
        with tempfile.TemporaryDirectory(prefix="rebug-lapack-", dir=folder) as name:
            apt = ninjas().Apt(pathlib.Path(name), [SUITE])
            apt.get("update")
            half = pathlib.Path(name) / "sources"
            with tarfile.open(apt.source_of(SUITE, "lapack")) as file:
                file.extractall(half, filter="data") if hasattr(tarfile, "data_filter") else file.extractall(half)
            next(it.parent for it in half.rglob("BLAS") if (it.parent / "CMakeLists.txt").exists()).rename(target)
    return target


def version_of(cmake: str) -> tuple[int, ...]:
    """The version of a CMake; none where it cannot be run."""
    if not shutil.which(cmake):
        return ()
    said = subprocess.run([cmake, "--version"], stdin=subprocess.DEVNULL, capture_output=True, text=True).stdout
    return tuple(map(int, re.findall(r"\d+", said.partition("\n")[0])))


def cmake(folder: pathlib.Path) -> str:
    """A CMake that knows the modules of C++: that on the PATH, or the one of Debian's backports, which is unpacked in
    the folder and not installed."""
    target = folder / "cmake/usr/bin/cmake"
    if version_of("cmake") >= KNOWS_MODULES:
        return "cmake"
    if not target.exists():
        with tempfile.TemporaryDirectory(prefix="rebug-cmake-", dir=folder) as name:
            room = pathlib.Path(name)
            apt = ninjas().Apt(room, [])
            (room / "sources.list").write_text(f"deb {ninjas().MIRROR} {BACKPORTS} main\n")
            apt.get("update")
            apt.get("download", "cmake", "cmake-data")
            for it in room.glob("*.deb"):
                subprocess.run(["dpkg-deb", "-x", it, folder / "cmake"], check=True)
    return str(target)


def clang() -> tuple[str, str] | None:
    """The compiler and the scanner of the latest clang that has both."""
    names = ["", *(f"-{it}" for it in CLANGS)]
    found = [(f"clang++{it}", f"clang-scan-deps{it}") for it in names[1:]]
    return next((it for it in found if all(map(shutil.which, it))), None)
