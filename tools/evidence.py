"""What shows that the whole gate has passed on a tree: the file out/passed, which ./test leaves, and tools/edits-tried.

out/passed has a line for each fact, `NAME VALUE`, and no date: the tree and the kit that the gate ran with, the gate's
last line, how many functions and laws its crates have, and the sums of the two programs that it built (`program
NAME SUM`). Used by tools/passed, which writes it, and by tools/release, which reads it."""

from __future__ import annotations

import contextlib
import hashlib
import os
import re
import subprocess
import tempfile
from collections.abc import Iterator
from dataclasses import dataclass
from pathlib import Path

TOP = Path(__file__).resolve().parent.parent
PASSED = TOP / "out" / "passed"
PROGRAMS = ("rebug", "rebug_ask")
# ./test writes it itself once everything has passed, so the gate does not depend on it.
WRITTEN_BY_THE_GATE = "tools/edits-tried"
FUNCTION = re.compile(r"^[ \t]*(?:pub(?:\([^)]*\))? +)?(?:const +|unsafe +)*fn +\w", re.M)
TEST = re.compile(r"#\[test\]\s*(?:#\[[^\]]*\]\s*)*fn +\w")


class NoTree(Exception):
    """A sentence that says why the hash of the tree cannot be told."""


def program_of(name: str) -> Path:
    """Where a checkout has the program of this name."""
    return TOP / "crates" / name / "out" / name


def sum_of(path: Path) -> str:
    """The SHA-256 of a file."""
    return hashlib.sha256(path.read_bytes()).hexdigest()


def git(*words: str, **environment: str) -> str:
    """What git prints. Raises NoTree. The checkout may be another user's, and a folder that cannot be written."""
    try:
        ran = subprocess.run(["git", "-c", f"safe.directory={TOP}", *words], check=False, capture_output=True,
                             text=True, cwd=TOP, env={**os.environ, **environment})
    except OSError as why:
        raise NoTree(f"git cannot be run ({why.strerror})") from why
    if ran.returncode:
        raise NoTree(f"git {words[0]}: {(ran.stderr.strip().splitlines() or ['it failed'])[-1]}")
    return ran.stdout.rstrip("\n")


@contextlib.contextmanager
def _index() -> Iterator[dict[str, str]]:
    """What has git use an index of its own, with all files of the checkout that are not ignored, as they stand there.
    Nothing is written into the repository."""
    objects = git("rev-parse", "--path-format=absolute", "--git-path", "objects")
    with tempfile.TemporaryDirectory(prefix="rebug-tree-") as room:
        own = {"GIT_INDEX_FILE": f"{room}/index", "GIT_OBJECT_DIRECTORY": room,
               "GIT_ALTERNATE_OBJECT_DIRECTORIES": objects}
        git("add", "-A", ".", **own)
        yield own


def tree_here() -> str:
    """The hash of the tree that a commit of all that stands here would have. Raises NoTree."""
    with _index() as own:
        return git("write-tree", **own)


def tree_of_the_gate() -> str:
    """The same without the file that the gate itself writes. Raises NoTree."""
    with _index() as own:
        git("rm", "--cached", "--quiet", "--ignore-unmatch", WRITTEN_BY_THE_GATE, **own)
        return git("write-tree", **own)


def committed_tree() -> str:
    """The hash of the tree of the commit that is checked out. Raises NoTree."""
    return git("rev-parse", "HEAD^{tree}")


def uncommitted() -> list[str]:
    """The files of the checkout that are not as they were committed. Raises NoTree."""
    return [line[3:] for line in git("status", "--porcelain").splitlines()]


def crates() -> list[str]:
    """The crates that the gate proves."""
    lines = (TOP / "crates.txt").read_text(encoding="utf-8").splitlines()
    return [line.split(":")[0].split()[0] for line in lines if ":" in line.partition("#")[0]]


def counts() -> tuple[int, int]:
    """How many functions the sources have, tests apart, and how many of them are laws: those of modules `laws`, which
    do nothing, and whose contracts say what holds of the definitions."""
    functions = laws = 0
    for crate in (it for it in crates() if not it.endswith("_tests")):
        for path in sorted((TOP / "crates" / crate / "src").rglob("*.rt")):
            text = re.sub(r"//[^\n]*", "", path.read_text(encoding="utf-8"))
            found = len(FUNCTION.findall(text)) - len(TEST.findall(text))
            functions += found
            laws += found if path.name == "laws.rt" else 0
    return functions, laws


@dataclass(frozen=True)
class Passed:
    """What out/passed says."""

    tree: str
    kit: str
    gate: str
    functions: int
    laws: int
    programs: dict[str, str]

    def write(self, path: Path = PASSED) -> None:
        """Writes it: whole, or not at all."""
        lines = [f"tree {self.tree}", f"kit {self.kit}", f"gate {self.gate}", f"functions {self.functions}",
                 f"laws {self.laws}", *(f"program {name} {sum}" for name, sum in sorted(self.programs.items()))]
        new = path.with_name(path.name + ".new")
        new.write_text("\n".join(lines) + "\n", encoding="utf-8")
        os.replace(new, path)

    def page(self, version: str, programs: dict[str, Path]) -> str:
        """The page PROVED of a release."""
        return _PROVED.format(version=version, tree=self.tree, kit=self.kit, gate=self.gate, functions=self.functions,
                              laws=self.laws, sums=_sums(programs))

    @staticmethod
    def read(path: Path = PASSED) -> Passed | None:
        """What stands there; None where nothing does, or not all of it."""
        try:
            lines = [line.partition(" ") for line in path.read_text(encoding="utf-8").splitlines()]
            said = {name: value for name, _, value in lines if name != "program"}
            programs = dict(value.split(" ", 1) for name, _, value in lines if name == "program")
            return Passed(said["tree"], said["kit"], said["gate"], int(said["functions"]), int(said["laws"]), programs)
        except (OSError, ValueError, KeyError):
            return None


def unproved_page(version: str, tree: str, reasons: list[str], programs: dict[str, Path]) -> str:
    """The page UNPROVED of a release that no gate has passed on."""
    why = "".join(f"    {it}\n" for it in reasons)
    return _UNPROVED.format(version=version, tree=tree, why=why, sums=_sums(programs))


def _sums(programs: dict[str, Path]) -> str:
    return "".join(f"    {sum_of(path)}  libexec/rebug/{name}\n" for name, path in sorted(programs.items()))


_PROVED = """\
rebug {version} is proved
======================

    version    {version}
    tree       {tree}
    kit        {kit}
    gate       {gate}
    functions  {functions}
    laws       {laws}

The tree is git's hash of the sources, without their history. The gate is `./test` of that tree: it proved each crate,
had the prover refuse the must-fail edits, and ran all tests. The last line that it printed stands above. The functions
are those that the sources of the crates have, tests apart: each was proved to meet its contract on every input, to be
free of undefined behaviour, and to return. A law is one that does nothing, and whose contract says what holds of the
definitions that the other contracts cite. README.md, under "What is proved", says what they state.

The gate built these two programs:

{sums}
To check that again from the sources: have the kit's command rt on the PATH, go to a clone whose tree this is, and run

    rt version                   the line of the kit, as above
    git rev-parse HEAD^{{tree}}    the tree, as above
    ./test --all                 proves everything, with every must-fail edit; some hours on four processors
    tools/release                makes this archive again

Not proved, and only tested: the launcher bin/rebug, the recorder (Python), its observer (C), and the `main` of both
programs. Trusted: the kit, LLVM, the C library and the operating system.
"""

_UNPROVED = """\
rebug {version}, unproved
======================

No proof stands for what this archive has:

{why}
    version    {version}
    tree       {tree}

{sums}
It was made by `tools/release --unproved`, to try an archive. One that is proved has the page PROVED in place of this.
"""
