"""What a release has, and where it stands below its prefix. Used by tools/release."""

from __future__ import annotations

import os
import re
import shutil
import subprocess
import sys
from dataclasses import dataclass
from pathlib import Path

import evidence

sys.path.insert(0, str(Path(__file__).resolve().parent.parent / "record"))
from recorder.observed.own import COMPILERS, FLAGS  # noqa: E402

LIBEXEC, DOC = "libexec/rebug", "share/doc/rebug"
# Below DOC the pages stand as in the sources, so that their links to one another lead somewhere: these, and the pages
# of docs/ that are not for engineers of rebug alone.
PAGES = ("README.md", "CHANGELOG.md", "record/README.md", "record/observer/README.md")
FOR_ENGINEERS = ("docs/inside/",)
FOLDERS = ("examples/flaky", "examples/generated")
COMPLETIONS = {"rebug.bash": "share/bash-completion/completions/rebug", "_rebug": "share/zsh/site-functions/_rebug",
               "rebug.fish": "share/fish/vendor_completions.d/rebug.fish"}
LINK = re.compile(r"\[([^\]\n]*(?:\n[^\]\n]*)?)\]\((?!https?:|#)([^)\s#]+)(#[^)\s]*)?\)")


@dataclass(frozen=True)
class Placed:
    """A file of the sources, by its name there, and its place below the prefix."""

    source: str
    target: str


def placed(top: Path) -> list[Placed]:
    """The files that are taken as they stand in the sources; pages are those whose targets end in .md."""
    found = [Placed("rebug", "bin/rebug"), Placed("install", f"{LIBEXEC}/install"),
             Placed("docs/rebug.1", "share/man/man1/rebug.1"),
             *(Placed(f"tools/{name}", f"{LIBEXEC}/{name}") for name in ("session", "colours.sed")),
             Placed("record/observer/observer.c", f"{LIBEXEC}/record/observer/observer.c")]
    found += [Placed(f"record/{name}", f"{LIBEXEC}/record/{name}")
              for name in ("rebug-record", "rebug-provoke", "rebug-shuffle", "rebug-mend", "rebug-explore",
                           "rebug-rerun", "rebug-actions", "rebug-reuse", "rebug-causes", "rebug-summary",
                           "rebug-flakes")]
    found += [Placed(it, f"{LIBEXEC}/{it}") for it in below(top, "record/recorder")
              if it.endswith((".py", ".js", ".css", ".html"))]
    found += [Placed(f"completions/{name}", target) for name, target in COMPLETIONS.items()]
    pages = [it for it in below(top, "docs")
             if it.endswith((".md", ".svg", ".png")) and not it.startswith(FOR_ENGINEERS)]
    found += [Placed(it, f"{DOC}/{it}") for it in [*PAGES, *pages, *(it for one in FOLDERS for it in below(top, one))]]
    return sorted(found, key=lambda it: it.target)


def below(top: Path, folder: str) -> list[str]:
    """The names of the files below a folder of the sources. What git ignores is none of them."""
    try:
        found = {*evidence.git("ls-files", "-z", "-c", "-o", "--exclude-standard", folder).split("\0")}
        return sorted(it for it in found if (top / it).is_file())
    except evidence.NoTree:
        paths = (Path(at, name) for at, _, names in os.walk(top / folder) for name in names)
        return sorted(str(path.relative_to(top)) for path in paths if "__pycache__" not in path.parts)


def mode_of(path: Path) -> int:
    """The mode that a file or a folder has in a release, whatever the umask was."""
    return 0o755 if path.is_dir() or path.stat().st_mode & 0o100 else 0o644


def without_dead_links(text: str, page: str, pages: set[str]) -> str:
    """The page's text, in which each link to a page of the sources that is not installed is its words alone."""
    def kept(link: re.Match[str]) -> str:
        target = os.path.normpath(os.path.join(os.path.dirname(page), link[2]))
        is_there = any(it == target or it.startswith(f"{target}/") for it in pages)
        return link[0] if is_there else link[1]
    return LINK.sub(kept, text)


def stage(top: Path, programs: dict[str, Path], folder: Path) -> None:
    """Puts all files of a release into the folder but those that tell of its proofs."""
    found = placed(top)
    pages = {it.target.removeprefix(f"{DOC}/") for it in found if it.target.startswith(f"{DOC}/")}
    for it in found:
        target = folder / it.target
        put(top / it.source, target)
        if it.target.endswith(".md"):
            name = it.target.removeprefix(f"{DOC}/")
            target.write_text(without_dead_links(target.read_text(encoding="utf-8"), name, pages), encoding="utf-8")
    for name, path in programs.items():
        put(path, folder / LIBEXEC / name)
    build_observer(folder / LIBEXEC / "record/observer")


def put(source: Path, target: Path) -> None:
    """Copies a file, with a mode that does not depend on who copies."""
    target.parent.mkdir(parents=True, exist_ok=True)
    shutil.copyfile(source, target)
    target.chmod(mode_of(source))


def build_observer(folder: Path) -> None:
    """Builds the observer beside its source, where a C compiler is; else the recorder builds it at its first use."""
    compiler = next((it for it in COMPILERS if shutil.which(it)), None)
    if compiler is None:
        return
    # (its path is in no byte of it)
    words = [compiler, *FLAGS, "-s", "-o", "observer", "observer.c"]
    if subprocess.run(words, cwd=folder, capture_output=True, check=False).returncode == 0:
        (folder / "observer").chmod(0o755)
