"""What the must-fail edits make of the crates' texts, and which of these the kit's front end does not take.

Used by tools/edits. An edit that has no text to change, or that makes a text which cannot be read, shows nothing of a
contract: the kit calls it a BAD EDIT. Here many edits stand in one copy of the crates, and one pass of the front end
over all libraries tells which of them it does not take. No proof is looked at: a text of specs/ or proofs/ is read by
the prover alone, so of an edit there only that it can be applied is known."""

import re
import shutil
import subprocess
import sys
from collections.abc import Iterator, Sequence
from dataclasses import dataclass
from pathlib import Path

# The crate over all libraries. What is moved twice is the last error that the front end looks for, behind names, types
# and what is let go: it ends there, before the prover reads anything.
ALL = """//! All libraries.
#![tactic(auto)]

/// What has no copy.
pub struct Kept;

/// It is there once.
pub fn twice(it: Kept) -> (Kept, Kept) {
    (it, it)
}
"""
ITS_OWN = "src/lib.rt:"
ERROR = re.compile(r"\berror[\[:]")
PLACE = re.compile(r"crates/(?P<file>\w+/[\w./+-]+):(?P<line>\d+):\d+:")


@dataclass(frozen=True)
class Change:
    """Whole lines of a file below crates/ that an edit replaces: from `first` up to and without `end`, from 0."""

    file: str
    first: int
    end: int
    lines: tuple[str, ...]


@dataclass(frozen=True)
class Edit:
    """A must-fail edit, with what it changes, or why it cannot be applied."""

    crate: str
    name: str
    changes: tuple[Change, ...] = ()
    why: str = ""

    def __str__(self) -> str:
        return f"{self.crate}/{self.name}"


def change(file: str, old: str, new: str) -> Change:
    """The lines in which two texts of a file differ."""
    before, after = old.split("\n"), new.split("\n")
    first = 0
    while first < min(len(before), len(after)) and before[first] == after[first]:
        first += 1
    same = 0
    while same < min(len(before), len(after)) - first and before[-1 - same] == after[-1 - same]:
        same += 1
    return Change(file, first, len(before) - same, tuple(after[first : len(after) - same]))


def read_edit(path: Path, crates: Path) -> Edit:
    """The edit of a file, as the kit reads it: pairs of an old text, which stands once in its file, and a new one."""
    crate = path.relative_to(crates).parts[0]
    texts: dict[str, str] = {}
    file, old = "", ""
    for line in path.read_text(encoding="utf-8").split("\n"):
        word, _, rest = line.partition(":")
        if word == "file":
            file = f"{crate}/{rest.strip()}"
        elif word == "old":
            old = rest.removeprefix(" ")
        elif word == "new":
            if not (crates / file).is_file():
                return Edit(crate, path.stem, why=f"there is no file {file}")
            text = texts.get(file) or (crates / file).read_text(encoding="utf-8")
            count = text.count(old) if old else 0
            if count != 1:
                return Edit(crate, path.stem, why=f"its old text stands {count} times in {file}")
            texts[file] = text.replace(old, rest.removeprefix(" "))
            old = ""
    befores = {file: (crates / file).read_text(encoding="utf-8") for file in texts}
    changes = tuple(change(file, befores[file], text) for file, text in texts.items() if text != befores[file])
    return Edit(crate, path.stem, changes, "" if changes else "it changes nothing")


def together(edits: Sequence[Edit]) -> list[list[Edit]]:
    """The edits in groups, of each of which no two change the same line."""
    groups: list[tuple[list[Edit], set[tuple[str, int]]]] = []
    for edit in edits:
        # A change that takes no line stands between two.
        lines = {(it.file, line) for it in edit.changes for line in range(it.first, max(it.end, it.first + 1))}
        for group, taken in groups:
            if not lines & taken:
                break
        else:
            group, taken = [], set()
            groups.append((group, taken))
        group.append(edit)
        taken |= lines
    return [group for group, _ in groups]


class Tree:
    """A copy of the crates, in which edits can stand."""

    def __init__(self, top: Path, room: Path, uses: dict[str, list[str]]) -> None:
        self.top, self.room, self.uses = top, room, uses
        self.kit = Path(shutil.which("rt") or "rt").resolve().parent.parent
        for name in uses:
            for part in ("src", "specs", "proofs"):
                if (top / "crates" / name / part).is_dir():
                    shutil.copytree(top / "crates" / name / part, room / "crates" / name / part)
        (room / "crates" / "all" / "src").mkdir(parents=True)
        (room / "crates" / "all" / "src" / "lib.rt").write_text(ALL, encoding="utf-8")

    def words(self) -> Iterator[str]:
        """The front end's words: an empty crate over the source of all libraries."""
        yield from (str(self.kit / "bin" / "rattle"), "check", "--crate-name", "all", "src/lib.rt")
        libraries = [name for name in self.uses if (self.top / "crates" / name / "src" / "lib.rt").is_file()]
        of_kit = sorted({"core", "std", *(it for name in libraries for it in self.uses[name] if it not in self.uses)})
        for name in of_kit:
            yield from ("--extern", f"{name}={self.kit}/rlibs/{name}.rlib")
        yield from ("-L", f"dependency={self.kit}/rlibs")
        for name in libraries:
            uses = ",".join(dict.fromkeys(["core", "std", *self.uses[name]]))
            yield from ("--lib", f"{name}:{uses}={self.room}/crates/{name}/src/lib.rt")
        logic = self.kit / "rattle" / "logic" / "antt-project.json"
        yield from ("--antt-project", str(logic), "--logic-built", str(self.kit / "logic_built"), "--jobs", "1")

    def said_of(self, edits: Sequence[Edit]) -> tuple[str, set[Edit]]:
        """What the front end says first against the crates with these edits, if anything, and the edits at whose lines
        it finds errors."""
        changes: dict[str, list[tuple[Change, Edit]]] = {}
        for edit in edits:
            for it in edit.changes:
                changes.setdefault(it.file, []).append((it, edit))
        at: dict[tuple[str, int], Edit] = {}
        for file, those in changes.items():
            old = (self.top / "crates" / file).read_text(encoding="utf-8").split("\n")
            new: list[str] = []
            done = 0
            for it, edit in sorted(those, key=lambda pair: pair[0].first):
                new += old[done : it.first]
                at |= {(file, len(new) + 1 + index): edit for index in range(max(len(it.lines), 1))}
                new += it.lines
                done = it.end
            (self.room / "crates" / file).write_text("\n".join(new + old[done:]), encoding="utf-8")
        root = self.room / "crates" / "all"
        ran = subprocess.run([*self.words()], cwd=root, stdout=subprocess.PIPE, stderr=subprocess.STDOUT, text=True)
        for file in changes:
            shutil.copyfile(self.top / "crates" / file, self.room / "crates" / file)
        found = [line for line in ran.stdout.split("\n") if ERROR.search(line)]
        against = [line for line in found if not line.startswith(ITS_OWN)]
        if not found:
            against = [f"it ended with status {ran.returncode}: {ran.stdout[-200:]}"]
        places = [(it["file"], int(it["line"])) for it in map(PLACE.search, against) if it]
        return (against or [""])[0], {at[place] for place in places if place in at}

    def not_taken(self, edits: Sequence[Edit]) -> dict[Edit, str]:
        """The edits that the front end does not take, each with what it says. Those at whose lines it finds errors are
        looked at alone, and where it finds errors elsewhere, each half of the edits is."""
        if not edits:
            return {}
        said, named = self.said_of(edits)
        if not said:
            return {}
        if len(edits) == 1:
            return {edits[0]: said}
        if named:
            bad = {it: why for edit in sorted(named, key=str) for it, why in self.not_taken([edit]).items()}
            return bad | self.not_taken([it for it in edits if it not in named])
        said, _ = self.said_of([])
        if said:
            sys.exit(f"the front end does not take the crates as they are: {said}")
        half = len(edits) // 2
        return self.not_taken(edits[:half]) | self.not_taken(edits[half:])
