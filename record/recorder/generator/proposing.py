"""What may mend a finding, and whose the two commands are: what the generators' shapes have in common."""

from __future__ import annotations

import os
import re
from dataclasses import dataclass, field

from ..fields import canonical
from ..manifest import Edge, Manifest
from .edits import Edit
from .findings import Finding
from .model import Known, Role, Target
from .texts import text_of


@dataclass(frozen=True)
class Candidate:
    """Edits that may mend a finding, what they are in a line, and what a user is to know of them. `of` are the
    findings that they may mend together. `is_for_next_build` is true where they say what a command makes or reads, and
    set no order."""

    edits: tuple[Edit, ...]
    says: str
    note: str = ""
    of: tuple[int, ...] = ()
    is_for_next_build: bool = False

    @property
    def place(self) -> tuple[str, int]:
        """The file and the line of the last edit, which is the one at the user."""
        return self.edits[-1].file, self.edits[-1].end or self.edits[-1].line


@dataclass(frozen=True)
class Side:
    """One of the two commands of a finding: its edge, its target, and what the command does for it."""

    edge: Edge
    target: Target
    role: Role


@dataclass
class Proposal:
    """What may mend a finding, the best first, and why nothing does where there is none."""

    finding: Finding
    candidates: list[Candidate] = field(default_factory=list)
    why_not: str = ""
    advice: str = ""


class CannotEdit(Exception):
    """Why no edit is proposed, and the general advice for this shape."""

    def __init__(self, why: str, advice: str) -> None:
        super().__init__(why)
        self.why, self.advice = why, advice


@dataclass
class Ground:
    """What proposals stand on: the folders, the manifest as the generator writes it now, whose each edge is, and all
    findings."""

    build: str
    manifest: Manifest
    known: Known
    findings: list[Finding]
    texts: dict[str, str] = field(default_factory=dict)
    _of_maker: dict[str, list[Finding]] = field(default_factory=dict)

    @property
    def top(self) -> str:
        return self.known.top

    def edge(self, output: str) -> Edge | None:
        """The edge that makes an output, by the name that the manifest or an observation has for it."""
        found = self.manifest.producer.get(canonical(os.fsencode(output)))
        if found is None and os.path.isabs(output) and output.startswith(self.build + "/"):
            found = self.manifest.producer.get(canonical(os.fsencode(output[len(self.build) + 1 :])))
        return found

    def of_maker(self, maker: str) -> list[Finding]:
        """The findings whose users are to wait for this maker."""
        if not self._of_maker:
            for it in self.findings:
                if it.is_order:
                    self._of_maker.setdefault(it.maker, []).append(it)
        return self._of_maker.get(maker, [])

    def side(self, output: str) -> Side | None:
        """The command that makes an output; None where no target is known for it."""
        edge = self.edge(output)
        found = self.known.of_edge.get(edge.number) if edge is not None else None
        return Side(edge, *found) if edge is not None and found is not None else None

    def text(self, file: str) -> str:
        """A file's text as it was read. Raises CannotEdit where it is no file of the user's."""
        if file not in self.texts:
            if not self.is_of_the_user(file):
                raise CannotEdit(f"{file} is no file of this project's sources",
                                 "the project that the file comes from has to be mended, or another version taken")
            text = text_of(file)
            if text is None:
                raise CannotEdit(f"{file} cannot be read", "the edit is to be made where the target is declared")
            self.texts[file] = text
        return self.texts[file]

    def is_of_the_user(self, file: str) -> bool:
        """Whether a file stands below the sources, and not below a build folder that is apart from them or in them."""
        real = os.path.realpath(file)
        top, build = (os.path.realpath(it) for it in (self.top, self.build))
        is_built_around = (top + "/").startswith(build + "/")
        return real.startswith(top + "/") and (is_built_around or not real.startswith(build + "/"))

    def shown(self, file: str) -> str:
        """A file as people are shown it: from the folder of the sources."""
        return os.path.relpath(file, self.top) if file.startswith(self.top + "/") else file

    def place_of(self, target: Target) -> str:
        """Where a target is declared, in the words of an answer."""
        return f"{self.shown(target.place.file)}:{target.place.line}" if target.place else "no place known"

    def path_of(self, name: str) -> str:
        """The absolute path of what the manifest or an observation names."""
        return os.path.normpath(os.path.join(self.build, name))

    def path_to_read(self, name: str) -> str:
        """The path of a file that an edit may have a command depend on: one that is there, or that a command makes. The
        name may come from somebody else's recording. Raises CannotEdit."""
        path = plain(self.path_of(name))
        if not os.path.isfile(path) and self.edge(path) is None:
            raise CannotEdit("what the command reads is no file that is there, and no command makes it",
                             "build again, record that build, and ask of its recording")
        return path

    def path_to_make(self, name: str) -> str:
        """The path of a file that an edit may say a command makes: below the build folder, since `ninja -t clean` takes
        away what a line names as its output. Raises CannotEdit."""
        path = plain(self.path_of(name))
        if not path.startswith(self.build + "/"):
            raise CannotEdit("the file stands outside of the build folder, and `ninja -t clean` would take it away",
                             "have the command make the file below the build folder")
        return path


_PLAIN = re.compile(r"[\w+\-./~,= ]+")


def plain(path: str) -> str:
    """A path that no language of a generator takes for more than its letters. Raises CannotEdit."""
    if not _PLAIN.fullmatch(path) or not path.isprintable():
        raise CannotEdit("the name of the file has letters that a generator's file gives another sense",
                         "give the file a name of letters, digits, and . - _ + alone")
    return path


def free_name(name: str, texts: list[str]) -> str:
    """A name that none of the texts has: for a variable or a target of the mend's own."""
    base = re.sub(r"\W", "_", name, flags=re.ASCII)
    base = base if re.match(r"[A-Za-z_]", base) else "_" + base
    found, count = base, 1
    while any(re.search(rf"\b{re.escape(found)}\b", it) for it in texts):
        count += 1
        found = f"{base}_{count}"
    return found


def waits(manifest: Manifest, user: Edge, maker: Edge) -> bool:
    """Whether the user waits for the maker: by explicit, implicit and order-only inputs, through all edges between."""
    return maker.number in waited_for(manifest, [user])


def waited_for(manifest: Manifest, users: list[Edge]) -> set[int]:
    """The numbers of the edges that these wait for."""
    todo, found = list(users), set[int]()
    while todo:
        for path in todo.pop().inputs:
            it = manifest.producer.get(path)
            if it is not None and it.number not in found:
                found.add(it.number)
                todo.append(it)
    return found
