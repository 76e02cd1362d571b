"""What is known of the targets behind the commands of a manifest, whatever generator wrote it."""

from __future__ import annotations

import enum
from dataclasses import dataclass, field


class Generator(enum.Enum):
    """The generators that are known, by the names that the file `targets` has for them."""

    CMAKE = "cmake"
    MESON = "meson"
    GN = "gn"


class Basis(enum.Enum):
    """What a name or a place is known by: the generator's own word, or the text of a file that was looked through."""

    EXACT = "exact"
    GUESS = "guess"


class Role(enum.Enum):
    """What a command does for its target."""

    COMPILE = "compile"
    HEADER = "header"
    LINK = "link"
    SYMBOLS = "symbols"
    CUSTOM = "custom"
    COMMAND = "command"
    STAMP = "stamp"


@dataclass(frozen=True)
class Span:
    """A call in a file that the generator reads: the file's absolute path, the call's first and last line, and the
    name of the command or function that it calls."""

    file: str
    line: int
    end: int
    call: str


@dataclass(eq=False)
class Target:
    """A target, or a rule of its own as a custom command. `spans` are the call that declares it and the calls around
    that one, the innermost first: none where no place is known. `folder` has the sources, `binary` what is built.

    `carriers` are the targets that have the outputs of a custom command among their sources. `arguments` are those of
    the call as the generator expanded them. `variable` is what Meson's file calls it, `dependencies` are what it was
    declared with there, and `part_of` is its subproject, and `file` the file that it was declared in."""

    name: str
    kind: str
    name_basis: Basis = Basis.EXACT
    spans: list[Span] = field(default_factory=list)
    place_basis: Basis = Basis.GUESS
    folder: str = ""
    binary: str = ""
    outputs: list[str] = field(default_factory=list)
    carriers: list[str] = field(default_factory=list)
    arguments: list[str] = field(default_factory=list)
    commands: list[list[str]] = field(default_factory=list)
    variable: str = ""
    dependencies: list[str] = field(default_factory=list)
    part_of: str = ""
    file: str = ""

    @property
    def place(self) -> Span | None:
        """The call that declares it."""
        return self.spans[0] if self.spans else None


@dataclass
class Known:
    """The targets of a build folder: whose each edge is, by the edge's number. `top` is the folder of the sources."""

    generator: Generator
    version: str
    top: str
    of_edge: dict[int, tuple[Target, Role]] = field(default_factory=dict)
