"""What a recording keeps beside a resolved manifest, in its folder `dyndep`: the user's own manifest, what the loaded
files had, and notes. docs/FORMATS.md has the form."""

from __future__ import annotations

import os
from dataclasses import dataclass, field
from typing import Iterator

from ..fields import line, shown
from ..manifest import Manifest

FOLDER = b"dyndep"
NOTES, ORIGINALS, CONTENTS = FOLDER + b"/notes", FOLDER + b"/manifest/", FOLDER + b"/files/"
_FIRST_LINE = b"rebug-dyndep 1"


@dataclass
class Kept:
    """The user's manifest; each loaded file with its content and whether that was while the build ran; of the others
    why they could not be loaded, or nothing; and what the resolved manifest leaves out."""

    original: Manifest
    loaded: dict[bytes, tuple[bytes, bool]] = field(default_factory=dict)
    not_loaded: dict[bytes, str] = field(default_factory=dict)
    left_out: list[tuple[int, bytes, bool]] = field(default_factory=list)
    notes: list[str] = field(default_factory=list)

    def not_load(self, path: bytes, why: str) -> None:
        """Notes that a file is there that cannot be loaded."""
        self.not_loaded[path] = why
        self.notes.append(f"the dyndep file {shown(path)} cannot be loaded ({why}), so what it says is left out")

    def files(self, copies: Iterator[tuple[bytes, bytes]]) -> Iterator[tuple[bytes, bytes]]:
        """Each file of the folder: its name in the recording, and what it has. `copies` are those of the manifest."""
        yield NOTES, b"".join(it + b"\n" for it in self._lines())
        for name, content in copies:
            yield ORIGINALS + name, content
        for number, (content, _) in enumerate(self.loaded.values(), 1):
            yield CONTENTS + b"%d" % number, content

    def _lines(self) -> Iterator[bytes]:
        yield _FIRST_LINE
        for number, (path, (_, is_late)) in enumerate(self.loaded.items(), 1):
            yield line("loaded", path, number, "late" if is_late else "early")
        for path, why in self.not_loaded.items():
            yield line("not-loaded", path, *([os.fsencode(why)] if why else []))
        for number, path, is_output in self.left_out:
            yield line("left-out", self.original.edges[number].name, "output" if is_output else "input", path)
        for note in self.notes:
            yield line("note", os.fsencode(note))
