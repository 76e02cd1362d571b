"""What `rebug mend` answers, in words and as JSON."""

from __future__ import annotations

import difflib
import json
import os
from dataclasses import dataclass
from typing import Any, Iterator

from ..provoke.races import shown_name
from .findings import Finding
from .mending import Left, Mend, Outcome
from .model import Role, Target
from .proposing import Ground

_ROLES = {Role.COMPILE: "a compile of", Role.HEADER: "the precompiled header of", Role.LINK: "the link of",
          Role.SYMBOLS: "the symbols of", Role.COMMAND: "the command of", Role.STAMP: "the stamp of", Role.CUSTOM: ""}
_MOST_LISTED = 8


def shown(name: str) -> str:
    """A name as `races` shows it."""
    return shown_name(os.fsencode(name))


@dataclass
class Answer:
    """An answer about findings of a recording."""

    ground: Ground
    findings: list[Finding]
    outcome: Outcome

    # Words

    def lines(self) -> Iterator[str]:
        """The answer in words."""
        for finding in self.findings:
            yield from map(_visible, self._of_finding(finding))
        yield from self.patch()
        yield self._sum()

    def _of_finding(self, finding: Finding) -> Iterator[str]:
        number = f"[{finding.number}]" if finding.shown_number else "by the error of a failed command"
        yield f"{finding.kind} {shown(finding.path)} {number}"
        makes, uses = ("made by", "made by") if finding.kind == "clash" else ("made by", "used by")
        for what, output in ((makes, finding.maker), (uses, finding.user)):
            if output:
                yield f"  {what} {self._command(output)}"
        if finding.number in self.outcome.already:
            yield "  mended already, as the sources are now: the user waits for the maker"
        for it in self.outcome.mends:
            if finding.number in it.numbers:
                yield f"  {_mend_word(it, finding)}: {it.candidate.says}"
                if it.candidate.note:
                    yield f"    ({it.candidate.note})"
        for left in self.outcome.left:
            if left.finding is finding:
                yield from self._of_left(left)

    def _of_left(self, left: Left) -> Iterator[str]:
        for says, why in left.tried:
            yield f"  not {says}: {why}"
        yield f"  no edit: {left.why}"
        yield f"  in general: {left.advice}"

    def _command(self, output: str) -> str:
        """A command in words: its output, what it does for its target, and where that is declared."""
        side = self.ground.side(output)
        if side is None:
            return f"{shown(output)}, of no target that is known"
        return f"{shown(output)}: {_described(side.target, side.role)}, {self.ground.place_of(side.target)}"

    def _sum(self) -> str:
        mended = {number for it in self.outcome.mends for number in it.numbers}
        mends = len(self.outcome.mends)
        parts = [f"{_counted(mends, 'mend')} for {_counted(len(mended), 'finding')}"]
        if self.outcome.already:
            parts.append(f"{len(self.outcome.already)} mended already")
        if self.outcome.left:
            parts.append(f"{len(self.outcome.left)} without a mend")
        if self.outcome.waits is not None and mends:
            has = "has" if self.outcome.waits == 1 else "have"
            parts.append(f"{_counted(self.outcome.waits, 'pair')} of commands {has} an order that had none")
        return "; ".join(parts) if self.findings else "no finding"

    # The patch

    def patch(self) -> Iterator[str]:
        """The lines of `diff -u` for each file, with names from the folder of the sources."""
        for file, new in sorted(self.outcome.texts.items()):
            yield from self._patch_of(file, new)

    def _patch_of(self, file: str, new: str) -> Iterator[str]:
        name = self.ground.shown(file)
        one, other = (text.split("\n") for text in (self.ground.texts[file], new))
        old_lines, new_lines = (_with_ends(it) for it in (one, other))
        for line in difflib.unified_diff(old_lines, new_lines, name, name):
            if line.endswith("\n"):
                yield line[:-1]
            else:
                yield line
                if line[:1] in " -+":
                    yield "\\ No newline at end of file"

    # JSON

    def objects(self) -> Iterator[dict[str, Any]]:
        """The answer as objects: docs/JSON.md."""
        for finding in self.findings:
            if finding.number in self.outcome.already:
                yield {"kind": "mended", "number": finding.shown_number}
        for it in self.outcome.mends:
            yield {"kind": "mend", "numbers": sorted(number for number in it.numbers if number > 0),
                   "says": it.candidate.says, "note": it.candidate.note or None,
                   "of_next_build": it.candidate.is_for_next_build,
                   "edits": [{"file": shown(self.ground.shown(edit.file)), "line": edit.line,
                              "how": edit.how.name.lower(), "text": edit.text} for edit in it.candidate.edits]}
        for left in self.outcome.left:
            yield {"kind": "left", "number": left.finding.shown_number, "why": left.why, "advice": left.advice,
                   "tried": [{"says": says, "why": why} for says, why in left.tried]}
        for file, new in sorted(self.outcome.texts.items()):
            yield {"kind": "patch", "file": shown(self.ground.shown(file)),
                   "text": "".join(f"{it}\n" for it in self._patch_of(file, new))}
        yield {"kind": "sum", "generator": self.ground.known.generator.value,
               "version": self.ground.known.version or None, "findings": len(self.findings),
               "orders": self.outcome.waits, "tries": self.outcome.tries}


def line_of(it: dict[str, Any]) -> str:
    """An object as its line."""
    return json.dumps(it, sort_keys=True, separators=(",", ":"))


def _described(target: Target, role: Role) -> str:
    if role is not Role.CUSTOM:
        return f"{_ROLES[role]} {target.name}"
    named = ", ".join(target.carriers[:_MOST_LISTED])
    return f"{target.kind} {target.name}{f' (of {named})' if named else ''}"


def _visible(line: str) -> str:
    """A line without letters that a terminal takes for more than that: names may be somebody else's."""
    return "".join(it if it.isprintable() else it.encode("unicode_escape").decode() for it in line)


def _mend_word(it: Mend, finding: Finding) -> str:
    return "and for the next build, tried" if it.candidate.is_for_next_build and finding.is_order else "mend, tried"


def _with_ends(lines: list[str]) -> list[str]:
    """Lines with the ends that the text has."""
    return [it + "\n" for it in lines[:-1]] + [it for it in lines[-1:] if it]


def _counted(count: int, what: str) -> str:
    return f"{count} {what}{'' if count == 1 else 's'}"
