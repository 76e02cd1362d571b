"""Asks the proved program how commands of many builds stood to anchors, where it is there.

Each order that is printed is a question of its own, with two commands in each build. Sums are added to others before
anything is printed, so of them all commands are asked.
"""

from __future__ import annotations

import json
import os
import subprocess
import tempfile
from collections.abc import Callable, Iterable, Iterator, Mapping, Sequence
from dataclasses import dataclass

from ..installed import asking_program
from ..summary.packed import Run, plain_text
from .reading import Build, Manifest
from .sums import MOMENTS, SPANS, Fate

WORD = "separate"
Tally = tuple[int, int, int]
"""In how many builds an order counts, and in how many of these a command had ended and had begun."""
Goods = dict[int, dict[int, list[int]]]
"""By anchors and other commands how often these ended and began in each span, of builds in which the anchor passed."""


def has_program() -> bool:
    """Whether the program is there."""
    return os.access(asking_program(), os.X_OK)


def good_of(builds: Sequence[Build], stopped: set[str], manifest: Manifest, anchors: Sequence[int]) -> Goods | None:
    """The counts of all anchors, or None where the program does not give them. `stopped` has the names of the builds
    that Ninja stopped. Raises BadText."""
    answer = _answer(_lines(builds, stopped, manifest, anchors))
    return None if answer is None else _read(answer, len(manifest.names), anchors)


@dataclass(frozen=True)
class Printed:
    """An order that is printed: the anchor, the other command, and the moment after the begin of the anchor; what
    became of the anchor in a build; and the names of the bad builds that are counted."""

    anchor: int
    other: int
    moment: int
    fate: Callable[[Build], Fate]
    bad: frozenset[str]

    def line(self, build: Build, runs: Mapping[int, Run], has_stopped: bool) -> str | None:
        """A build, in which the anchor is command 0 and the other one is command 1. None where it does not count."""
        fate = self.fate(build)
        if self.anchor not in runs or fate is Fate.NONE or fate is Fate.BAD and build.id not in self.bad:
            return None
        text = plain_text([Run(number, runs[it].began, runs[it].ended)
                           for number, it in enumerate((self.anchor, self.other)) if it in runs])
        return f"{'stopped' if has_stopped else 'build'} {text}{' 0' if fate is Fate.BAD else ''}"


def tallies_of(them: Sequence[Printed], builds: Sequence[Build], stopped: set[str],
               count: int) -> list[tuple[Tally, Tally] | None]:
    """Of each order the tallies of bad and of good builds; None where the program does not give them. `stopped` has the
    names of the builds that Ninja stopped, and `count` is how many commands the manifest has. Raises BadText."""
    wanted = {command for it in them for command in (it.anchor, it.other)}
    texts = [["builds 1 2", "anchors 0", f"moments {it.moment}"] for it in them]
    for build in builds:
        runs = build.columns(count).runs_of(wanted)
        for it, text in zip(them, texts):
            line = it.line(build, runs, build.id in stopped)
            if line is not None:
                text.append(line)
    return [_tallies(_answer(text)) for text in texts]


def _tallies(answer: bytes | None) -> tuple[Tally, Tally] | None:
    """The tallies of command 1; None where the answer has another form."""
    try:
        it = json.loads(answer or b"")
        return _tally(*it["failing"][1]), _tally(*it["passing"][1])
    except (ValueError, KeyError, IndexError, TypeError):
        return None


def _tally(both: int, not_ended: int, not_begun: int, alone: int) -> Tally:
    return both + alone, both - not_ended, both - not_begun


def _answer(lines: Iterable[str]) -> bytes | None:
    """What the program writes; None where it has no answer."""
    with tempfile.TemporaryFile() as text:
        text.writelines(f"{line}\n".encode() for line in lines)
        text.seek(0)
        try:
            asked = subprocess.run([asking_program(), WORD], stdin=text, capture_output=True)
        except OSError:
            return None
    return asked.stdout if asked.returncode == 0 else None


def _lines(builds: Sequence[Build], stopped: set[str], manifest: Manifest, anchors: Sequence[int]) -> Iterator[str]:
    yield f"builds 1 {len(manifest.names)}"
    yield f"anchors {' '.join(map(str, anchors))}"
    yield f"moments {' '.join(map(str, MOMENTS))}"
    for it in builds:
        runs = it.plain_runs()
        if runs:
            yield " ".join(["stopped" if it.id in stopped else "build", runs, *map(str, it.failed)])


def _read(answer: bytes, commands: int, anchors: Sequence[int]) -> Goods | None:
    """The answer of the program; None where it has another form."""
    tables: dict[int, list[list[list[int]]]] = {it: [] for it in anchors}
    try:
        for line in answer.splitlines():
            it = json.loads(line)
            tables[it["anchor"]].append(it["passing"])
        return {anchor: dict(_rows(table, commands)) for anchor, table in tables.items()}
    except (ValueError, KeyError, IndexError, TypeError):
        return None


def _rows(table: Sequence[Sequence[Sequence[int]]], commands: int) -> Iterator[tuple[int, list[int]]]:
    """By each command how often it ended and began in each span. Of each moment the table has of each command in how
    many builds both ran, it had not ended, it had not begun, and it had not begun since Ninja had stopped before."""
    if len(table) != len(MOMENTS) or not all(len(it) == commands for it in table):
        raise ValueError
    for command in range(commands):
        both, never = table[0][command][0], table[0][command][3]
        if both + never:
            ended, begun = ([both - it[command][which] for it in table] for which in (1, 2))
            yield command, [*_spans(ended, both + never), *_spans(begun, both + never)]


def _spans(until: Sequence[int], in_all: int) -> list[int]:
    """How many are in each span, by how many are in it or before."""
    found = [later - earlier for earlier, later in zip([0, *until], [*until, in_all])]
    assert len(found) == SPANS
    return found
