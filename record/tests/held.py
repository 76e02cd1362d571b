#!/usr/bin/env python3
"""Holds the recorder's reading of rebug's rules to the program: reads a recording by the recorder's own modules
(manifest, depfiles, rules, listed), runs its events through these rules, and compares all that the program answers:
each reply with its numbers, the plan's marks and reasons, and at the end marks, stamps and both logs.

    held.py RECORDING...        as recorded, and ten times with some of its events changed, so that rules refuse

REBUG_PROGRAM names another program than crates/rebug/out/rebug. The last line has the counts.
"""

from __future__ import annotations

import os
import pathlib
import random
import subprocess
import sys
import tempfile

sys.dont_write_bytecode = True
HERE = pathlib.Path(__file__).resolve().parent
sys.path[:0] = [str(HERE.parent), str(HERE)]

from builds import LONGEST_SECONDS, unescaped  # noqa: E402
from recorder.depslog import paths_of  # noqa: E402
from recorder.events import WORDS, Event  # noqa: E402
from recorder.fields import line  # noqa: E402
from recorder.files import command  # noqa: E402
from recorder.manifest import Manifest  # noqa: E402
from recorder.rules import DONE, IDLE, RUNNING, WANTED, Build  # noqa: E402

BUILT = HERE.parents[1] / "crates/rebug/out/rebug"
KINDS = {word: kind for kind, word in WORDS.items()}


class Recorded:
    """A recording: its manifest, its opening, and the events of its one lane."""

    def __init__(self, folder: pathlib.Path):
        self.folder = folder
        self.manifest = Manifest(b"build.ninja", lambda name: (folder / os.fsdecode(name)).read_bytes())
        head, *lines = (folder / "trace").read_bytes().split(b"\n")[:-1]
        assert head == b"rebug-trace 1", head
        at = lines.index(b"lane 0")
        self.opening = lines[:at]
        self.jobs, self.stamps, self.built, self.deps, self.targets = 1, {}, {}, {}, []
        for text in self.opening:
            word, *rest = map(unescaped, text.split(b" "))
            if word == b"jobs":
                self.jobs = int(rest[0])
            elif word == b"stamp":
                self.stamps[rest[0]] = int(rest[1])
            elif word == b"built":
                self.built[rest[0]] = int(rest[1]), rest[2]
            elif word == b"deps":
                self.deps[rest[0]] = int(rest[1]), rest[2:]
            elif word == b"target":
                self.targets.append(rest[0])
        self.events = [self.event(it) for it in lines[at + 1 :]]

    def event(self, text: bytes) -> tuple:
        """An event as its word and the values of its fields."""
        word, *rest = map(unescaped, text.split(b" "))
        kind = word.decode()
        if kind == "plan":
            return kind, rest or self.targets
        if kind in ("finish", "fail", "abort"):
            stamps = [int(it) for it in rest[1].split(b",")]
            listing = {b"list": rest[3:], b"depfile": rest[3] if rest[3:] else b""}[rest[2]] if rest[2:] else None
            return (kind, rest[0], stamps) + (() if listing is None else (listing,))
        return kind, *rest[:1], *map(int, rest[1:])

    def build(self) -> Build:
        return Build(self.manifest, self.jobs, self.stamps, self.built, self.deps)


def answers(it: Recorded, events: list[tuple]) -> list[bytes]:
    """What the program is to answer to the script of `script`, by the recorder's rules."""
    build, lines = it.build(), []
    for number, event in enumerate(map(as_event, events), 1):
        refusal = build.refusal(event)
        lines.append(line(str(number), "0", *(["refused", *map(str, refusal)] if refusal else ["ok"])))
        if not refusal:
            build.do(event)
        if number == 1:
            lines += marks(build)
            for edge in asked(build):
                lines += [line("why", edge.name, *it) for it in build.reasons(edge)]
    return lines + marks(build) + state(build)


def asked(build: Build) -> list:
    """The edges whose own reasons a `why` tells: those that are wanted and have some."""
    return [it for it in build.edges if build.marks[it.number] == WANTED and build.reasons(it)]


def marks(build: Build) -> list[bytes]:
    lines = []
    for edge in build.edges:
        mark = build.marks[edge.number]
        more: list[str] = []
        if mark == RUNNING:
            job, slot, seen = build.running[edge.number]
            more = [str(job), "-" if slot is None else str(slot), str(seen)]
        elif mark == DONE:
            more = [",".join(map(str, sorted(build.changed.get(edge.number, ())))) or "-"]
        if mark != IDLE:
            lines.append(line("mark", str(edge.number), edge.name, mark, *more))
    lines += [line("job", str(job), str(number)) for job, number in sorted(build.jobs.items())]
    pools = [*build.manifest.pools]  # rebug numbers them in the manifest's order, from `console`, which is 0
    slots = sorted((pools.index(pool), slot, number) for (pool, slot), number in build.slots.items())
    lines += [line("slot", *map(str, it)) for it in slots]
    return lines + ([b"halted"] if build.halted else [])


def state(build: Build) -> list[bytes]:
    lines = [line("stamp", path, str(build.stamps[path])) for path in sorted(build.stamps) if build.stamps[path]]
    lines += [line("built", path, str(stamp), text) for path, (stamp, text) in sorted(build.built.items())]
    return lines + [line("deps", path, str(stamp), *paths_of(listing)) for path, (stamp, listing) in
                    sorted(build.deps.items())]


def replayed(it: Recorded, events: list[tuple], program: str) -> list[bytes]:
    """What the program answers."""
    first = it.build()
    plan = events[0]
    names = []
    if not first.refusal(as_event(plan)):
        first.do(as_event(plan))
        names = [edge.name for edge in asked(first)]
    script = [b"run 1", b"marks", *(line("why", it) for it in names), b"run", b"marks", b"stamps", b"logs"]
    with tempfile.TemporaryDirectory(prefix="rebug-held-") as room:
        folder = pathlib.Path(room)
        lines = [b"rebug-trace 1", *it.opening, b"lane 0", *(said(event) for event in events)]
        (folder / "trace").write_bytes(b"".join(text + b"\n" for text in lines))
        (folder / "script").write_bytes(b"".join(text + b"\n" for text in script))
        others = [os.fsdecode(name) for name, _, _ in it.manifest.files[1:]]
        words = [program, "--manifest", "build.ninja", "--trace", str(folder / "trace"), "--script",
                 str(folder / "script"), *others]
        done = subprocess.run(words, cwd=it.folder, stdin=subprocess.DEVNULL, capture_output=True,
                              timeout=LONGEST_SECONDS)
    return [text for text in done.stdout.split(b"\n")[:-1] if not text.startswith(b"depth ")]


def as_event(event: tuple) -> Event:
    """The event as the recorder's rules take it."""
    word, *rest = event
    return KINDS[word](*rest)


def said(event: tuple) -> bytes:
    return line("plan", *event[1]) if event[0] == "plan" else command(as_event(event))


def disturbed(it: Recorded, chance: random.Random) -> list[tuple]:
    """The events with some of them gone, said twice, earlier or later, about another edge, or with other numbers."""
    first, *events = it.events
    names = [edge.name for edge in it.manifest.edges]
    for _ in range(chance.randint(1, 4)):
        place = chance.randrange(len(events) + 1)
        what = chance.choice(["gone", "twice", "moved", "other", "touch", "interrupt", "plan", "stamps", "clean",
                              "pass"])
        if what in ("gone", "twice", "moved", "other") and events:
            event = events.pop(place % len(events))
            if what == "twice":
                events[place:place] = [event, event]
            elif what == "moved":
                events.insert(chance.randrange(len(events) + 1), event)
            elif what == "other" and len(event) > 1:
                events.insert(place, (event[0], chance.choice(names), *event[2:]))
        elif what == "touch":
            path = chance.choice(list(it.stamps) or [b"s"])
            events.insert(place, ("touch", path, chance.choice([0, 1, max(it.stamps.values(), default=0) + 1])))
        elif what == "interrupt":
            events.insert(place, ("interrupt",))
        elif what == "plan":
            events.insert(place, ("plan", chance.sample(names, k=1)))
        elif what in ("clean", "pass"):
            events.insert(place, (what, chance.choice(names)))
        elif what == "stamps":
            events = [other_stamps(it, chance) if chance.random() < 0.5 else it for it in events]
    return [first, *events]


def other_stamps(event: tuple, chance: random.Random) -> tuple:
    """The event, where it is the end of a command with stamps of long ago."""
    word, *rest = event
    if word not in ("finish", "fail"):
        return event
    return word, rest[0], [1 + chance.randrange(3) for _ in rest[1]], *rest[2:]


def differences(folder: pathlib.Path, program: str, chance: random.Random, times: int = 10) -> list[str]:
    """What the program answers otherwise, as sentences; none where the two agree."""
    it = Recorded(folder)
    found = []
    for turn in range(times + 1):
        events = it.events if not turn else disturbed(it, chance)
        rules, told = answers(it, events), replayed(it, events, program)
        if rules != told:
            at = next((place for place, pair in enumerate(zip(rules, told)) if pair[0] != pair[1]),
                      min(len(rules), len(told)))
            shown = lambda lines: lines[at].decode("utf-8", "backslashreplace")[:200] if at < len(lines) else "nothing"
            found.append(f"{folder}, turn {turn}: the recorder's rules say '{shown(rules)}', rebug '{shown(told)}'")
    return found


def main(words: list[str]) -> int:
    program = os.environ.get("REBUG_PROGRAM") or str(BUILT)
    if not words or words[0].startswith("-"):
        print(__doc__)
        return 2
    found = [text for it in words for text in differences(pathlib.Path(it), program, random.Random(it))]
    print(*found, f"{len(words)} recordings, {len(found)} differences", sep="\n")
    return 1 if found else 0


if __name__ == "__main__":
    sys.exit(main(sys.argv[1:]))
