"""What the page has of a recording: the answers of rebug as columns of numbers and texts."""

from __future__ import annotations

import itertools
import os
import re
from dataclasses import dataclass, field
from typing import Any, Iterator

from ..provoke.races import Observed, name_of, shown_name
from ..regular import read_regular
from . import telling
from .asking import NotAsked, Object, Recording
from .statements import statements
from .texts import NONE, Chunks, Texts, ends_of, folder_of

MOST_ASKED = 1_500
"""Of a recording with more edges the statements are those that the recorder reads, and not those of the program."""
_LISTS = ("explicit", "implicit", "order_only", "validations", "outputs", "implicit_outputs")
_TEXTS = ("rule", "command", "depfile", "response_file", "pool")
CHAIN = -3
"""What stands in place of a cell's number is this less the number, where an event stands for all behind it: for those
on which it rests by that cell."""
_NEAREST = 4
"""One of so many events stands for all behind it: by a job, that is the last start in it, behind its end."""
_UNTOLD = ("command", "ran")
_OBSERVED = ("reads", "writes", "edits", "deletes", "temps")


@dataclass
class Pages:
    """What the page has of a recording: what its first look needs, and what is read behind that."""

    first: Object
    behind: Object


@dataclass
class _Overview:
    """The columns of the first look, as they are made."""

    texts: Texts = field(default_factory=Texts)
    place_of: dict[int, int] = field(default_factory=dict)
    events: dict[str, list[Any]] = field(
        default_factory=lambda: {it: [] for it in ("number", "kind", "path", "job", "time", "words")})
    needs: dict[str, list[int]] = field(default_factory=lambda: {"count": [], "back": [], "through": []})
    _by: list[dict[int, list[int]]] = field(default_factory=list)
    looks: list[list[int]] = field(default_factory=list)

    def add_event(self, it: Object) -> None:
        """Takes a kept event. Of its words those are left out that its kind, path and job give."""
        self.place_of[it["number"]] = len(self.place_of)
        job, path = it["job"], it["path"]
        usual = f"{it['kind']} {path}" + (f" (job {job})" if job is not None else "")
        self.events["number"].append(it["number"])
        self.events["kind"].append(self.texts.number(it["kind"]))
        self.events["path"].append(self.texts.number(path))
        self.events["job"].append(NONE if job is None else job)
        self.events["time"].append(NONE if it["time"] is None else it["time"])
        self.events["words"].append(NONE if it["words"] == usual else self.texts.number(it["words"]))

    def add_needs(self, at: int, it: Object) -> None:
        """Takes what the event at this place rests on: each earlier event by how far back it stands. By one cell the
        event often rests on an earlier one and on all that this one rests on by that cell, as by a job. Then the
        earlier one stands for all of them (CHAIN)."""
        by: dict[int, list[int]] = {}
        for link in it["events"]:
            by.setdefault(self.texts.number(link["through"]), []).append(self.place_of[link["event"]["number"]])
        written = 0
        for through, places in by.items():
            places.sort(reverse=True)
            chain = self._chain(places, through)
            for place in places[: chain + 1]:
                self.needs["back"].append(at - place)
                self.needs["through"].append(through)
                written += 1
            if chain < len(places):
                self.needs["through"][-1] = CHAIN - through
        self.needs["count"].append(written)
        self._by.append(by)
        for look in it["observed"] or ():
            earlier = self.place_of.get(look["event"]["number"])
            if earlier is not None:
                self.looks.append([at, earlier, self.texts.number(look["path"]), self.texts.number(look["how"])])

    def _chain(self, places: list[int], through: int) -> int:
        """Where among places, from the nearest on, one stands that rests by this cell on all places behind it, or how
        many places there are."""
        for at, place in enumerate(places[:_NEAREST]):
            known = self._by[place].get(through, [])
            if len(known) == len(places) - at - 1 > 1 and known == places[at + 1 :]:
                return at
        return len(places)


@dataclass
class _Details:
    """The columns of what is read behind the first look, as they are made."""

    texts: Texts = field(default_factory=Texts)
    chunks: Chunks = field(default_factory=Chunks)
    columns: dict[str, list[Any]] = field(
        default_factory=lambda: {it: [] for it in (*_TEXTS, *_LISTS, "flags", "depth", "listed", "besides")})

    def add_edge(self, it: Object) -> None:
        """Takes what `edge` answers; an empty object where rebug knows the edge by no name."""
        for name in _TEXTS:
            self.columns[name].append(self.texts.number(it.get(name)))
        for name in _LISTS:
            self.columns[name].append(self.texts.numbers(it.get(name, ())))
        self.columns["flags"].append(self.texts.numbers(it.get("flags", ())))
        depth = it.get("depth")
        self.columns["depth"].append(NONE if depth is None else depth)
        self.columns["listed"].append(self.chunks.numbers(self.texts.numbers(it.get("listed", ()))))
        besides = it.get("read_besides")
        self.columns["besides"].append(None if besides is None else self.chunks.numbers(self.texts.numbers(besides)))


def pages_of(recording: Recording) -> Pages:
    """What the page has of a recording, by two sessions of the prompt. Raises NotAsked."""
    try:
        return _pages_of(recording)
    except (KeyError, TypeError, AttributeError, IndexError) as why:
        raise NotAsked(f"{recording.program} answers in a way that is not understood: {why!r}", 3) from why


def _pages_of(recording: Recording) -> Pages:
    asked = ["run", "kept all", "edges", "critical", "races all", "marks"]
    head, ran, kept, edges, critical, races, marks = recording.session(asked)
    overview = _Overview()
    for it in kept["events"]:
        overview.add_event(it)
    listed = edges["edges"]
    names = [it["output"] for it in listed]
    details, is_asked = _Details(), len(names) <= MOST_ASKED
    answers = recording.session(_questions(overview, is_asked))
    next(answers), next(answers)
    for at in range(len(overview.place_of)):
        overview.add_needs(at, next(answers))
    whys = _by_name(next(answers), "path")
    reasons = [telling.reasons(whys[name]) if name in whys else None for name in names]
    found = _by_name(next(answers), "output") if is_asked else {}
    for _ in answers:
        pass
    is_whole = all(name in found for name in names)
    read = (found[it] for it in names) if is_whole else statements(recording.folder)
    for it in itertools.islice(itertools.chain(read, itertools.repeat({})), len(names)):
        details.add_edge(it)
    first: Object = {
        "name": recording.folder, "commands": head["commands"], "jobs": head["lanes"], "refused": ran["refused"],
        "running": ran["running"], "events": overview.events, "needs": overview.needs, "looks": overview.looks,
        "edges": {"output": overview.texts.numbers(names), "line": [it["line"] for it in listed],
                  "file": [overview.texts.number(it["file"]) for it in listed],
                  "label": ends_of(names), "folder": overview.texts.numbers([folder_of(it) for it in names]),
                  "target": _targets(recording.folder, overview.texts, len(names))},
        "runs": _runs(overview, names), "wanted": _wanted(marks["lines"], names),
        "critical": [it["began"] for it in critical.get("runs", ())],
        "findings": [telling.finding(it) for it in races["findings"] if it["kind"] not in _UNTOLD],
    }
    first["texts"] = overview.texts.all
    behind: Object = {**details.columns, "reasons": reasons, "observed": _observed(recording.folder, names)}
    behind |= {"texts": details.texts.all, "chunks": details.chunks.all}
    return Pages(first, behind)


def _questions(overview: _Overview, is_asked: bool) -> Iterator[str]:
    yield "run"
    for number in overview.place_of:
        yield f"needs {number}"
    yield "why * --all"
    if is_asked:
        yield "edge * --all"


def _by_name(it: Object, member: str) -> dict[str, Object]:
    """The answers about each edge, by the name of its output, which a member has. Where an output is called `*`, the
    one answer is about this one."""
    return {one[member]: one for one in it.get("answers", (it,)) if member in one}


_STATES = {"finish": "ok", "fail": "failed", "abort": "stopped"}


def _runs(overview: _Overview, names: list[str]) -> dict[str, list[int]]:
    """The runs of commands: each start with the event that ends it, or NONE, its edge, or NONE, and how it ended."""
    texts, events = overview.texts, overview.events
    edges = {texts.number(name): edge for edge, name in enumerate(names)}
    runs: dict[str, list[int]] = {it: [] for it in ("start", "end", "edge", "state")}
    begun: dict[int, int] = {}
    for at, (kind, path) in enumerate(zip(events["kind"], events["path"])):
        if texts.all[kind] == "start":
            begun[path] = len(runs["start"])
            for name, it in (("start", at), ("end", NONE), ("edge", edges.get(path, NONE)),
                             ("state", texts.number("running"))):
                runs[name].append(it)
        elif texts.all[kind] in _STATES and path in begun:
            run = begun.pop(path)
            runs["end"][run], runs["state"][run] = at, texts.number(_STATES[texts.all[kind]])
    return runs


def _wanted(lines: list[str], names: list[str]) -> list[int]:
    """The edges that a plan still wants at the end, by the lines of marks."""
    places = {name: place for place, name in enumerate(names)}
    fields = [it.split(" ") for it in lines]
    return [places[it[2]] for it in fields if it[0] == "mark" and it[3:4] == ["wanted"] and it[2] in places]


def _content(folder: str, name: str) -> bytes | None:
    """The bytes of a file of the recording; None where it cannot be read."""
    if os.path.isfile(folder):
        folder = os.path.dirname(folder) or "."
    try:
        return read_regular(os.path.join(folder, name))
    except OSError:
        return None


_ROLE = re.compile(rb"[a-z-]+((?: [0-9]{1,8}(?:-[0-9]{1,8})?)+)")


def _targets(folder: str, texts: Texts, count: int) -> list[int]:
    """The target that each edge is of, as the recording's file of targets has it, or NONE."""
    found, name = [NONE] * count, NONE
    for line in (_content(folder, "targets") or b"").split(b"\n"):
        if line.startswith(b"target "):
            fields = line.split(b" ")
            name = texts.number(shown_name(name_of(fields[2].decode("ascii", "replace")))) if len(fields) > 2 else NONE
        elif name != NONE and (role := _ROLE.fullmatch(line)) and not line.startswith(b"at "):
            for it in role[1].split():
                first, _, last = it.partition(b"-")
                for number in range(int(first), min(int(last or first) + 1, count)):
                    found[number] = name
    return found


def _observed(folder: str, names: list[str]) -> Object | None:
    """What the commands were observed to do: paths, and of each edge that was observed ranges of their numbers."""
    content = _content(folder, "observed")
    if content is None:
        return None
    seen = Observed.read(content)
    places = {name: place for place, name in enumerate(names)}
    of: dict[int, Object] = {}
    for output, uses in seen.of.items():
        place = places.get(shown_name(output))
        if place is not None:
            of[place] = {kind: [it for one in uses[kind] for it in one] for kind in _OBSERVED if kind in uses}
    return {"paths": [shown_name(it) for it in seen.paths], "of": of}
