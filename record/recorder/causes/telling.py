"""Tells which commands of two recordings left other bytes, and why: as words, and as JSON."""

from __future__ import annotations

import json
from collections.abc import Iterable, Iterator, Sequence

from ..fields import shown
from ..manifest import Edge
from ..provoke.races import shown_name
from ..reuse.recording import Recording
from .differing import OtherBytes, Side, other_bytes
from .judging import Doubt, Judge, Left, Outcome, Verdict
from .tracing import Causes

_MOST_NAMES, _MOST_LINES, _MOST_PLACES = 3, 8, 16
_ROOTS = (Verdict.FIRST, Verdict.SURROUNDINGS, Verdict.COMMAND, Verdict.UNCERTAIN)
_DOUBTS = {
    Doubt.FAILED: "it failed in one of the builds",
    Doubt.UNOBSERVED: "it was not observed in one of the builds",
    Doubt.FLAG: "it was not observed whole",
    Doubt.UNSURE: "it is not certain which bytes it met",
    Doubt.UNSETTLED: "it is not certain which bytes it left",
}
Sides = tuple[Side, Side]


class Teller:
    """Tells what two recordings say of the commands that ran in both."""

    def __init__(self, judge: Judge, sides: Sides | None, is_all: bool) -> None:
        self._judge, self._sides = judge, sides
        self._most = len(judge.outcomes) if is_all else _MOST_LINES
        self._outcomes, self._paths = judge.outcomes, judge.shared.paths
        self._causes = Causes(judge.outcomes)
        self._of = {verdict: [number for number, it in enumerate(judge.outcomes) if it.verdict is verdict]
                    for verdict in Verdict}

    def lines(self) -> Iterator[str]:
        """The answer in words."""
        judge, of = self._judge, self._of
        yield f"{_count(len(self._outcomes))} ran in both builds, {self._name(judge.one)} (A) and " \
              f"{self._name(judge.other)} (B); {len(of[Verdict.SAME]):,} met the same and left the same"
        for count, name in zip(judge.alone, "AB"):
            if count:
                yield f"  {_count(count)} ran in {name} alone"
        yield from self._surroundings()
        yield from self._section(Verdict.FIRST, "other bytes from the same (first causes: these commands are not "
                                                "deterministic)")
        yield from self._section(Verdict.SURROUNDINGS, f"other bytes from the same, in {self._others()}")
        yield from self._section(Verdict.COMMAND, "other bytes by another command line")
        yield from self._section(Verdict.UNCERTAIN, "not certain")
        yield from self._tree()
        absorbed = of[Verdict.ABSORBED]
        if absorbed:
            yield f"the same bytes from other bytes: {_count(len(absorbed))}"
            yield from self._some([f"  {self._met(number)}" for number in absorbed])

    def objects(self) -> Iterator[str]:
        """The answer as JSON objects."""
        depths = {it.number: it.depth for it in self._causes.tree() if it.number is not None}
        for number, it in enumerate(self._outcomes):
            if it.verdict is not Verdict.SAME:
                yield _json(kind=it.verdict.value, depth=depths.get(number), **self._members(number))
        judge = self._judge
        for place, commands in sorted(judge.beside.aside.items(), key=lambda it: self._paths[it[0]]):
            yield _json(kind="assumed", path=self._path(place), commands=commands)
        for recording, place in self._moved():
            yield _json(kind="moved", recording=self._name(recording), path=self._path(place))
        if judge.beside.others != []:
            others = judge.beside.others
            yield _json(kind="environment", others=None if others is None else list(map(shown_name, others)))
        one, other = judge.alone
        yield _json(kind="causes", one=self._name(judge.one), other=self._name(judge.other),
                    commands=len(self._outcomes), one_alone=one, other_alone=other,
                    other_folder=judge.has_other_folder, same=len(self._of[Verdict.SAME]),
                    first=len(self._of[Verdict.FIRST]), surroundings=len(self._of[Verdict.SURROUNDINGS]),
                    command=len(self._of[Verdict.COMMAND]), uncertain=len(self._of[Verdict.UNCERTAIN]),
                    propagated=len(self._of[Verdict.PROPAGATED]), absorbed=len(self._of[Verdict.ABSORBED]))

    def why_lines(self, number: int) -> Iterator[str]:
        """The chain from a command back to its first cause, in words."""
        for it in self._causes.chain(number):
            outcome = self._outcomes[it]
            yield f"{_place(outcome.edge)} {self._why(outcome)}"
            if outcome.verdict in _ROOTS:
                yield from self._bytes_of(outcome, "  ")
            source = self._source(it)
            if source is not None:
                yield f"{self._path(source)}: no command that ran in both builds left it otherwise before"

    def why_objects(self, number: int) -> Iterator[str]:
        """The chain as JSON objects."""
        for it in self._causes.chain(number):
            yield _json(kind="link", verdict=self._outcomes[it].verdict.value, **self._members(it))
            source = self._source(it)
            if source is not None:
                yield _json(kind="source", path=self._path(source))

    def _source(self, number: int) -> int | None:
        cause = self._causes.causes[number]
        return None if cause is None else cause.source

    def _why(self, it: Outcome) -> str:
        """What a link of the chain says of its command."""
        met = self._names(one.place for one in it.others)
        return {
            Verdict.SAME: "left the same bytes in both builds",
            Verdict.ABSORBED: f"left the same bytes in both builds, and met others: {met}",
            Verdict.FIRST: "left other bytes, and all that it met was the same"
                           f"{self._assuming(it)}: it is a first cause",
            Verdict.SURROUNDINGS: "left other bytes, and all that it met was the same, but it ran in "
                                  f"{self._others()}",
            Verdict.COMMAND: "left other bytes, and its command line is another one",
            Verdict.UNCERTAIN: f"may have left other bytes: {_DOUBTS[it.doubt]}" if it.doubt else "",
            Verdict.PROPAGATED: f"left other bytes, since it met others: {met}",
        }[it.verdict]

    def _surroundings(self) -> Iterator[str]:
        """What is said of the recordings as a whole."""
        judge = self._judge
        if judge.has_other_folder:
            yield "  the builds stood in two folders: paths below these are compared without them"
        if judge.beside.others is None:
            yield "  the environments cannot be compared: the recordings have two keys"
        elif judge.beside.others:
            yield f"  the environment of B has other values of {', '.join(map(shown_name, judge.beside.others))}"
        for recording, place in self._moved():
            yield f"  {self._path(place)} changed while {'A' if recording is judge.one else 'B'} was built, and no " \
                  "command changed it"
        for place, commands in sorted(judge.beside.aside.items(), key=lambda it: self._paths[it[0]]):
            yield f"  assumed: {self._path(place)} makes no difference: it differs, and {_count(commands)} met it " \
                  "and left the same bytes"

    def _moved(self) -> Iterator[tuple[Recording, int]]:
        """The places that changed while a build ran, and that none of its commands changed."""
        for it in (self._judge.one, self._judge.other):
            for place in sorted(it.moved, key=lambda it: self._paths[it]):
                yield it, place

    def _others(self) -> str:
        """What is another one of the two builds, by which a command may have left other bytes."""
        judge, its = self._judge, list[str]()
        if judge.has_other_folder:
            its.append("another folder")
        if judge.beside.others != []:
            its.append("another environment")
        return " and ".join(its)

    def _section(self, verdict: Verdict, title: str) -> Iterator[str]:
        """The commands with a verdict that follows from nothing."""
        numbers = self._of[verdict]
        if not numbers:
            return
        numbers = sorted(numbers, key=lambda it: -self._causes.followers[it])
        yield f"{title}: {_count(len(numbers))}"
        for number in numbers[: self._most]:
            it, followers = self._outcomes[number], self._causes.followers[number]
            yield f"  {_place(it.edge)}{self._about(it)}"
            yield from self._bytes_of(it, "    ")
            if followers:
                yield f"    {_count(followers)} behind it left other bytes for it"
        if numbers[self._most :]:
            yield f"  and {len(numbers) - self._most:,} more (--all prints them)"

    def _about(self, it: Outcome) -> str:
        """What the line of a command says of it."""
        left = f"; left otherwise: {self._names(one.place for one in it.left)}" if it.left else ""
        if it.verdict is Verdict.UNCERTAIN and it.doubt is not None:
            flags = sorted({shown(flag) for flag in it.flags})
            return f": {_DOUBTS[it.doubt]}{' (' * bool(flags)}{', '.join(flags)}{')' * bool(flags)}{left}"
        if it.verdict is Verdict.COMMAND:
            return left.replace(";", ":", 1)
        return f": {it.looks:,} look{'' if it.looks == 1 else 's'}, all answered alike{self._assuming(it)}{left}"

    def _assuming(self, it: Outcome) -> str:
        """On which places that are set aside a verdict depends."""
        return f" but for what is assumed of {self._names(it.aside)}" if it.aside else ""

    def _bytes_of(self, it: Outcome, indent: str) -> Iterator[str]:
        """Which bytes of a command's files differ."""
        for one in it.left[:_MOST_NAMES]:
            found = self._difference(one)
            if isinstance(found, str):
                yield f"{indent}{self._path(one.place)}: {found}"
            elif found is not None:
                one_size, other_size = found.sizes
                size = f"{one_size:,}" + f" and {other_size:,}" * (one_size != other_size)
                yield f"{indent}{self._path(one.place)}: {found.count:,} of {size} bytes differ, the first at " \
                      f"{found.at:,}: {found.texts[0]} / {found.texts[1]}"
                if found.looks is not None:
                    yield f"{indent}that looks like {found.looks.value}"

    def _difference(self, it: Left) -> OtherBytes | str | None:
        """Where the files at a place differ; None where no folders with files were named."""
        if self._sides is None:
            return None
        path, build = self._paths[it.place], self._judge.one.entries.build + b"/"
        if not path.startswith(build):
            return "it is not below the build folder"
        contents = self._judge.shared.contents
        before, now = (None if answer is None else contents[answer] for answer in (it.before, it.now))
        return other_bytes(path[len(build) :], self._sides, (before, now))

    def _tree(self) -> Iterator[str]:
        """The commands that follow from others, below these."""
        numbers = self._of[Verdict.PROPAGATED]
        if not numbers:
            return
        yield f"other bytes from other bytes, below what they follow from: {_count(len(numbers))}"
        count = 0
        for it in self._causes.tree():
            indent = "  " * (it.depth + 1)
            if it.number is None:
                source = "" if it.source is None else self._path(it.source)
                line = f"{source}, which no command left otherwise before"
            else:
                count += self._outcomes[it.number].verdict is Verdict.PROPAGATED
                line = self._met(it.number) if it.depth else _place(self._outcomes[it.number].edge)
            if count > 2 * self._most:
                yield f"  and {len(numbers) - count + 1:,} more (--all prints them)"
                return
            yield indent + line

    def _met(self, number: int) -> str:
        """A command with the places that answered it otherwise."""
        it = self._outcomes[number]
        names = self._names(one.place for one in it.others)
        return f"{_place(it.edge)}: {names} differ{'s' * (len(it.others) == 1)}"

    def _some(self, lines: Sequence[str]) -> Iterator[str]:
        yield from lines[: self._most]
        if lines[self._most :]:
            yield f"  and {len(lines) - self._most:,} more (--all prints them)"

    def _members(self, number: int) -> dict[str, object]:
        """What JSON has of a command."""
        it, cause, word = self._outcomes[number], self._causes.causes[number], self._judge.shared.word
        others = [{"path": self._path(one.place), "before": word(one.before), "now": word(one.now)}
                  for one in it.others[:_MOST_PLACES]]
        behind = None if cause is None or cause.behind is None else self._outcomes[cause.behind].edge
        return {"output": shown_name(it.edge.name), "file": shown_name(it.edge.file), "line": it.edge.line,
                "rule": shown_name(it.edge.rule), "looks": it.looks, "followers": self._causes.followers[number],
                "left": [self._left(it, one) for one in it.left[:_MOST_PLACES]],
                "more_left": max(0, len(it.left) - _MOST_PLACES),
                "differs": others, "more_differs": max(0, len(it.others) - _MOST_PLACES),
                "assumed": [self._path(place) for place in it.aside[:_MOST_PLACES]],
                "behind": None if behind is None else shown_name(behind.name),
                "source": None if cause is None or cause.source is None else self._path(cause.source),
                "doubt": None if it.doubt is None else it.doubt.value,
                "flags": sorted({shown_name(flag) for flag in it.flags})}

    def _left(self, it: Outcome, one: Left) -> dict[str, object]:
        """A place that two runs left otherwise, and where its bytes differ."""
        word = self._judge.shared.word
        before, now = (None if answer is None else word(answer) for answer in (one.before, one.now))
        found = self._difference(one) if it.verdict in _ROOTS else None
        its: dict[str, object] | None = None
        if isinstance(found, OtherBytes):
            its = {"at": found.at, "count": found.count, "sizes": list(found.sizes), "texts": list(found.texts),
                   "looks": None if found.looks is None else found.looks.value}
        return {"path": self._path(one.place), "before": before, "now": now, "bytes": its,
                "no_bytes": found if isinstance(found, str) else None}

    def _names(self, places: Iterable[int]) -> str:
        names = list(map(self._path, places))
        return ", ".join(names[:_MOST_NAMES]) + f" and {len(names) - _MOST_NAMES:,} more" * bool(names[_MOST_NAMES:])

    def _path(self, place: int) -> str:
        """A place by its path, from the build folder where it is below that."""
        return shown_name(self._paths[place].removeprefix(self._judge.one.entries.build + b"/") or b"./")

    def _name(self, recording: Recording) -> str:
        return shown_name(recording.folder.encode("utf-8", "surrogateescape"))


def _place(edge: Edge) -> str:
    return f"{shown_name(edge.name)} ({shown_name(edge.file)}:{edge.line})"


def _json(**members: object) -> str:
    return json.dumps(members, sort_keys=True)


def _count(number: int) -> str:
    return f"{number:,} command{'' if number == 1 else 's'}"
