"""What becomes of the commands, in words and as JSON."""

from __future__ import annotations

import json
from collections import Counter
from collections.abc import Iterable, Iterator, Sequence

from ..fields import shown
from ..manifest import Edge
from ..provoke.races import shown_name
from .cutting import Cut, Mend, Rule
from .judging import Case, Judge, Reason, Verdict

_MOST_NAMES, _MOST_RULES, _MOST_PLACES = 3, 8, 16
_MENDS = {
    Mend.RESTAT: "restat = 1",
    Mend.COPY: "a copy if different, beside restat = 1",
    Mend.BOTH: "restat = 1, and a copy if different",
}
_WHYS = {
    Reason.NEW: "no earlier run that ended well",
    Reason.COMMAND: "another command line",
    Reason.ENVIRONMENT: "another environment",
}
_DOUBTS = {
    Reason.FLAG: "not observed whole",
    Reason.UNSURE: "not certain which bytes they met",
    Reason.UNOBSERVED: "not observed",
    Reason.NO_CONTENTS: "run before in a recording without contents",
    Reason.KEY: "run before in an environment that cannot be compared",
    Reason.FAILED: "failed",
}


class Teller:
    """Tells what becomes of the commands of a recording."""

    def __init__(self, judge: Judge, cases: Sequence[Case], cut: Cut) -> None:
        self._judge, self._cases, self._cut = judge, cases, cut
        self._times = judge.new.history.milliseconds
        self._paths = judge.shared.paths
        self._of = {it: [case for case in cases if case.verdict is it] for it in Verdict}

    @property
    def is_found(self) -> bool:
        """Whether something would have been saved."""
        return bool(self._of[Verdict.SERVED] or self._cut.saved)

    @property
    def is_whole(self) -> bool:
        """Whether each command was judged."""
        return not self._of[Verdict.UNKNOWN]

    def lines(self) -> Iterator[str]:
        """The answer in words."""
        of, cases = self._of, self._cases
        yield f"{_count(len(cases))} ran{self._time(cases)}"
        served, same = of[Verdict.SERVED], of[Verdict.SAME]
        yield f"{self._sum(served)} would have been served: earlier runs met the same"
        yield from self._by_rule(served)
        yield from self._other_bytes(served)
        yield f"{self._sum(same)} met something else, and left what was there before"
        yield from self._by_rule(same)
        yield f"{self._sum(of[Verdict.RUN])} had to run"
        yield from self._by_rule(of[Verdict.RUN])
        yield from self._whys([*same, *of[Verdict.RUN]])
        if of[Verdict.UNKNOWN]:
            yield f"{self._sum(of[Verdict.UNKNOWN])} cannot be judged"
            yield from self._doubts(of[Verdict.UNKNOWN])
        yield from self._cutoff()
        yield from self._assumed()

    def objects(self) -> Iterator[str]:
        """The answer as JSON objects."""
        saved = {it.number for it in self._cut.saved}
        for case in self._cases:
            yield self._object(case, case.edge.number in saved)
        for rule in self._rules():
            yield _json(kind="rule", rule=shown_name(rule.name), makers=len(rule.makers), **self._totals(rule.saved),
                        first=_place(rule.makers[0]), mend=rule.mend.value)
        for number, path, commands in self._aside():
            yield _json(kind="assumed", path=path, commands=commands, recording=self._name(number))
        for number, names in self._variables():
            yield _json(kind="environment", recording=self._name(number),
                        others=None if names is None else list(map(shown_name, names)))
        words = {"served": Verdict.SERVED, "same": Verdict.SAME, "run": Verdict.RUN, "unknown": Verdict.UNKNOWN}
        totals = {word: self._totals(case.edge for case in self._of[it]) for word, it in words.items()}
        yield _json(kind="reuse", **self._totals(it.edge for it in self._cases), **totals,
                    other_bytes=sum(it.left_same is False for it in self._of[Verdict.SERVED]),
                    cutoff=self._totals(self._cut.saved), several=self._totals(self._cut.several),
                    stale=len(self._cut.stale), without_time=self._without_time(self._cases))

    def _object(self, case: Case, is_saved: bool) -> str:
        flags = sorted({shown_name(it) for it in case.flags})
        word = self._judge.shared.word
        others = [{"path": self._path(it.place), "before": word(it.before), "now": word(it.now)}
                  for it in case.others[:_MOST_PLACES]]
        return _json(kind="command", **_place(case.edge), rule=shown_name(case.edge.rule),
                     milliseconds=self._times.get(case.edge.number), verdict=case.verdict.value,
                     reason=case.reason.value if case.reason else None, flags=flags,
                     recording=None if case.earlier is None else self._name(case.earlier),
                     left_same=case.left_same, is_same=case.is_same, cutoff=is_saved,
                     assumed=[self._path(it) for it in case.aside[:_MOST_PLACES]], others=others,
                     more=max(0, len(case.others) - _MOST_PLACES))

    def _path(self, place: int) -> str:
        """A place by its path, from the build folder where it is below that."""
        return shown_name(self._paths[place].removeprefix(self._judge.new.entries.build + b"/") or b"./")

    def _name(self, number: int) -> str:
        return shown_name(self._judge.earlier[number].recording.folder.encode("utf-8", "surrogateescape"))

    def _rules(self) -> list[Rule]:
        """The rules with which a cutoff saves something, the one that saves most time first."""
        found = [it for it in self._cut.rules.values() if it.saved or self._cut.several]
        return sorted(found, key=lambda it: (-self._of_edges(it.saved), -len(it.saved), it.name))

    def _by_rule(self, cases: Sequence[Case]) -> Iterator[str]:
        rules: dict[bytes, list[Case]] = {}
        for case in cases:
            rules.setdefault(case.edge.rule, []).append(case)
        its = sorted(rules.items(), key=lambda it: (-self._of_edges(case.edge for case in it[1]), -len(it[1]), it[0]))
        for name, found in its[:_MOST_RULES]:
            yield f"  rule {shown_name(name)}: {self._sum(found)}, as {_name(found[0].edge)}"
        if its[_MOST_RULES:]:
            rest = [case for _, found in its[_MOST_RULES:] for case in found]
            yield f"  {len(its) - _MOST_RULES:,} more rules: {self._sum(rest)}"

    def _other_bytes(self, served: Sequence[Case]) -> Iterator[str]:
        others = [it.edge for it in served if it.left_same is False]
        if others:
            yield f"  {len(others):,} of these left other bytes this time, so they are not deterministic: " \
                  f"{_some(others)}"

    def _whys(self, cases: Sequence[Case]) -> Iterator[str]:
        """Why commands were not served: each reason, and the places that differ for most commands."""
        if cases:
            yield "why these were not served:"
        for reason, said in _WHYS.items():
            count = sum(it.reason is reason for it in cases)
            if count:
                yield f"  {_count(count)} had {said}"
        places = Counter(one.place for it in cases for one in it.others)
        for place, count in sorted(places.items(), key=lambda it: (-it[1], self._paths[it[0]]))[:_MOST_NAMES]:
            yield f"  {_count(count)} met something else at {self._path(place)}"
        if places and len(places) > _MOST_NAMES:
            yield f"  and so at {len(places) - _MOST_NAMES:,} more places"
        for number, names in self._variables():
            said = "cannot be compared" if names is None else f"has other values of {', '.join(map(shown_name, names))}"
            yield f"  the environment of {self._name(number)} {said}"

    def _doubts(self, cases: Sequence[Case]) -> Iterator[str]:
        for reason, said in _DOUBTS.items():
            found = [it for it in cases if it.reason is reason]
            flags = sorted({shown(flag) for it in found for flag in it.flags})
            if found:
                yield f"  {self._sum(found)} {said}{' (' * bool(flags)}{', '.join(flags)}{')' * bool(flags)}: " \
                      f"{_some([it.edge for it in found])}"

    def _cutoff(self) -> Iterator[str]:
        cut = self._cut
        yield f"{self._sum_of(cut.saved)} would not have run with an early cutoff"
        for rule in self._rules():
            if rule.saved:
                yield f"  rule {shown_name(rule.name)}: {self._sum_of(rule.saved)} behind " \
                      f"{len(rule.makers):,} of its own, as {_name(rule.makers[0])}"
                yield f"    mend: {_MENDS[rule.mend]}"
        if cut.several:
            yield f"  {self._sum_of(cut.several)} by several rules together: {_some(cut.several)}"
        if cut.stale:
            yield f"  {_count(len(cut.stale))} would not have run either, and would then be stale, since they met " \
                  f"other bytes at places that they do not declare: {_some(cut.stale)}"

    def _assumed(self) -> Iterator[str]:
        for number, path, commands in self._aside():
            yield f"assumed: {path} makes no difference: it is not as in {self._name(number)}, and " \
                  f"{_count(commands)} met it and left the same bytes"

    def _aside(self) -> Iterator[tuple[int, str, int]]:
        """The places that were set aside and on which an answer depends, each with how many commands speak for it."""
        used = {(case.earlier, place) for case in self._of[Verdict.SERVED] for place in case.aside}
        for number, it in enumerate(self._judge.earlier):
            for place in sorted(it.aside, key=lambda it: self._paths[it]):
                if (number, place) in used:
                    yield number, self._path(place), it.aside[place]

    def _variables(self) -> Iterator[tuple[int, list[bytes] | None]]:
        """The recordings whose environment is another one or cannot be compared."""
        return ((number, it.others) for number, it in enumerate(self._judge.earlier) if it.others != [])

    def _of_edges(self, edges: Iterable[Edge]) -> int:
        """How many milliseconds commands ran."""
        return sum(self._times.get(it.number, 0) for it in edges)

    def _sum(self, cases: Sequence[Case]) -> str:
        return self._sum_of([it.edge for it in cases])

    def _sum_of(self, edges: Sequence[Edge]) -> str:
        known = any(it.number in self._times for it in edges)
        return _count(len(edges)) + f" ({self._of_edges(edges) / 1000:.1f} s)" * known

    def _time(self, cases: Sequence[Case]) -> str:
        lacking = self._without_time(cases)
        known = f", {self._of_edges(it.edge for it in cases) / 1000:.1f} s in all" * (lacking < len(cases))
        return known + f"; of {lacking:,} it is not known how long" * bool(lacking)

    def _without_time(self, cases: Sequence[Case]) -> int:
        return sum(it.edge.number not in self._times for it in cases)

    def _totals(self, edges: Iterable[Edge]) -> dict[str, object]:
        its = list(edges)
        return {"commands": len(its), "milliseconds": self._of_edges(its)}


def _place(edge: Edge) -> dict[str, object]:
    return {"output": shown_name(edge.name), "file": shown_name(edge.file), "line": edge.line}


def _json(**members: object) -> str:
    return json.dumps(members, sort_keys=True)


def _some(edges: Sequence[Edge]) -> str:
    more = f" and {len(edges) - _MOST_NAMES:,} more" if edges[_MOST_NAMES:] else ""
    return ", ".join(map(_name, edges[:_MOST_NAMES])) + more


def _name(edge: Edge) -> str:
    return f"{shown_name(edge.name)} ({shown_name(edge.file)}:{edge.line})"


def _count(number: int) -> str:
    return f"{number:,} command{'' if number == 1 else 's'}"
