"""Chooses edits that mend findings, as few as can be, and tries them: the generator writes the manifest anew in a copy
of the folders, and there each user has to wait for its maker."""

from __future__ import annotations

import os
import time
from dataclasses import dataclass, field
from typing import Callable

from ..manifest import Edge, Manifest
from .asking import Asked, Asker, GeneratorRefused
from .edits import Edit, NoPlace, edited
from .findings import Finding
from .proposer import Proposer
from .proposing import CannotEdit, Candidate, Proposal, waits

MOST_TRIES = 60
_SECONDS_TO_LEAVE_OUT = 60.0
_MOST_NAMED = 3


@dataclass
class Mend:
    """A candidate that was tried and taken, and the numbers of the findings that it is for."""

    candidate: Candidate
    numbers: list[int]


@dataclass
class Left:
    """A finding that no edit mends: why, what is to be done in general, and what was tried with what came of it."""

    finding: Finding
    why: str
    advice: str
    tried: list[tuple[str, str]] = field(default_factory=list)


@dataclass
class Outcome:
    """What came of it. `already` are the numbers of the findings whose user waits for the maker as the sources are now,
    `texts` are the new texts of files, and `waits` says how many pairs of commands have an order that had none."""

    already: list[int] = field(default_factory=list)
    mends: list[Mend] = field(default_factory=list)
    left: list[Left] = field(default_factory=list)
    texts: dict[str, str] = field(default_factory=dict)
    waits: int | None = None
    tries: int = 0


@dataclass
class _Tried:
    """What came of one try: of each finding that is not mended why, and of all of them where the generator refused."""

    why: str = ""
    of_finding: dict[int, str] = field(default_factory=dict)
    asked: Asked | None = None

    @property
    def is_good(self) -> bool:
        """Whether all that was tried holds."""
        return not self.why and not self.of_finding


class Mender:
    """Mends the findings of a recording in the files of its generator."""

    def __init__(self, asker: Asker, asked: Asked, proposer: Proposer, tell: Callable[[str], None]) -> None:
        self.asker, self.asked, self.proposer, self.tell = asker, asked, proposer, tell
        self.manifest = proposer.ground.manifest
        self.commands = _commands(self.manifest)
        self.tries = 0
        self.struck: dict[tuple[int, tuple[Edit, ...]], str] = {}
        self.best: tuple[list[Mend], _Tried] = [], _Tried()

    def mend(self, findings: list[Finding]) -> Outcome:
        """Chooses and tries. Raises what a copy raises."""
        found = Outcome([it.number for it in findings if self._is_mended(it)])
        proposals = [self.proposer.proposal(it) for it in findings if it.number not in found.already]
        found.mends, tried = self._chosen(proposals)
        found.mends, tried = self._left_out(found.mends, tried)
        found.mends, tried = self._with_extras(findings, found.mends, tried)
        found.texts = self._texts(found.mends)
        mended = {number for it in found.mends for number in it.numbers}
        for proposal in proposals:
            if proposal.finding.number not in mended:
                found.left.append(self._left(proposal))
        if tried.asked is not None:
            found.waits = _added_orders(self.manifest, tried.asked.manifest())
        found.tries = self.tries
        return found

    def _is_mended(self, finding: Finding) -> bool:
        """Whether the user waits for the maker in the manifest that the sources give now."""
        if not finding.is_order:
            return False
        user, maker = (self.proposer.ground.edge(it) for it in (finding.user, finding.maker))
        return user is not None and maker is not None and waits(self.manifest, user, maker)

    # Choosing

    def _choose(self, proposals: list[Proposal]) -> list[Mend]:
        """Candidates that are for all findings that have one: each time the one that is for most of those that are
        left, of several the one that the findings have first."""
        open_ones = {it.finding.number: [c for c in it.candidates if (it.finding.number, c.edits) not in self.struck]
                     for it in proposals}
        found: list[Mend] = []
        left = {number for number, them in open_ones.items() if them}
        while left:
            votes: dict[tuple[Edit, ...], tuple[Candidate, list[int], list[int]]] = {}
            for number in sorted(left):
                for rank, candidate in enumerate(open_ones[number]):
                    _, numbers, ranks = votes.setdefault(candidate.edits, (candidate, [], []))
                    numbers.append(number)
                    ranks.append(rank)
            best = min(votes.values(), key=lambda it: (-len(it[1]), sum(it[2]), len(it[0].edits)))
            found.append(Mend(best[0], best[1]))
            left -= set(best[1])
        return found

    def _chosen(self, proposals: list[Proposal]) -> tuple[list[Mend], _Tried]:
        """Candidates that hold together. What does not hold is struck out, and others are chosen. Where there is no try
        left, the most that held together are taken."""
        while self.tries < MOST_TRIES:
            chosen = self._choose(proposals)
            if not chosen:
                break
            tried = self._try(chosen)
            if tried.is_good:
                return chosen, tried
            self._part(chosen, tried)
        return self.best

    def _part(self, mends: list[Mend], tried: _Tried) -> None:
        """Strikes out what does not hold of edits that did not hold together: by halves, where the generator refuses
        them."""
        if len(mends) == 1 or not tried.why:
            self._strike(mends, tried)
            return
        middle, is_good = len(mends) // 2, True
        for half in (mends[:middle], mends[middle:]):
            if self.tries < MOST_TRIES:
                one = self._try(half)
                is_good = is_good and one.is_good
                if not one.is_good:
                    self._part(half, one)
                elif sum(len(it.numbers) for it in half) > sum(len(it.numbers) for it in self.best[0]):
                    self.best = half, one
        if is_good:
            self._strike(mends[-1:], _Tried(f"not beside the other edits: {tried.why}"))

    def _strike(self, mends: list[Mend], tried: _Tried) -> None:
        """Notes of each finding why the edit that was chosen for it does not mend it."""
        for it in mends:
            for number in it.numbers:
                why = tried.why or tried.of_finding.get(number, "")
                if why:
                    self.struck[number, it.candidate.edits] = why

    def _left_out(self, mends: list[Mend], tried: _Tried) -> tuple[list[Mend], _Tried]:
        """Fewer edits where some of them make others unnecessary, as far as there is time to try that."""
        until = time.monotonic() + _SECONDS_TO_LEAVE_OUT
        orders = {it.number for it in self.proposer.ground.findings if it.is_order}
        for it in sorted(mends, key=lambda it: len(it.numbers)):
            if not set(it.numbers) <= orders:
                continue
            if len(mends) < 2 or time.monotonic() + self.asked.seconds > until or self.tries >= MOST_TRIES:
                break
            fewer = [other for other in mends if other is not it]
            lacking = [number for number in it.numbers if not any(number in other.numbers for other in fewer)]
            without = self._try(fewer, lacking)
            if without.is_good:
                fewer[0].numbers = sorted({*fewer[0].numbers, *lacking})
                mends, tried = fewer, without
        return mends, tried

    def _with_extras(self, findings: list[Finding], mends: list[Mend], tried: _Tried) -> tuple[list[Mend], _Tried]:
        """Adds what a next build misses, where the generator takes it."""
        wanted: dict[tuple[Edit, ...], Mend] = {}
        manifest = tried.asked.manifest() if tried.asked is not None else self.manifest
        for finding in findings:
            if not finding.is_order or not any(finding.number in it.numbers for it in mends):
                continue
            for candidate in self.proposer.extras(finding) if self._why_not_named(manifest, finding) else ():
                wanted.setdefault(candidate.edits, Mend(candidate, [])).numbers.append(finding.number)
        for it in wanted.values():
            if self.tries >= MOST_TRIES:
                break
            more = self._try([*mends, it])
            if more.is_good:
                mends, tried = [*mends, it], more
        return mends, tried

    # Trying

    def _texts(self, mends: list[Mend]) -> dict[str, str]:
        edits = [edit for it in mends for edit in it.candidate.edits]
        for it in edits:
            self.proposer.ground.text(it.file)
        return edited(self.proposer.ground.texts, edits) if edits else {}

    def _try(self, mends: list[Mend], more: list[int] | None = None) -> _Tried:
        """Tries candidates together: the generator takes them, no command comes or goes, and the users of their
        findings wait for the makers."""
        self.tries += 1
        self.tell(f"trying {len(mends)} edit{'s' * (len(mends) != 1)}")
        try:
            asked = self.asker.attempt(self._texts(mends))
        except (NoPlace, CannotEdit) as why:
            return _Tried(str(why))
        except GeneratorRefused as why:
            return _Tried(f"{self.asker.name} refuses it: {why}")
        manifest = asked.manifest()
        others = sorted(self.commands ^ _commands(manifest))
        if others:
            return _Tried(f"it changes which commands there are: {', '.join(others[:_MOST_NAMED])}")
        numbers = {number for it in mends for number in it.numbers} | set(more or ())
        found = _Tried(asked=asked)
        of_next_build = {number for it in mends if it.candidate.is_for_next_build for number in it.numbers}
        for finding in self.proposer.ground.findings:
            if finding.number not in numbers:
                continue
            why_not = self._why_not(manifest, finding) if finding.is_order else ""
            if finding.number in of_next_build:
                why_not = why_not or self._why_not_named(manifest, finding)
            if why_not:
                found.of_finding[finding.number] = why_not
        return found

    def _why_not_named(self, manifest: Manifest, finding: Finding) -> str:
        """Why a manifest does not name the file of a finding as what its maker makes, or its user reads; empty where it
        does."""
        ground = self.proposer.ground
        sides = ((finding.declare, self._edge(manifest, finding.maker), "outputs"),
                 (finding.list, self._edge(manifest, finding.user), "inputs"))
        for name, edge, what in sides:
            if name and edge is not None:
                named = edge.outputs if what == "outputs" else [*edge.explicit, *edge.implicit]
                if ground.path_of(name) not in {ground.path_of(os.fsdecode(it)) for it in named}:
                    return f"{name} would still not stand among the {what} of {os.fsdecode(edge.name)}"
        return ""

    def _why_not(self, manifest: Manifest, finding: Finding) -> str:
        """Why a finding is not mended in a manifest; empty where it is."""
        user, maker = (self._edge(manifest, it) for it in (finding.user, finding.maker))
        if user is None or maker is None:
            return "its commands are not there any more"
        if not waits(manifest, user, maker):
            return f"{finding.user} would still not wait for {finding.maker}"
        return "it makes a cycle" if waits(manifest, maker, user) else ""

    def _edge(self, manifest: Manifest, output: str) -> Edge | None:
        edge = self.proposer.ground.edge(output) if output else None
        return manifest.producer.get(edge.name) if edge is not None else None

    def _advice(self, proposal: Proposal, tried: list[tuple[str, str]]) -> str:
        """What is to be done in general, by what came of the tries."""
        if any("Unknown variable" in why for _, why in tried):
            return ("the maker is declared in a folder that Meson reads later: have its subdir() come before that of "
                    "the user, and then ask again")
        return proposal.advice or self.proposer.advice(proposal.finding)

    def _left(self, proposal: Proposal) -> Left:
        number = proposal.finding.number
        tried = [(it.says, self.struck[number, it.edits]) for it in proposal.candidates
                 if (number, it.edits) in self.struck]
        why = proposal.why_not or ("no edit that was tried mends it" if tried else "there was no try left for it")
        return Left(proposal.finding, why, self._advice(proposal, tried), tried)


def _commands(manifest: Manifest) -> set[str]:
    """The first outputs of all commands."""
    return {os.fsdecode(it.name) for it in manifest.edges if not it.phony}


_MOST_EDGES = 8_000


def _added_orders(old: Manifest, new: Manifest) -> int | None:
    """How many pairs of commands have an order in the new manifest, and had none in the old one. None where there are
    too many commands to count."""
    if max(len(old.edges), len(new.edges)) > _MOST_EDGES:
        return None
    places: dict[bytes, int] = {}
    for edge in (*old.edges, *new.edges):
        places.setdefault(edge.name, len(places))
    before, after = _orders(old, places), _orders(new, places)
    return sum((found & ~before.get(name, 0)).bit_count() for name, found in after.items())


def _orders(manifest: Manifest, places: dict[bytes, int]) -> dict[bytes, int]:
    """The commands that each command waits for, as bits at the places of their first outputs."""
    found: dict[int, int] = {}
    for edge in manifest.edges:
        todo = [edge]
        while todo:
            it = todo[-1]
            makers = [maker for path in it.inputs if (maker := manifest.producer.get(path)) is not None
                      and maker is not it]
            missing = [maker for maker in makers if maker.number not in found]
            if it.number not in found and missing:
                found[it.number] = 0  # so that a cycle ends
                todo += missing
                continue
            todo.pop()
            bits = 0
            for maker in makers:
                bits |= found.get(maker.number, 0) | (0 if maker.phony else 1 << places[maker.name])
            found[it.number] = bits
    return {edge.name: found[edge.number] for edge in manifest.edges if not edge.phony}
