"""Proposes edits for findings: looks up whose the two commands are, and hands them to the generator's shapes."""

from __future__ import annotations

import os
import re
from typing import Protocol

from ..manifest import Edge
from .asking import Asked, Asker
from .cmake import CMake
from .cmake_mends import CMakeMends
from .findings import MISSING, Failed, Finding
from .gn import GN
from .gn_mends import GNMends
from .meson import Meson
from .meson_mends import MesonMends
from .model import Generator, Known
from .proposing import CannotEdit, Candidate, Ground, Proposal, Side

_ERROR = re.compile(r"(?:fatal error: |cannot find |can't open file ')([^\s:']+)")
_FOLDERS = re.compile(r"-(?:I|isystem ?|iquote ?)\s*([^\s']+)")
_OWN = {"own": ("the command lists its own output", "the command is to write another file than it reads")}
_OF_CYCLE = "part the maker or the user into two commands, or have the user read a file of an earlier one"


class Shapes(Protocol):
    """What a generator's files offer."""

    def of(self, finding: Finding, user: Side, maker: Side | None) -> list[Candidate]:
        """The candidates for a finding, the best first. Raises CannotEdit."""

    def for_next_build(self, finding: Finding, user: Side, maker: Side | None) -> list[Candidate]:
        """What says that the maker makes the file, and that the user reads it."""


class Proposer:
    """Proposes edits in the files of the generator that was asked."""

    def __init__(self, asker: Asker, asked: Asked, findings: list[Finding]) -> None:
        manifest = asked.manifest()
        self.known: Known
        if asker.generator is Generator.CMAKE:
            cmake = CMake(asker.build, manifest, asked.reply, asked.calls)
            self.known = cmake.known()
            self.ground = Ground(asker.build, manifest, self.known, findings)
            self.shapes: Shapes = CMakeMends(self.ground, cmake)
        elif asker.generator is Generator.MESON and asked.notes is not None:
            meson = Meson(asker.build, manifest, asked.notes, asked.told)
            self.known = meson.known()
            self.ground = Ground(asker.build, manifest, self.known, findings)
            self.shapes = MesonMends(self.ground, meson)
        else:
            self.known = GN(asker.build, manifest).known()
            self.ground = Ground(asker.build, manifest, self.known, findings)
            self.shapes = GNMends(self.ground)

    def missing(self, failed: list[Failed]) -> list[Finding]:
        """What failed commands miss by their errors, and one command makes: with numbers below 0."""
        found: list[Finding] = []
        for it in failed:
            edge = self.ground.edge(it.user)
            for name in dict.fromkeys(match[1] for line in it.lines for match in [_ERROR.search(line)] if match):
                maker = self._maker_of(name, edge) if edge is not None else None
                if maker is not None:
                    output = os.fsdecode(maker.name)
                    found.append(Finding(-1 - len(found), MISSING, name, output, it.user, output))
        self.ground.findings += found
        return found

    def _maker_of(self, name: str, user: Edge) -> Edge | None:
        """The one command that makes a file of this name where the user's command looks for it."""
        words = [os.fsdecode(it) for it in (user.command, *user.block.values())]
        flags = [it for text in words for it in _FOLDERS.findall(text)]
        looked = {self.ground.path_of(os.path.join(it, name)) for it in ["", *flags]}
        makers = {it.number: it for it in self.ground.manifest.edges if not it.phony and it is not user
                  for path in it.outputs if self.ground.path_of(os.fsdecode(path)) in looked}
        return next(iter(makers.values())) if len(makers) == 1 else None

    def proposal(self, finding: Finding) -> Proposal:
        """What may mend this finding."""
        found = Proposal(finding)
        try:
            found.candidates = self._candidates(finding)
            if not found.candidates:
                raise CannotEdit("no edit is known for this shape", self.advice(finding))
        except CannotEdit as why:
            found.why_not, found.advice = why.why, why.advice
        if finding.kind == "cycle":
            found.why_not = "the maker waits for the user, and no edit that was tried changes that"
            found.advice = _OF_CYCLE
        return found

    def extras(self, finding: Finding) -> list[Candidate]:
        """What a next build misses beside the order."""
        user, maker = self.ground.side(finding.user), self.ground.side(finding.maker) if finding.maker else None
        if user is None or not (finding.declare or finding.list):
            return []
        try:
            return self.shapes.for_next_build(finding, user, maker)
        except CannotEdit:
            return []

    def _candidates(self, finding: Finding) -> list[Candidate]:
        if finding.kind in _OWN:
            raise CannotEdit(*_OWN[finding.kind])
        if finding.kind == "clash":
            raise CannotEdit(f"two commands make {finding.path}", self._advice_of_clash(finding))
        user = self.ground.side(finding.user)
        maker = self.ground.side(finding.maker) if finding.maker else None
        for output, side in ((finding.user, user), (finding.maker, maker)):
            if output and side is None:
                raise CannotEdit(*self._why_unknown(output))
        assert user is not None
        return self.shapes.of(finding, user, maker)

    def _why_unknown(self, output: str) -> tuple[str, str]:
        if self.ground.edge(output) is None:
            return (f"no command makes {output} any more, as the sources are now",
                    "build again, record that build, and ask of its recording")
        return f"the command that makes {output} is of no target that is known", self.advice(None)

    def _advice_of_clash(self, finding: Finding) -> str:
        sides = (self.ground.side(finding.maker), self.ground.side(finding.user))
        names = [f"{it.target.name} ({self.ground.place_of(it.target)})" for it in sides if it is not None]
        one = names[-1] if names else "one of them"
        return f"give {one} another output, by a name of its own, and have who reads it name that" + (
            f"; the other one is {names[0]}" if len(names) > 1 else "")

    def advice(self, finding: Finding | None) -> str:
        """What is to be said of this generator in general."""
        generator = self.known.generator
        if generator is Generator.CMAKE:
            return ("add_dependencies(USER MAKER) with the two targets; DEPENDS, with the file, where USER is a custom "
                    "command")
        if generator is Generator.MESON:
            return ("what MAKER gives among the sources of USER; `depends:` where USER is a custom target, "
                    "`link_depends:` where it is a link")
        return "the label of MAKER in `deps` of USER"
