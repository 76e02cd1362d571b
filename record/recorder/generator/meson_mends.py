"""What mends a finding in Meson's files, by the shape of it: docs/MEND.md."""

from __future__ import annotations

import os
import re

from .calls import Call, meson_calls
from .edits import Edit, How
from .findings import Finding
from .meson import CUSTOM, FUNCTIONS, GENERATOR, RUN, Meson
from .model import Role, Span, Target
from .proposing import CannotEdit, Candidate, Ground, Side, free_name
from .texts import text_of

_WITH_VARIABLE = {*FUNCTIONS, "configure_file"} - {"run_target"}
_STRING = re.compile(r"'''.*?'''|'(?:[^'\\\n]|\\.)*'", re.S)
_MOST_FILES = 400
_IN_SOURCES = (Role.COMPILE, Role.HEADER)


class MesonMends:
    """Proposes edits in the files of Meson."""

    def __init__(self, ground: Ground, meson: Meson) -> None:
        self.ground, self.meson = ground, meson

    def of(self, finding: Finding, user: Side, maker: Side | None) -> list[Candidate]:
        """The candidates for a finding, the best first. Raises CannotEdit."""
        if maker is None or not finding.is_order:
            return self.for_next_build(finding, user, maker)
        self._look_at(user.target, maker.target)
        found: list[Candidate] = []
        for value, before in self._values(finding, user.target, maker.target):
            found += self._orders(finding, user, maker, value, before)
        return found

    def for_next_build(self, finding: Finding, user: Side, _: Side | None) -> list[Candidate]:
        """What says that a command reads a source."""
        target = user.target
        key = {Role.CUSTOM: "depend_files", Role.LINK: "link_depends"}.get(user.role)
        if not finding.list or key is None or target.place is None or target.kind == GENERATOR:
            return []
        path = self.ground.path_to_read(finding.list)
        if not path.startswith(self.ground.top + "/") or path.startswith(self.ground.build + "/"):
            return []
        name = os.path.relpath(path, os.path.dirname(target.place.file))
        candidate = self._keyword(target.place, key, f"files('{name}')", ())
        return [Candidate(candidate.edits, candidate.says, is_for_next_build=True)]

    def _look_at(self, user: Target, maker: Target) -> None:
        """Raises CannotEdit for the shapes that no edit mends."""
        if user.place is None or maker.place is None:
            raise CannotEdit("Meson does not tell where the two are declared",
                             "the user is to have the maker among its sources, or in `depends:` where it is a custom "
                             "target")
        if maker.kind == RUN:
            raise CannotEdit("a run_target makes the file, and Meson lets nothing depend on a run_target",
                             "make a custom_target of it, and put that among the sources of the user")
        if maker.kind == GENERATOR:
            raise CannotEdit("a generator() makes the file, which is private to the target that has it among its "
                             "sources", "put g.process() among the sources of the user, or make a custom_target of the "
                             "file, which both can have")
        if maker.place.call not in _WITH_VARIABLE and not (maker.variable and maker.kind == CUSTOM):
            raise CannotEdit(f"{maker.place.call} makes the file, and what it gives is not known here",
                             "put what it gives among the sources of the user")
        if maker.part_of != user.part_of and not maker.part_of:
            raise CannotEdit(f"the user is of the subproject {user.part_of}, and the maker is of the project that uses "
                             f"it", "a subproject cannot wait for what uses it: have the file made in the subproject")

    def _values(self, finding: Finding, user: Target, maker: Target) -> list[tuple[str, tuple[Edit, ...]]]:
        """How the user's file can name what the maker makes, each with the edit that gives it a variable."""
        assert maker.place is not None
        before: tuple[Edit, ...] = ()
        variable = maker.variable
        if not variable:
            self.ground.text(maker.place.file)
            variable = free_name(maker.name, self._names_of(maker))
            before = (Edit(maker.place.file, maker.place.line, How.NAME, variable, call=maker.place.call),)
        names = [variable]
        if maker.place.call not in FUNCTIONS and maker.kind == CUSTOM:  # a method of a module gives one or several
            names = [f"{variable}[{place}]" for place in (0, 1)] + [variable]
        elif maker.kind == CUSTOM and len(maker.outputs) > 1:
            path = self.meson.relative(finding.path)
            names = [f"{variable}[{maker.outputs.index(path)}]"] if path in maker.outputs else [variable]
        if maker.part_of != user.part_of:
            of_part = f"subproject('{maker.part_of}').get_variable('{variable}')"
            names = [of_part + it[len(variable) :] for it in names]
        return [(it, before) for it in names]

    def _names_of(self, maker: Target) -> list[str]:
        """The texts of all files of the maker's project, without strings: a variable is known in all of them."""
        files = {it.file for it in self.meson.targets.values() if it.part_of == maker.part_of and it.file}
        return [_STRING.sub("''", text_of(it) or "") for it in sorted(files)[:_MOST_FILES]]

    def _orders(self, finding: Finding, user: Side, maker: Side, value: str,
                before: tuple[Edit, ...]) -> list[Candidate]:
        """The candidates for this way to name what the maker makes."""
        place, whole = user.target.place, re.sub(r"\[\d+\]\Z", "", value)
        assert place is not None
        if user.role in _IN_SOURCES and maker.target.kind == CUSTOM:
            direct = self._source(place, f"'{user.target.name}'", value, before)
            return self._of_dependencies(finding, user, maker, value, before) + self._moved(direct, user, maker)
        if user.role is Role.LINK:
            return self._moved(self._keyword(place, "link_depends", value, before), user, maker)
        if user.role in (Role.CUSTOM, Role.COMMAND) and place.call in ("custom_target", "run_target"):
            return self._moved(self._keyword(place, "depends", whole, before), user, maker)
        if user.target.kind == GENERATOR:
            return self._of_generator(place, whole, before)
        if user.role in _IN_SOURCES:
            raise CannotEdit("a compile reads what a link makes, and Meson has no order for that",
                             "have a custom_target make the file, and put that among the sources of the user")
        raise CannotEdit(f"{place.call} takes no `depends:`", "make a custom_target of it, with `depends:`")

    def _source(self, place: Span, name: str, value: str, before: tuple[Edit, ...]) -> Candidate:
        self.ground.text(place.file)
        says = f"{self.ground.shown(place.file)}:{place.line}: {value} among the sources of {place.call}({name})"
        return Candidate((*before, Edit(place.file, place.line, How.SOURCE, value, call=place.call)), says,
                         self._note(place))

    def _keyword(self, place: Span, key: str, value: str, before: tuple[Edit, ...]) -> Candidate:
        self.ground.text(place.file)
        says = f"{self.ground.shown(place.file)}:{place.line}: {key}: {value} in {place.call}"
        return Candidate((*before, Edit(place.file, place.line, How.KEYWORD, value, call=place.call, key=key)), says,
                         self._note(place))

    def _note(self, place: Span) -> str:
        """What a user is to know of a call that several targets come of."""
        count = sum(it.place is not None and (it.place.file, it.place.line) == (place.file, place.line)
                    and it.kind != GENERATOR for it in self.meson.targets.values())
        return f"this call makes {count} targets, as in a loop, and the edit is for each of them" if count > 1 else ""

    def _moved(self, candidate: Candidate, user: Side, maker: Side) -> list[Candidate]:
        """The candidate, with the declaration of the maker above that of the user where it stands below it."""
        own, other = user.target.spans, maker.target.spans
        if own[0].file != other[0].file or other[0].line < own[0].line or user.target.part_of != maker.target.part_of:
            return [candidate]
        if other[0].line == own[0].line:
            return []
        first = min(it.line for it in other if it.file == other[0].file)
        top = min(it.line for it in own if it.file == own[0].file)
        move = Edit(other[0].file, first, How.MOVE, end=other[0].end, to=top)
        at_user = candidate.edits[-1]
        return [Candidate((*candidate.edits[:-1], move, at_user),
                          f"{candidate.says}, with the declaration of what it names moved above it", candidate.note)]

    def _of_dependencies(self, finding: Finding, user: Side, maker: Side, value: str,
                         before: tuple[Edit, ...]) -> list[Candidate]:
        """`sources:` of a dependency that several users of this maker have: one that all of them have, or that not many
        others have. The rarest is first."""
        if user.target.part_of != maker.target.part_of or len(self.ground.of_maker(finding.maker)) < 2:
            return []
        sides = [(it, self.ground.side(it.user)) for it in self.ground.of_maker(finding.maker)]
        users = {side.target.name: side.target for _, side in sides if side is not None and side.role in _IN_SOURCES}
        if len(users) < 2:
            return []
        count = {name: sum(name in it.dependencies for it in self.meson.targets.values())
                 for name in user.target.dependencies}
        found = []
        for name in sorted(count, key=lambda it: (count[it], it)):
            having = [it for it in users.values() if name in it.dependencies]
            if len(having) < 2 or len(having) < len(users) and count[name] > 2 * len(having):
                continue
            numbers = tuple(it.number for it, side in sides if side is not None and name in side.target.dependencies)
            target = self.meson.dependencies.get(name)
            if target is None or target.place is None or not self.ground.is_of_the_user(target.place.file):
                continue
            if target.place.file == maker.target.spans[0].file and target.place.line < maker.target.spans[0].line:
                continue
            it = self._keyword(target.place, "sources", value, before)
            found.append(Candidate(it.edits, it.says, it.note, numbers))
        return found

    def _of_generator(self, place: Span, value: str, before: tuple[Edit, ...]) -> list[Candidate]:
        """`depends:` of the generator() whose process() stands at this place."""
        text = self.ground.text(place.file)
        calls = meson_calls(text)
        process = next((it for it in calls if it.line == place.line and it.name == "process"), None)
        found = re.search(r"([A-Za-z_]\w*)\s*\.\s*\Z", text[: process.begin][-200:]) if process else None
        made = [it for it in calls if found and it.name == "generator" and it.variable == found[1]]
        if len(made) != 1:
            raise CannotEdit("the generator() of the command is not known",
                             "`depends:` of that generator() is to name the maker")
        return [self._keyword(_span(place.file, made[0]), "depends", value, before)]


def _span(file: str, call: Call) -> Span:
    return Span(file, call.line, call.last_line, call.name)
