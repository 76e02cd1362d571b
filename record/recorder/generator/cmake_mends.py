"""What mends a finding in CMake's files, by the shape of it: docs/MEND.md."""

from __future__ import annotations

import os

from .calls import cmake_calls
from .cmake import LISTS, UTILITY, CMake, TracedCall
from .edits import Edit, How
from .findings import Finding
from .model import Role, Span, Target
from .proposing import CannotEdit, Candidate, Ground, Side, free_name, plain, waited_for

_IN_TARGET = (Role.COMPILE, Role.HEADER, Role.LINK, Role.COMMAND)
_READING = {"add_subdirectory", "include", "find_package", "subdirs"}
_OF_OUTSIDE = "externalproject_add"


class CMakeMends:
    """Proposes edits in the files of CMake."""

    def __init__(self, ground: Ground, cmake: CMake) -> None:
        self.ground, self.cmake = ground, cmake
        self.shared: dict[str, list[tuple[str, Candidate]]] = {}
        self.linked: dict[str, set[str]] = {}
        self.spans: dict[tuple[str, int], list[str]] = {}
        for it in cmake.targets.values():
            for span in it.spans:
                self.spans.setdefault((span.file, span.line), []).append(it.name)
        self.rules: dict[tuple[str, int], set[str]] = {}
        for rule in cmake.custom.values():
            if rule.place is not None:
                self.rules.setdefault((rule.place.file, rule.place.line), set()).add(rule.name)

    def of(self, finding: Finding, user: Side, maker: Side | None) -> list[Candidate]:
        """The candidates for a finding, the best first. Raises CannotEdit."""
        if maker is not None and finding.is_order:
            return self._orders(finding, user, maker)
        return self.for_next_build(finding, user, maker)

    # Orders

    def _orders(self, finding: Finding, user: Side, maker: Side) -> list[Candidate]:
        made = self._made(finding, maker)
        if finding.dyndep and user.role is maker.role is Role.COMPILE and user.target.name == maker.target.name:
            raise CannotEdit(f"two compiles of {user.target.name}, which CMake orders by what its scanner sees",
                             "the scanner of modules is to see the use: in the source itself, or in a file of a folder "
                             "that target_include_directories names")
        if user.role is Role.CUSTOM:
            return self._into_custom_command(user, maker, made)
        carriers = maker.target.carriers if maker.role is Role.CUSTOM else [maker.target.name]
        utilities = [it for it in carriers if self._kind(it) == UTILITY]
        found: list[Candidate] = []
        if user.role is Role.COMMAND and user.target.place and user.target.place.call.lower() == "add_custom_target":
            found += self._into_custom_target(user, maker, made)
        if user.role is Role.LINK and maker.role is Role.CUSTOM:
            found += self._behind(user.target, f"set_property(TARGET {user.target.name} APPEND PROPERTY LINK_DEPENDS "
                                               f"{self._path(made, user.target)})")
        found += self._in_a_library(finding, utilities if maker.role is Role.CUSTOM else carriers)
        named = carriers if maker.role is not Role.CUSTOM else sorted(utilities, key=self._cost)
        for name in named:
            found += self._dependency(user.target, name)
        if maker.role is Role.CUSTOM and maker.target.folder == user.target.folder and user.role in (Role.COMPILE,
                                                                                                    Role.HEADER):
            found += self._behind(user.target, f"target_sources({user.target.name} PRIVATE "
                                               f"{self._path(made, maker.target)})", maker.target)
        if maker.role is Role.CUSTOM and not utilities:
            found += self._target_of_its_own(user.target, maker.target, made)
            for name in carriers:
                found += self._dependency(user.target, name)
        return found

    def _in_a_library(self, finding: Finding, makers: list[str]) -> list[Candidate]:
        """One dependency of a library that several users are linked with: one that all of them have, or that not many
        others have."""
        user = self.ground.side(finding.user)
        if finding.maker not in self.shared:
            self.shared[finding.maker] = self._shared(finding.maker, sorted(makers, key=self._cost))
        linked = self._linked_of(user.target.name) if user is not None else set()
        return [candidate for library, candidate in self.shared[finding.maker] if library in linked]

    def _linked_of(self, name: str) -> set[str]:
        if name not in self.linked:
            self.linked[name] = self.cmake.linked(name)
        return self.linked[name]

    def _shared(self, maker: str, makers: list[str]) -> list[tuple[str, Candidate]]:
        """The libraries that several users of a maker are linked with, the rarest first, each with its candidate."""
        sides = [(it.number, self.ground.side(it.user)) for it in self.ground.of_maker(maker)]
        users = {number: side.target.name for number, side in sides if side is not None and side.role in _IN_TARGET}
        names = set(users.values())
        having: dict[str, set[str]] = {}
        for name in names if len(names) > 1 else ():
            for library in self._linked_of(name):
                having.setdefault(library, set()).add(name)
        found = []
        for library, them in sorted(having.items()):
            count = sum(library in self._linked_of(name) for name in self.cmake.targets)
            if len(them) > 1 and (len(them) == len(names) or count <= 2 * len(them)):
                numbers = tuple(number for number, name in users.items() if name in them)
                found += [(count, library, Candidate(it.edits, it.says, it.note, numbers)) for name in makers
                          for it in self._dependency(self.cmake.targets[library], name)]
        return [(library, it) for _, library, it in sorted(found, key=lambda them: them[:2])]

    def _dependency(self, user: Target, maker: str) -> list[Candidate]:
        if maker == user.name:
            return []
        return self._behind(user, f"add_dependencies({user.name} {maker})", self.cmake.targets.get(maker))

    def _target_of_its_own(self, user: Target, maker: Target, made: str) -> list[Candidate]:
        """A custom target for a file that none has, beside the command that makes it."""
        if maker.place is None:
            return []
        text = self.ground.text(maker.place.file)
        name = free_name(os.path.basename(made) + "_made", [text, *self.cmake.targets])
        path = self._path(made, maker)
        first = self._behind(maker, f"add_custom_target({name} DEPENDS {path})")
        second = self._behind(user, f"add_dependencies({user.name} {name})")
        if not first or not second:
            return []
        return [Candidate(first[0].edits + second[0].edits, f"{first[0].says} and {second[0].says}")]

    def _into_custom_target(self, user: Side, maker: Side, made: str) -> list[Candidate]:
        if maker.role is Role.LINK:
            return self._words(user.target, f"DEPENDS {maker.target.name}")
        if maker.role is Role.CUSTOM and maker.target.folder == user.target.folder:
            return self._words(user.target, f"DEPENDS {self._path(made, user.target)}")
        return []

    def _into_custom_command(self, user: Side, maker: Side, made: str) -> list[Candidate]:
        target = user.target
        if target.place is None:
            raise CannotEdit(f"CMake does not tell where the command that makes {target.name} stands",
                             "DEPENDS of that add_custom_command is to name the file, and its target where another "
                             "folder makes the file")
        if self._is_outside(target):
            raise CannotEdit(f"{target.name} is a step of ExternalProject_Add",
                             "DEPENDS of that ExternalProject_Add is to name the target that makes the file")
        utilities = [it for it in maker.target.carriers if self._kind(it) == UTILITY]
        found: list[Candidate] = []
        if maker.role is Role.CUSTOM:
            path = self._path(made, target)
            is_near = maker.target.folder == target.folder
            if is_near or not utilities:
                found += self._words(target, f"DEPENDS {path}")
            for it in sorted(utilities, key=self._cost):
                found += self._words(target, f"DEPENDS {it} {path}" if not is_near else f"DEPENDS {it}")
        else:
            found += self._words(target, f"DEPENDS {maker.target.name}")
        makers = maker.target.carriers if maker.role is Role.CUSTOM else [maker.target.name]
        for carrier in target.carriers:
            if carrier in self.cmake.targets:
                for it in makers:
                    found += self._dependency(self.cmake.targets[carrier], it)
        return found

    # What the next build misses

    def for_next_build(self, finding: Finding, user: Side, maker: Side | None) -> list[Candidate]:
        """What says that the maker makes the file, and that the user reads it."""
        found: list[Candidate] = []
        if finding.declare and maker is not None:
            found += self._byproducts(self.ground.path_to_make(finding.declare), maker)
        if finding.list:
            found += self._listed(finding.list, user)
        return [Candidate(it.edits, it.says, it.note, is_for_next_build=True) for it in found]

    def _listed(self, name: str, user: Side) -> list[Candidate]:
        """What says that a command reads a file."""
        if user.role in (Role.CUSTOM, Role.COMMAND) and self._is_outside(user.target):
            raise CannotEdit(f"{user.target.name} is a step of ExternalProject_Add, which names what it reads itself",
                             "a step that is to run again with a file is added by ExternalProject_Add_Step, with "
                             "DEPENDS")
        path = self._path(self.ground.path_to_read(name), user.target)
        if user.role in (Role.CUSTOM, Role.COMMAND):
            return self._words(user.target, f"DEPENDS {path}")
        if user.role is Role.LINK:
            return self._behind(user.target, f"set_property(TARGET {user.target.name} APPEND PROPERTY LINK_DEPENDS "
                                             f"{path})")
        return []

    def _byproducts(self, path: str, maker: Side) -> list[Candidate]:
        target = maker.target
        if maker.role is Role.LINK:
            commands = self.cmake.post_builds.get(target.name, [])
            return self._byproducts_of(commands[0], path, target) if len(commands) == 1 else []
        if target.place is None or maker.role not in (Role.CUSTOM, Role.COMMAND):
            return []
        if self._is_outside(target):
            span = self._span_of_outside(target)
            return self._words_at(span, f"BUILD_BYPRODUCTS {self._path(path, target)}", target)
        return self._words(target, f"BYPRODUCTS {self._path(path, target)}")

    def _byproducts_of(self, command: TracedCall, path: str, target: Target) -> list[Candidate]:
        return self._words_at(command.spans[0], f"BYPRODUCTS {self._path(path, target)}", target)

    # Where an edit goes

    def _behind(self, target: Target, line: str, other: Target | None = None) -> list[Candidate]:
        """A line behind the declaration of a target, in the file of its folder. Where that call declares several
        targets, as in a loop, the line stands at the end of the file. Where the other target is declared later in this
        file, the line stands behind that."""
        if not target.spans:
            return []
        home = os.path.join(target.folder, LISTS)
        spans = [it for it in target.spans if it.file == home] or [it for it in target.spans
                                                                   if os.path.basename(it.file) == LISTS]
        if not spans:
            return []
        span = spans[-1]
        self.ground.text(span.file)
        says = f"{self.ground.shown(span.file)}:{span.end}: {line}"
        if len(set(self.spans.get((span.file, span.line), ()))) > 1:
            last = self.ground.text(span.file).count("\n") + 1
            says = f"{self.ground.shown(span.file)}:{last}: {line}"
            return [Candidate((Edit(span.file, last, How.AT_END, line),), says)]
        later = [it for it in other.spans if it.file == span.file] if other is not None else []
        if later and later[-1].end > span.end and self._are_together(span, later[-1]):
            span = later[-1]
            says = f"{self.ground.shown(span.file)}:{span.end}: {line}"
        return [Candidate((Edit(span.file, span.line, How.AFTER, line, end=span.end),), says)]

    def _are_together(self, first: Span, second: Span) -> bool:
        """Whether no condition or loop begins or ends between two calls of a file."""
        names = {it.name.lower() for it in cmake_calls(self.ground.text(first.file))
                 if first.end < it.line <= second.line}
        return not names & {"if", "else", "elseif", "endif", "foreach", "endforeach", "while", "endwhile", "function",
                            "endfunction", "macro", "endmacro", "block", "endblock", "return"}

    def _words(self, target: Target, words: str) -> list[Candidate]:
        """Words into the call that declares a target or a command."""
        return self._words_at(target.place, words, target) if target.place is not None else []

    def _words_at(self, span: Span, words: str, target: Target) -> list[Candidate]:
        self.ground.text(span.file)
        names = {*self.spans.get((span.file, span.line), ()), *self.rules.get((span.file, span.line), ())}
        note = ""
        function = self._function_around(target, span)
        if names - {target.name, *target.outputs} and span.call.lower() != _OF_OUTSIDE:
            note = (f"this call makes {len(names)} things, as in a function or a loop, and the words are for each of "
                    f"them")
        elif function:
            note = f"the words stand in {function}, and are for each call of it"
        says = f"{self.ground.shown(span.file)}:{span.line}: {words} in {span.call}"
        return [Candidate((Edit(span.file, span.line, How.WORDS, words, call=span.call),), says, note)]

    def _function_around(self, target: Target, span: Span) -> str:
        """The function or macro that a call stands in; empty where it stands in none."""
        outer = target.spans[target.spans.index(span) + 1 :] if span in target.spans else []
        return next((it.call for it in outer[:1] if it.call.lower() not in _READING), "")

    # What is known of targets

    def _kind(self, name: str) -> str:
        return self.cmake.targets[name].kind if name in self.cmake.targets else UTILITY

    def _cost(self, name: str) -> int:
        """How many commands who waits for a target waits for."""
        return len(waited_for(self.ground.manifest, self.cmake.groups.get(name, [])))

    def _made(self, finding: Finding, maker: Side) -> str:
        """The output of the maker that the finding is about, else its first output."""
        outputs = [os.fsdecode(it) for it in maker.edge.outputs]
        names = [self.cmake.relative(self.ground.path_of(it)) for it in (finding.path, finding.mend) if it]
        return next((it for it in names if it in outputs), outputs[0])

    def _path(self, name: str, target: Target) -> str:
        """A path as the file of a target's folder names it."""
        path = self.ground.path_of(name)
        roots = ((target.binary, "${CMAKE_CURRENT_BINARY_DIR}"), (self.ground.build, "${CMAKE_BINARY_DIR}"),
                 (target.folder, "${CMAKE_CURRENT_SOURCE_DIR}"), (self.ground.top, "${CMAKE_SOURCE_DIR}"))
        for root, variable in roots:
            if root and path.startswith(root + "/"):
                return _word(variable, path[len(root) :])
        return _word("", path)

    def _is_outside(self, target: Target) -> bool:
        return any(it.call.lower() == _OF_OUTSIDE for it in target.spans)

    def _span_of_outside(self, target: Target) -> Span:
        return next(it for it in target.spans if it.call.lower() == _OF_OUTSIDE)


def _word(variable: str, path: str) -> str:
    """A path as one word of CMake, behind a variable. Raises CannotEdit."""
    text = variable + plain(path)
    return f'"{text}"' if " " in text else text
