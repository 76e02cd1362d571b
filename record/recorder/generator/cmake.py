"""Whose each command of a manifest of CMake is: by the comments of the manifest, by the File API's reply where there is
one, by the trace of a run where CMake was asked for one, and else by the text of each CMakeLists.txt."""

from __future__ import annotations

import os
import re
from dataclasses import dataclass, field

from ..manifest import Edge, Manifest
from .calls import Call, cmake_calls
from .cmake_reply import Reply
from .headings import Subject, headings
from .model import Basis, Generator, Known, Role, Span, Target
from .texts import Texts, text_of

UTILITY, CUSTOM = "UTILITY", "custom command"
LISTS = "CMakeLists.txt"
_OWN = {"edit_cache", "rebuild_cache", "list_install_components", "install", "install/local", "install/strip", "test",
        "package", "package_source"}
_DECLARING = {"add_library", "add_executable", "add_custom_target"}
_OBJECTS = re.compile(rb"^(.*?/?)CMakeFiles/[^/]+\.dir/")
_CACHE_LINE = re.compile(r"^(CMAKE_HOME_DIRECTORY|CMAKE_CACHE_(?:MAJOR|MINOR|PATCH)_VERSION|CMAKE_COMMAND):"
                         r"INTERNAL=(.*)$", re.M)
SECTIONS = frozenset("""OUTPUT COMMAND MAIN_DEPENDENCY DEPENDS BYPRODUCTS IMPLICIT_DEPENDS WORKING_DIRECTORY COMMENT
DEPFILE JOB_POOL VERBATIM APPEND USES_TERMINAL COMMAND_EXPAND_LISTS SOURCES ARGS ALL TARGET PRE_BUILD PRE_LINK
POST_BUILD JOB_SERVER_AWARE""".split())
"""The words that begin a part of a custom command."""


@dataclass
class TracedCall:
    """A call of CMake's trace: the command in small letters, the arguments as they were expanded, and the chain of
    calls that it stands in, the innermost first."""

    command: str
    arguments: list[str]
    spans: list[Span] = field(default_factory=list)


def cache_of(build: str) -> dict[str, str]:
    """What the cache of a build folder of CMake notes of CMake itself."""
    text = text_of(os.path.join(build, "CMakeCache.txt"), 64 << 20) or ""
    return dict(_CACHE_LINE.findall(text.replace("\r\n", "\n")))


def section(arguments: list[str], word: str) -> list[str]:
    """The arguments behind a word that begins a part of a custom command."""
    found: list[str] = []
    is_in = False
    for it in arguments:
        if it in SECTIONS:
            is_in = it == word
        elif is_in:
            found += it.split(";")
    return found


class CMake:
    """The targets of a build folder of CMake."""

    def __init__(self, build: str, manifest: Manifest, reply: Reply | None, calls: list[TracedCall]) -> None:
        cache = cache_of(build)
        self.build, self.manifest = build, manifest
        self.top = os.path.normpath(cache.get("CMAKE_HOME_DIRECTORY", build))
        version = [cache.get(f"CMAKE_CACHE_{it}_VERSION", "") for it in ("MAJOR", "MINOR", "PATCH")]
        self.version = ".".join(filter(None, version))
        self.reply = reply or Reply()
        self.targets: dict[str, Target] = {}
        self.custom: dict[str, Target] = {}
        self.patterns: list[tuple[re.Pattern[str], Target]] = []
        self.links: dict[str, list[str]] = {}
        self.post_builds: dict[str, list[TracedCall]] = {}
        self.texts: Texts[Call] = Texts(cmake_calls)
        self.headings = headings(manifest)
        self._take_reply()
        for call in calls:
            self._take_call(call)
        self.groups = self._groups()
        self.users: dict[bytes, list[str]] = {}
        for name, edges in self.groups.items():
            for path in {path for edge in edges for path in edge.inputs}:
                self.users.setdefault(path, []).append(name)

    def known(self) -> Known:
        """Whose each edge is."""
        found = Known(Generator.CMAKE, self.version, self.top)
        for edge in self.manifest.edges:
            it = None if edge.phony else self._find(edge)
            if it is not None:
                self._guess_place(it[0])
                found.of_edge[edge.number] = it
        return found

    def relative(self, path: str) -> str:
        """A path as the manifest has it: relative to the build folder where it is below that."""
        path = os.path.normpath(path)
        return path[len(self.build) + 1 :] if path.startswith(self.build + "/") else path

    def linked(self, name: str) -> set[str]:
        """The targets that a target is linked with, also through others, and itself."""
        todo, found = [name], {name}
        while todo:
            for it in self.links.get(todo.pop(), ()):
                if it not in found and (it in self.targets or it in self.links):
                    found.add(it)
                    todo.append(it)
        return {it for it in found if it in self.targets}

    def _take_reply(self) -> None:
        for it in self.reply.targets.values():
            target = Target(it.name, it.kind, folder=it.folder, binary=it.binary, outputs=it.outputs)
            target.spans, target.place_basis = it.spans, Basis.EXACT
            self.targets[it.name] = target
            for source in it.sources:
                if source.endswith(".rule"):
                    path = self.relative(source[: -len(".rule")])
                    rule = self.custom.setdefault(path, Target(path, CUSTOM))
                    if it.name not in rule.carriers:
                        rule.carriers.append(it.name)

    def _take_call(self, call: TracedCall) -> None:
        arguments = call.arguments
        if call.command == "target_link_libraries":
            self.links.setdefault(arguments[0], []).extend(it for word in arguments[1:] for it in word.split(";"))
            return
        if call.command == "add_library" and arguments[1:2] == ["ALIAS"]:
            self.links.setdefault(arguments[0], []).extend(arguments[2:3])
            return
        folder = next((os.path.dirname(it.file) for it in call.spans if os.path.basename(it.file) == LISTS), self.top)
        binary = self.reply.binaries.get(folder) or os.path.normpath(
            os.path.join(self.build, os.path.relpath(folder, self.top)))
        if call.command == "add_custom_command" and arguments[:1] == ["TARGET"]:
            self.post_builds.setdefault(arguments[1] if arguments[1:] else "", []).append(call)
        elif call.command == "add_custom_command":
            for word in ("OUTPUT", "BYPRODUCTS"):
                self._take_outputs(call, section(arguments, word), folder, binary)
        elif call.command in _DECLARING and arguments and not {"IMPORTED", "ALIAS"} & set(arguments):
            kind = {"add_custom_target": UTILITY, "add_executable": "EXECUTABLE"}.get(call.command, "LIBRARY")
            target = self.targets.setdefault(arguments[0], Target(arguments[0], kind))
            target.folder, target.binary = target.folder or folder, target.binary or binary
            target.spans, target.place_basis = self._of_the_user(call.spans), Basis.EXACT
            target.arguments = arguments
            if call.command == "add_custom_target":
                for it in section(arguments, "BYPRODUCTS"):
                    self.custom.setdefault(self.relative(os.path.join(binary, it)), target)

    def _take_outputs(self, call: TracedCall, outputs: list[str], folder: str, binary: str) -> None:
        for it in outputs:
            path = self.relative(os.path.join(binary, it))
            if "$<" in path:
                rule = Target(path, CUSTOM)
                self.patterns.append((_pattern(path), rule))
            else:
                rule = self.custom.setdefault(path, Target(path, CUSTOM))
            if rule.kind != CUSTOM:
                continue
            rule.spans, rule.place_basis = self._of_the_user(call.spans), Basis.EXACT
            rule.arguments, rule.folder, rule.binary = call.arguments, folder, binary

    def _of_the_user(self, spans: list[Span]) -> list[Span]:
        """The calls that stand in the user's files: those below the innermost of these are of CMake's modules."""
        first = next((place for place, it in enumerate(spans) if it.file.startswith(self.top + "/")), 0)
        return spans[first:]

    def _groups(self) -> dict[str, list[Edge]]:
        """The phony edges that stand for a target: what its commands wait for, and what it makes."""
        found: dict[str, list[Edge]] = {}
        for edge in self.manifest.edges:
            it = self.headings.get(edge.number)
            if edge.phony and it is not None and it.subject in (Subject.TARGET, Subject.UTILITY):
                found.setdefault(it.name, []).append(edge)
        return found

    def _find(self, edge: Edge) -> tuple[Target, Role] | None:
        it = self.headings.get(edge.number)
        if it is None or it.subject is Subject.OWN or it.name in _OWN and it.subject is Subject.UTILITY:
            return None
        if it.subject is Subject.TARGET:
            found = _OBJECTS.search(edge.name)
            return self._target(it.name, it.kind, os.fsdecode(found[1]) if found else None), _role_in_target(edge)
        if it.subject is Subject.UTILITY:
            return self._target(it.name, UTILITY, None), Role.COMMAND
        return self._find_custom(edge)

    def _target(self, name: str, kind: str, binary: str | None) -> Target:
        """The target of this name. Where CMake has not told its folder, that of the sources is taken to have the same
        name as that of what is built."""
        target = self.targets.setdefault(name, Target(name, kind))
        target.kind = target.kind or kind
        if not target.folder and binary is not None:
            target.folder = os.path.normpath(os.path.join(self.top, binary))
        return target

    def _find_custom(self, edge: Edge) -> tuple[Target, Role] | None:
        outputs = [self.relative(os.path.join(self.build, os.fsdecode(it))) for it in edge.outputs]
        utility = self._utility_of(outputs[0])
        if utility is not None:
            return self._target(utility, UTILITY, self._folder_of_utility(utility)), Role.COMMAND
        rule = next((self.custom[it] for it in outputs if it in self.custom), None)
        if rule is None or rule.kind == CUSTOM and not rule.spans:
            carriers = rule.carriers if rule is not None else []
            rule = self.custom[outputs[0]] = self._by_pattern(outputs) or rule or Target(outputs[0], CUSTOM)
            rule.carriers += [it for it in carriers if it not in rule.carriers]
        if rule.kind == CUSTOM and not rule.carriers:
            rule.carriers += list(dict.fromkeys(name for it in edge.outputs for name in self.users.get(it, ())))
        if not rule.folder and rule.carriers:
            rule.folder = self._folder_of_carrier(rule.carriers[0])
        rule.outputs = rule.outputs or outputs
        return rule, Role.COMMAND if rule.kind == UTILITY else Role.CUSTOM

    def _by_pattern(self, outputs: list[str]) -> Target | None:
        """The one command of the trace whose outputs, which have generator expressions, can be these: of several the
        one whose words name an output."""
        found = [rule for pattern, rule in self.patterns if any(pattern.fullmatch(it) for it in outputs)]
        names = {os.path.basename(it) for it in outputs}
        near = [it for it in found if names & {os.path.basename(word) for word in it.arguments}]
        found = found if len(found) == 1 else near
        if len(found) != 1:
            return None
        found[0].name = outputs[0]
        return found[0]

    def _folder_of_utility(self, name: str) -> str:
        """The folder of what a custom target makes, by the name that stands for the target."""
        names = (os.fsdecode(it.name) for it in self.groups.get(name, ()))
        return next((os.path.dirname(it) for it in names if os.path.basename(it).split(":")[0] == name), "")

    def _folder_of_carrier(self, name: str) -> str:
        """The folder of the sources of a target that has the outputs of a command."""
        known = self.targets.get(name)
        if known is not None and known.folder:
            return known.folder
        folders = (_OBJECTS.search(path + b"/") for it in self.groups.get(name, ()) for path in it.inputs)
        found = next(filter(None, folders), None)
        binary = os.fsdecode(found[1]) if found else self._folder_of_utility(name)
        return os.path.normpath(os.path.join(self.top, binary))

    def _utility_of(self, output: str) -> str | None:
        """The custom target whose own command this output stands for."""
        folder, name = os.path.split(output)
        if os.path.basename(folder) != "CMakeFiles":
            return None
        names = (name, name.rpartition("-")[0])  # of several configurations each has its own
        return next((it for it in names if it in self.groups and (it not in self.targets
                                                                  or self.targets[it].kind == UTILITY)), None)

    def _guess_place(self, target: Target) -> None:
        """The place by the text of the file that CMake read for it, where CMake has not told it."""
        if target.spans or not target.folder:
            return
        path = os.path.join(target.folder, LISTS)
        calls = self.texts.of(path)
        if target.kind == CUSTOM:
            name = os.path.basename(target.name)
            found = [it for it in calls if it.name.lower() == "add_custom_command"
                     and any(os.path.basename(word.text.strip('"')) == name for word in it.words)]
        else:
            found = [it for it in calls if it.words and it.words[0].text.strip('"') == target.name
                     and (it.name.lower() in _DECLARING or it.name.lower() == "externalproject_add")]
        if len(found) == 1:
            target.spans = [Span(path, found[0].line, found[0].last_line, found[0].name)]


def _pattern(path: str) -> re.Pattern[str]:
    """What a path can become whose generator expressions CMake has not evaluated."""
    found, deep, piece = "", 0, ""
    for place, letter in enumerate(path):
        if path.startswith("$<", place):
            found += re.escape(piece) + (".*" if not deep else "")
            deep, piece = deep + 1, ""
        elif letter == ">" and deep:
            deep -= 1
        elif not deep:
            piece += letter
    return re.compile(found + re.escape(piece), re.S)


def _role_in_target(edge: Edge) -> Role:
    """What a command does that stands below the heading of a target."""
    if b"LINKER" in edge.rule:
        return Role.LINK
    return Role.HEADER if b"cmake_pch" in edge.name and not edge.name.endswith((b".c.o", b".cxx.o")) else Role.COMPILE
