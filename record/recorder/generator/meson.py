"""Whose each command of a manifest of Meson is: by Meson's notes in the build folder, by what Meson's interpreter told
where it was asked, and else by the text of each meson.build."""

from __future__ import annotations

import json
import os
from dataclasses import dataclass, field
from typing import Any

from ..manifest import Edge, Manifest
from .calls import Call, meson_calls
from .model import Basis, Generator, Known, Role, Span, Target
from .texts import Texts, text_of

INFO = "meson-info"
CUSTOM, GENERATOR, RUN = "custom", "generator", "run"
_MOST = 64 << 20
_INTERNAL = "meson-internal__"
FUNCTIONS = {"executable": "executable", "static_library": "static library", "shared_library": "shared library",
             "shared_module": "shared module", "custom_target": CUSTOM, "vcs_tag": CUSTOM, "run_target": RUN,
             "library": "", "both_libraries": "", "build_target": "", "jar": "jar"}
"""The functions that declare targets, and the kind that each gives where there is but one."""


@dataclass
class ToldTarget:
    """What Meson's interpreter told as a file declared something: of a target its id, of a use of a generator its
    outputs alone, of a dependency its own number; the calls around, the innermost last."""

    what: str
    id: str
    outputs: list[str] = field(default_factory=list)
    calls: list[dict[str, Any]] = field(default_factory=list)
    dependencies: list[str] = field(default_factory=list)


@dataclass
class Notes:
    """What Meson notes in a build folder: the folder of the sources, its version, and the targets."""

    top: str
    version: str
    targets: list[dict[str, Any]]


def read_notes(build: str) -> Notes:
    """The notes. Raises an error of the system, or one of those that a text of another form gives."""
    about = _json(os.path.join(build, INFO, "meson-info.json"))
    return Notes(os.path.normpath(about["directories"]["source"]), str(about["meson_version"]["full"]),
                 list(_json(os.path.join(build, INFO, "intro-targets.json"))))


class Meson:
    """The targets of a build folder of Meson."""

    def __init__(self, build: str, manifest: Manifest, notes: Notes, told: list[ToldTarget] | None = None) -> None:
        self.build, self.manifest = build, manifest
        self.top, self.version = notes.top, notes.version
        self.targets: dict[str, Target] = {}
        self.of_output: dict[str, Target] = {}
        self.generated: list[tuple[set[str], Target]] = []
        self.dependencies: dict[str, Target] = {}
        self.texts: Texts[Call] = Texts(meson_calls)
        self.by_base: dict[str, list[Target]] = {}
        for it in notes.targets:
            self._take(it)
        for told_target in told or ():
            self._take_told(told_target)

    def known(self) -> Known:
        """Whose each edge is."""
        found = Known(Generator.MESON, self.version, self.top)
        for edge in self.manifest.edges:
            it = None if edge.phony and not edge.name.startswith(_INTERNAL.encode()) else self._find(edge)
            if it is not None and not edge.phony:
                self._guess_place(it[0])
                found.of_edge[edge.number] = it
        return found

    def relative(self, path: str) -> str:
        """A path as the manifest has it: relative to the build folder where it is below that."""
        path = os.path.normpath(os.path.join(self.build, path))
        return path[len(self.build) + 1 :] if path.startswith(self.build + "/") else path

    def _take(self, it: dict[str, Any]) -> None:
        outputs = [self.relative(path) for path in it["filename"]]
        file = os.path.normpath(it["defined_in"])
        target = Target(it["name"], it["type"], folder=os.path.dirname(file), outputs=outputs,
                        part_of=it.get("subproject") or "")
        target.file = file
        self.targets[it["id"]] = target
        for path in outputs:
            self.of_output[path] = target
            self.by_base.setdefault(os.path.basename(path), []).append(target)

    def _take_told(self, it: ToldTarget) -> None:
        if it.what == "dependency":
            target = self.dependencies[it.id] = Target(it.id, it.what)
        elif it.what == GENERATOR:
            target = Target(", ".join(it.outputs), GENERATOR, outputs=it.outputs)
            self.generated.append((set(it.outputs), target))
        elif it.id in self.targets:
            target = self.targets[it.id]
            target.dependencies = it.dependencies
        else:
            return
        calls = [call for call in it.calls if call["kind"] in ("FunctionNode", "MethodNode")]
        target.spans = [Span(call["file"], call["line"], call["end"] or call["line"], call["name"])
                        for call in reversed(calls)]
        target.place_basis = Basis.EXACT
        if target.spans:
            names = [call["name"] for call in it.calls
                     if call["kind"] == "AssignmentNode" and call["file"] == target.spans[0].file]
            target.variable = names[-1] if names else ""

    def _find(self, edge: Edge) -> tuple[Target, Role] | None:
        output = os.fsdecode(edge.name)
        if output.startswith(_INTERNAL):
            name = output[len(_INTERNAL) :]
            it = next((it for it in self.targets.values() if it.kind == RUN and it.name == name), None)
            return (it, Role.COMMAND) if it is not None else None
        for path in map(os.fsdecode, edge.outputs):
            if path in self.of_output:
                target = self.of_output[path]
                return target, Role.CUSTOM if target.kind == CUSTOM else Role.LINK
        private, has_private, inner = output.partition(".p/")
        return self._find_private(edge, private, inner) if has_private else None

    def _find_private(self, edge: Edge, private: str, inner: str) -> tuple[Target, Role] | None:
        """The target whose private folder an output stands in. That of a shared library has its name without version.
        """
        target = self.of_output.get(private)
        if target is None:
            name = os.path.basename(private)
            near = [it for base, targets in self.by_base.items() if base.startswith(name) for it in targets
                    if it.kind != CUSTOM]
            target = near[0] if near else None
        if edge.rule.startswith(b"CUSTOM_COMMAND"):
            for outputs, it in self.generated:
                if inner in outputs or os.path.basename(inner) in outputs:
                    return it, Role.CUSTOM
            return (target, Role.CUSTOM) if target is not None else None
        if target is None:
            return None
        if inner.endswith(".symbols"):
            return target, Role.SYMBOLS
        return target, Role.HEADER if inner.endswith((".gch", ".pch")) else Role.COMPILE

    def _guess_place(self, target: Target) -> None:
        """The place by the text of the file that declares it: the one call with this name, where there is one."""
        if target.spans or target.place_basis is Basis.EXACT or not target.file:
            return
        calls = [it for it in self.texts.of(target.file) if FUNCTIONS.get(it.name, "-") in ("", target.kind)]
        found = [it for it in calls if it.words and it.words[0].text == f"'{target.name}'"]
        if not found:
            found = [it for it in calls if it.words and not it.words[0].text.startswith("'")]
        if len(found) == 1:
            target.spans = [Span(target.file, found[0].line, found[0].last_line, found[0].name)]
            target.variable = found[0].variable


def _json(path: str) -> Any:
    text = text_of(path, _MOST)
    if text is None:
        raise ValueError(path)
    return json.loads(text)
