"""Whose each command of a manifest of GN is: by the paths of GN's files and outputs, and by the text of each BUILD.gn.
"""

from __future__ import annotations

import os
import re

from ..fields import canonical
from ..manifest import Edge, Manifest
from .calls import Block, gn_blocks
from .model import Basis, Generator, Known, Role, Span, Target
from .texts import Texts

FILE = "BUILD.gn"
_LABEL = re.compile(r"//([^:(]*):([^(\s]+)\(")
_OF_FILE = re.compile(r"(?:[^/]+/)?obj/(?:(.*)/)?([^/]+)\.ninja")
_OF_STAMP = re.compile(r"(?:[^/]+/)?obj/(?:(.*)/)?([^/]+?)(?:\.inputdeps|\.inputs)?\.stamp")
_ROOT = re.compile(r"--root=(\S+)")
_ROLES = {b"stamp": Role.STAMP, b"alink": Role.LINK, b"link": Role.LINK, b"solink": Role.LINK,
          b"solink_module": Role.LINK}
_COMPILES = (b"cc", b"cxx", b"asm", b"objc", b"objcxx", b"rc")


class GN:
    """The targets of a build folder of GN."""

    def __init__(self, build: str, manifest: Manifest) -> None:
        self.build, self.manifest = build, manifest
        self.top = root_of(build, manifest) or os.path.dirname(build)
        self.targets: dict[str, Target] = {}
        self.texts: Texts[Block] = Texts(gn_blocks)

    def known(self) -> Known:
        """Whose each edge is."""
        found = Known(Generator.GN, "", self.top)
        for edge in self.manifest.edges:
            it = None if edge.phony else self._find(edge)
            if it is not None:
                found.of_edge[edge.number] = it
        return found

    def _find(self, edge: Edge) -> tuple[Target, Role] | None:
        if edge.rule == b"gn" or edge.name in (b"build.ninja", b"build.ninja.stamp"):
            return None
        label = self._label(edge)
        if label is None:
            return None
        name = f"//{label[0]}:{label[1]}"
        if name not in self.targets:
            self.targets[name] = self._target(*label)
        role = _ROLES.get(edge.rule) or (Role.COMPILE if edge.rule in _COMPILES else Role.CUSTOM)
        return self.targets[name], role

    def _label(self, edge: Edge) -> tuple[str, str] | None:
        """The folder and the name of the target: by the file that has the statement, by what an action's rule says,
        or by a stamp."""
        found = _OF_FILE.fullmatch(os.fsdecode(canonical(edge.file)))
        if found is None:
            found = _LABEL.search(os.fsdecode(edge.binding(b"description")))
        if found is None:
            found = next(filter(None, (_OF_STAMP.fullmatch(os.fsdecode(it)) for it in edge.outputs)), None)
        return (found[1] or "", found[2]) if found else None

    def _target(self, folder: str, name: str) -> Target:
        """The target of a label. A name that no block has is one that a template makes."""
        path = os.path.join(self.top, folder, FILE)
        blocks = [it for it in self.texts.of(path) if it.function != "template"]
        found = [it for it in blocks if it.name == name]
        near = found or sorted((it for it in blocks if name.startswith(it.name)), key=lambda it: -len(it.name))[:1]
        kind = near[0].function if near else "target"
        target = Target(f"//{folder}:{name}", kind, folder=os.path.join(self.top, folder))
        target.place_basis = Basis.GUESS
        if near and len(found) < 2:
            target.spans = [Span(path, near[0].line, near[0].last_line, near[0].function)]
            target.variable = near[0].name
        return target


def root_of(build: str, manifest: Manifest) -> str | None:
    """The folder of the sources, by the words with which GN writes the manifest anew."""
    rule = manifest.scope.rules.get(b"gn")
    text = b"".join(it for it in rule.get(b"command", []) if isinstance(it, bytes)) if rule else b""
    found = _ROOT.search(os.fsdecode(text))
    return os.path.normpath(os.path.join(build, found[1])) if found else None
