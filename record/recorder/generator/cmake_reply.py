"""What CMake's File API told of the targets when it wrote the manifest last."""

from __future__ import annotations

import json
import os
from dataclasses import dataclass, field
from typing import Any

from .model import Span
from .texts import MOST_BYTES, text_of

REPLY = ".cmake/api/v1/reply"
_MOST_OF_ALL = 64 * MOST_BYTES


@dataclass
class ReplyTarget:
    """A target: its kind, the calls that declare it (the innermost first), its folders, what it makes, its sources."""

    name: str
    kind: str
    spans: list[Span]
    folder: str
    binary: str
    outputs: list[str] = field(default_factory=list)
    sources: list[str] = field(default_factory=list)


@dataclass
class Reply:
    """The targets by their names, and the folders of what is built by the folders of the sources."""

    targets: dict[str, ReplyTarget] = field(default_factory=dict)
    binaries: dict[str, str] = field(default_factory=dict)


def read_reply(build: str, written_since: int = 0) -> Reply | None:
    """The reply in a build folder; None where there is none, where it is older than that stamp, or not as it is known
    to be."""
    folder = os.path.join(build, REPLY)
    try:
        index = max((it for it in os.listdir(folder) if it.startswith("index-")), default="")
        path = os.path.join(folder, index)
        if not index or os.stat(path).st_mtime_ns < written_since:
            return None
        return _Reader(build, folder).read(index)
    except (OSError, ValueError, KeyError, TypeError, IndexError, AttributeError, RecursionError):
        return None


class _Reader:
    def __init__(self, build: str, folder: str) -> None:
        self.build, self.folder, self.left = build, folder, _MOST_OF_ALL

    def json(self, name: str) -> Any:
        if "/" in name or name.startswith("."):
            raise ValueError(name)
        text = text_of(os.path.join(self.folder, name), self.left)
        if text is None:
            raise ValueError(name)
        self.left -= len(text)
        return json.loads(text)

    def read(self, index: str) -> Reply:
        objects = self.json(index)["objects"]
        model = self.json(next(it["jsonFile"] for it in objects if it["kind"] == "codemodel"))
        found, source = Reply(), model["paths"]["source"]
        for configuration in model["configurations"]:
            for it in configuration["directories"]:
                found.binaries[_joined(source, it["source"])] = _joined(self.build, it["build"])
            for it in configuration["targets"]:
                target = self.target(self.json(it["jsonFile"]), source)
                known = found.targets.setdefault(target.name, target)
                if known is not target:
                    known.outputs += target.outputs
                    known.sources += target.sources
        return found

    def target(self, it: dict[str, Any], source: str) -> ReplyTarget:
        paths = it["paths"]
        outputs = [os.path.normpath(os.path.join(self.build, a["path"])) for a in it.get("artifacts", [])]
        sources = [os.path.normpath(os.path.join(source, s["path"])) for s in it.get("sources", [])]
        return ReplyTarget(it["name"], it["type"], _spans(it, source), _joined(source, paths["source"]),
                           _joined(self.build, paths["build"]), outputs, sources)


def _joined(top: str, path: str) -> str:
    return os.path.normpath(os.path.join(top, path))


def _spans(it: dict[str, Any], source: str) -> list[Span]:
    """The chain of calls from the one that declares a target outwards."""
    graph, found = it["backtraceGraph"], []
    at, left = it.get("backtrace"), len(it["backtraceGraph"]["nodes"])
    while at is not None and left:
        node = graph["nodes"][at]
        if "line" in node:
            line = int(node["line"])
            found.append(Span(_joined(source, graph["files"][node["file"]]), line, line,
                              str(graph["commands"][node["command"]])))
        at, left = node.get("parent"), left - 1
    return found
