"""The actions in words and as JSON."""

from __future__ import annotations

import hashlib
import json
from collections.abc import Iterator
from dataclasses import dataclass, field

from ..fields import shown
from ..manifest import Edge
from ..provoke.races import shown_name
from ..rerun.entries import File
from .declared import Undeclared
from .judging import Action, Judge, Size, Tree, tree_of

_MOST_NAMES = 3


@dataclass
class Counts:
    """What is counted while actions are made. `partly` are commands that were not observed whole."""

    commands: int = 0
    undeclared: int = 0
    partly: list[Edge] = field(default_factory=list)

    def take(self, it: Action) -> None:
        """Counts an action."""
        self.commands += 1
        self.undeclared += bool(it.undeclared)
        if it.command.flags:
            self.partly.append(it.command.edge)


@dataclass(frozen=True)
class _Root:
    """The size of an input root."""

    edge: Edge
    project: Size
    system: Size


class Teller:
    """Tells the actions of a recording: of the wanted edges, or of all."""

    def __init__(self, judge: Judge, wanted: set[int] | None) -> None:
        self.counts = Counts()
        self._judge, self._wanted = judge, wanted
        self._names = judge.recording.entries.names
        observed = {it.number for it in judge.recording.edges}
        self._unseen = [it for it in judge.recording.trace.started if it not in observed and wanted is None]

    def lines(self) -> Iterator[str]:
        """The answer in words. Raises BadRecording."""
        found: list[Action] = []
        roots: list[_Root] = []
        for it in self._judge.actions(self._wanted):
            self.counts.take(it)
            roots.append(_Root(it.command.edge, *it.sizes()))
            if it.undeclared:
                it.project, it.system = Tree(), Tree()
                it.command.files, it.command.left = {}, {}
                found.append(it)
        yield (f"{self.counts.undeclared:,} of {_count(self.counts.commands, 'command')} met files of the project that "
               f"{'it does' if self.counts.undeclared == 1 else 'they do'} not declare")
        for it in sorted(found, key=lambda it: -len(it.undeclared)):
            yield f"{_command(it.command.edge)} met {len(it.undeclared):,} that it does not declare"
            yield from (f"  {self._undeclared(it, one)}" for one in it.undeclared)
        yield from self._doubts()
        yield from _roots(roots)

    def objects(self) -> Iterator[str]:
        """The answer as JSON objects. Raises BadRecording."""
        entries = self._judge.recording.entries
        environment = [{"name": shown_name(name), "digest": shown(digest)}
                       for name, digest in sorted(entries.environment.items())]
        yield _json(kind="build", build=shown_name(entries.build), sources=list(map(shown_name, entries.sources)),
                    environment=environment, environment_key=shown(entries.key))
        for it in self._judge.actions(self._wanted):
            self.counts.take(it)
            yield self._action(it)
        yield _json(kind="actions", commands=self.counts.commands, undeclared=self.counts.undeclared,
                    flagged=len(self.counts.partly), unobserved=len(self._unseen))

    def _action(self, it: Action) -> str:
        edge, tree = it.command.edge, self._tree(it.project)
        if it.response:
            path, text = it.response
            tree["files"].append({"path": shown_name(path), "digest": hashlib.sha256(text).hexdigest(),
                                  "size_bytes": len(text), "is_executable": False})
        return _json(kind="action", **_place(edge), failed=it.command.has_failed,
                     flags=list(map(shown_name, it.command.flags)),
                     arguments=["/bin/sh", "-c", shown_name(self._judge.text(edge))], input_root=tree,
                     system=self._tree(it.system), output_paths=list(map(shown_name, edge.outputs)),
                     outputs=self._tree(tree_of(it.command.left)),
                     undeclared=[self._object(it, one) for one in it.undeclared])

    def _tree(self, tree: Tree) -> dict[str, list[dict[str, object]]]:
        return {"files": [{"path": shown_name(self._names[entry]), **_content(tree.files[entry])}
                          for entry in sorted(tree.files)],
                "symlinks": [{"path": shown_name(self._names[entry]), "target": shown_name(tree.links[entry])}
                             for entry in sorted(tree.links)]}

    def _object(self, action: Action, it: Undeclared) -> dict[str, object]:
        maker = self._judge.declarations.maker(it.entry)
        return {"path": shown_name(self._names[it.entry]), "how": it.how, "named": it.entry in action.named,
                "maker": _place(maker) if maker else None, "names": it.names}

    def _undeclared(self, action: Action, it: Undeclared) -> str:
        """An entry that the command met and does not declare."""
        name, maker = shown_name(self._names[it.entry]), self._judge.declarations.maker(it.entry)
        if it.how == "listed":
            count = "which are not certain" if it.names is None else f"{it.names:,}"
            return f"read the names in {name}: {count}, and {it.declared:,} by what it declares"
        text = {"read": f"read {name}", "edited": f"changed {name} in place", "asked": f"asked for {name}",
                "link": f"came through the link {name}"}[it.how]
        if maker is action.command.edge:
            text += ", which it left there itself before"
        elif maker is not None:
            text += f", which {_command(maker)} makes"
        return text + "; its command names it" * (it.entry in action.named)

    def _doubts(self) -> Iterator[str]:
        partly = self.counts.partly
        if partly:
            yield (f"{_count(len(partly), 'command')} may have met more, since not all was observed: "
                   f"{_some(list(map(_command, partly)))}")
        if self._unseen:
            yield f"{_count(len(self._unseen), 'command')} ran without being observed"


def _roots(roots: list[_Root]) -> Iterator[str]:
    """The median and the greatest input root, by the bytes of the project."""
    its = sorted(roots, key=lambda it: (it.project.bytes, it.project.files + it.project.unknown))
    for what, at in (("median", (len(its) - 1) // 2), ("greatest", -1)):
        if its:
            it = its[at]
            yield (f"{what} input root: {_command(it.edge)}: {_size(it.project)} of the project, {_size(it.system)} of "
                   f"the system")


def _size(it: Size) -> str:
    unknown = f" and {it.unknown:,} of unknown size" * bool(it.unknown)
    return f"{_count(it.files, 'file')} ({it.bytes:,} bytes){unknown}"


def _content(it: File | None) -> dict[str, object]:
    return {"digest": shown(it.digest) if it else None, "size_bytes": it.size if it else None,
            "is_executable": it.is_executable if it else None}


def _place(edge: Edge) -> dict[str, object]:
    return {"output": shown_name(edge.name), "file": shown_name(edge.file), "line": edge.line}


def _json(**members: object) -> str:
    return json.dumps(members, sort_keys=True)


def _some(names: list[str]) -> str:
    more = f" and {len(names) - _MOST_NAMES:,} more" if names[_MOST_NAMES:] else ""
    return ", ".join(names[:_MOST_NAMES]) + more


def _command(edge: Edge) -> str:
    return f"{shown_name(edge.name)} ({shown_name(edge.file)}:{edge.line})"


def _count(number: int, what: str) -> str:
    return f"{number:,} {what}{'' if number == 1 else 's'}"
