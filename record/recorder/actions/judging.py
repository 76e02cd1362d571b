"""The action of each command: its input root, what it left, and what it met and does not declare."""

from __future__ import annotations

import re
from collections.abc import Iterator, Mapping
from dataclasses import dataclass, field

from ..fields import canonical
from ..manifest import Edge
from ..rerun.entries import File, Link
from .declared import Declarations, Undeclared
from .recording import Command, Place, Recording

_WORD = re.compile(rb"[^\s'\"`=,:;<>|&()]+")


@dataclass
class Tree:
    """Files with their contents, None where these are not certain, and links with where they lead; by entries."""

    files: dict[int, File | None] = field(default_factory=dict)
    links: dict[int, bytes] = field(default_factory=dict)


@dataclass(frozen=True)
class Size:
    """How many files there are with how many bytes, and how many more whose bytes are not certain."""

    files: int
    bytes: int
    unknown: int


@dataclass
class Action:
    """A command with what a machine needs in order to run it. `response` is the path of the response file that Ninja
    writes for it, with its bytes. `named` are the undeclared entries which the command's text names."""

    command: Command
    project: Tree
    system: Tree
    response: tuple[bytes, bytes] | None
    undeclared: list[Undeclared]
    named: set[int]

    def sizes(self) -> tuple[Size, Size]:
        """The size of what it needs of the project, and of the system."""
        return _size(self.project, self.response), _size(self.system, None)


class Judge:
    """Makes the actions of a recording."""

    def __init__(self, recording: Recording) -> None:
        """Raises BadRecording."""
        self.recording, self.declarations = recording, Declarations(recording)

    def actions(self, wanted: set[int] | None) -> Iterator[Action]:
        """The actions of the wanted edges, or of all, in the order of their starts. Raises BadRecording."""
        return (self._action(it) for it in self.recording.commands(wanted))

    def text(self, edge: Edge) -> bytes:
        """The command that the shell gets. Raises BadRecording."""
        return self.recording.manifest.value(edge, b"command")

    def _action(self, command: Command) -> Action:
        edge, value = command.edge, self.recording.manifest.value
        path = value(edge, b"rspfile", True)
        response = (canonical(path), value(edge, b"rspfile_content")) if path else None
        undeclared = self.declarations.undeclared(command)
        project, system = (self._tree(command, it) for it in (Place.PROJECT, Place.SYSTEM))
        return Action(command, project, system, response, undeclared, self._named(edge, undeclared, response))

    def _tree(self, command: Command, place: Place) -> Tree:
        return Tree({entry: command.files[entry] for entry in self.recording.at(place, command.files)},
                    {entry: command.links[entry] for entry in self.recording.at(place, command.links)})

    def _named(self, edge: Edge, undeclared: list[Undeclared], response: tuple[bytes, bytes] | None) -> set[int]:
        """Which of these the command's text names, or that of its response file."""
        if not undeclared:
            return set()
        text = self.text(edge) + b" " + (response[1] if response else b"")
        words = {self.declarations.path_of(canonical(it)) for it in _WORD.findall(text)}
        return {it.entry for it in undeclared if self.recording.entries.paths[it.entry] in words}


def tree_of(its: Mapping[int, File | Link | None]) -> Tree:
    """Contents as a tree."""
    return Tree({entry: it for entry, it in its.items() if not isinstance(it, Link)},
                {entry: it.text for entry, it in its.items() if isinstance(it, Link)})


def _size(tree: Tree, response: tuple[bytes, bytes] | None) -> Size:
    known = [it.size for it in tree.files.values() if it is not None]
    more = [len(response[1])] if response else []
    return Size(len(known) + len(more), sum(known) + sum(more), len(tree.files) - len(known))
