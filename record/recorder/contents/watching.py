"""What the observer's events say of the moments of commands, and of what stood there when a command ended."""

from __future__ import annotations

from collections.abc import Callable, Iterator
from dataclasses import dataclass, field

from ..observed.calls import Event, Kind
from ..observed.places import Places
from ..observed.processes import Command, Processes
from .versions import Version, of_text

NEVER = 1 << 62
"""The end of a command that was not seen to end."""


@dataclass(slots=True)
class Run:
    """The run of one command. `begin` and `end` are its places among the moments of the build: its first program, and
    the end of its last process. `began` is the kernel's clock for stamps at the beginning, in nanoseconds. `looks` has
    what stood at an entry when its shell had ended and Ninja did not know that yet. `is_settled`: nothing of the
    command ran on after these looks."""

    command: Command
    begin: int
    end: int = NEVER
    began: int = 0
    looks: dict[int, Version] = field(default_factory=dict)
    looked: int = -1

    @property
    def is_settled(self) -> bool:
        return self.end != NEVER and 0 <= self.looked and self.end <= self.looked + 1


@dataclass(slots=True)
class _Early:
    """What was told of a process before its maker told of it: when its command began, by the moments and by the
    kernel's clock, the looks at its end, and the moment of these."""

    begin: int = 0
    began: int = 0
    looks: dict[int, Version] = field(default_factory=dict)
    looked: int = -1


class Watch:
    """The runs of a build's commands, in the order in which they began. `on_look` and `on_end` are called as a look is
    told and as a command has ended."""

    def __init__(self, processes: Processes, places: Places, on_look: Callable[[int, Version], None],
                 on_end: Callable[[Command], None]) -> None:
        self.runs: list[Run] = []
        self._processes, self._places, self._on_look, self._on_end = processes, places, on_look, on_end
        self._moment = 0
        self._by_command: dict[int, Run] = {}
        self._open: list[Run] = []
        self._early: dict[int, _Early] = {}
        self._early_ends: dict[int, int] = {}

    def events(self, events: Iterator[Event]) -> Iterator[Event]:
        """The events without the looks. The one who takes an event is done with it as the next one is asked for."""
        begins, looked, ends = (Kind.EXEC, Kind.SPAWN), Kind.LOOKED, Kind.EXIT
        for event in events:
            kind = event[1].kind
            if kind is looked:
                self._look(event)
                continue
            if kind is ends:
                self._moment += 1
                if event[0] not in self._processes.running:
                    self._early_ends[event[0]] = self._moment
            yield event
            if kind in begins:
                self._note_begun()
            if kind in begins or kind is ends:
                self._note_ended()

    def run_of(self, command: Command) -> Run | None:
        """The run of a command."""
        return self._by_command.get(id(command))

    def _note_begun(self) -> None:
        commands = self._processes.commands
        for command in commands[len(self.runs) :]:
            self._moment += 1
            run = Run(command, self._moment)
            self.runs.append(run)
            self._open.append(run)
            self._by_command[id(command)] = run
            early = next((self._early.pop(it) for it in sorted(command.members) if it in self._early), None)
            if early is not None:
                run.begin, run.began, run.looks, run.looked = early.begin, early.began, early.looks, early.looked
            ends = [self._early_ends.pop(it, NEVER) for it in command.members]
            if command.packed is not None:
                run.end = max(ends)

    def _note_ended(self) -> None:
        for run in [it for it in self._open if it.command.packed is not None]:
            run.end = min(run.end, self._moment)
            self._open.remove(run)
            self._on_end(run.command)

    def _look(self, event: Event) -> None:
        number, call = event
        process = self._processes.running.get(number)
        run: Run | _Early | None
        if process is None:
            run = self._early.setdefault(number, _Early())
        else:
            run = self._by_command.get(id(process.command)) if process.command is not None else None
        if run is None:
            return
        if call.text:
            version, place = of_text(call.name), self._places.number(call.text)
            run.looks[place], run.looked = version, self._moment
            self._on_look(place, version)
        elif not run.began:
            run.began = int(call.name)
            if isinstance(run, _Early):
                self._moment += 1
                run.begin = self._moment
