"""Runs side by side, each in a room of its own, with a process of its own."""

from __future__ import annotations

import mmap
import os
import pickle
import select
import signal
import struct
from dataclasses import dataclass, field
from typing import Callable, Iterable, NoReturn, Sequence

from ..provoke.copies import end_with_parent, in_process
from ..signals import NUMBERS
from .running import Place, Ran, Task, run_in_room

_LOOK_SECONDS = 0.2
_SHARE_OF_MEMORY = 0.8
_SPARE_BYTES = 64 << 20


class NoRoom(Exception):
    """A sentence that says that there is not enough memory for a copy."""


@dataclass
class _Child:
    """A process that runs a task: its number among the tasks, where its answer comes, and how far it is."""

    number: int
    process: int
    reader: int
    progress: mmap.mmap
    answer: bytearray = field(default_factory=bytearray)

    def steps(self) -> int:
        found: int = struct.unpack("q", self.progress[:8])[0]
        return found


@dataclass
class Bench:
    """Where tasks run: how many side by side, in how many megabytes of memory, and who is told how far they are: how
    many commands have run, of how many, and how many runs are left. `used` is how many bytes of memory a copy has taken
    at most."""

    place: Place
    most: int
    tell: Callable[[int, int, int], None] = lambda commands, all, runs: None
    megabytes: int | None = None
    used: int = 0
    runs: int = 0
    processor: float = 0.0

    def run(self, task: Task) -> Ran:
        return self.run_all([task])[0]

    def run_all(self, tasks: Sequence[Task]) -> list[Ran]:
        """What came of the tasks. Raises NoRoom, Refused, and what a run raises."""
        found: dict[int, Ran] = {}
        todo = list(enumerate(tasks))[::-1]
        children: list[_Child] = []
        try:
            while todo or children:
                while todo and len(children) < self._side_by_side():
                    number, task = todo.pop()
                    children.append(_start(number, self.place, task, self._room(len(children) + 1 + len(todo))))
                    signal.pthread_sigmask(signal.SIG_UNBLOCK, NUMBERS)
                self._listen(children, found, tasks)
        except BaseException:
            for it in children:
                os.kill(it.process, signal.SIGTERM)
            for it in children:
                os.close(it.reader)
                os.waitpid(it.process, 0)
            raise
        return [found[number] for number in range(len(tasks))]

    def _side_by_side(self) -> int:
        """How many rooms there is memory for, by what one has taken."""
        if not self.runs or self.place.copying:
            return 1
        return max(1, min(self.most, self.memory() // (self.used + _SPARE_BYTES)))

    def _room(self, wanted: int) -> int:
        """How many bytes one of the rooms may take."""
        count = min(self._side_by_side(), max(1, wanted))
        return max(1 << 20, self.memory() // count)

    def check_room(self, outputs: Iterable[bytes]) -> None:
        """Raises NoRoom where the outputs that an earlier build left are more than there is memory for."""
        stamps = self.place.before.stamps
        needed = sum(stamps[it].size for it in set(outputs) if it in stamps)
        if needed > self.memory():
            raise NoRoom(f"the copies stand in memory, of which {self.memory() >> 20} MB are free, and the outputs "
                         f"that are there take {needed >> 20} MB. Nothing has run")

    def memory(self) -> int:
        """How many bytes all copies together may take."""
        free = int(memory_free() * _SHARE_OF_MEMORY)
        return free if self.megabytes is None else min(free, self.megabytes << 20)

    def _listen(self, children: list[_Child], found: dict[int, Ran], tasks: Sequence[Task]) -> None:
        ready = select.select([it.reader for it in children], [], [], _LOOK_SECONDS)[0]
        for it in [it for it in children if it.reader in ready]:
            data = os.read(it.reader, 1 << 20)
            it.answer += data
            if not data:
                children.remove(it)
                os.close(it.reader)
                os.waitpid(it.process, 0)
                ran = found[it.number] = _answer(it)
                self.used, self.runs = max(self.used, ran.used), self.runs + 1
                self.processor += ran.processor
                if ran.is_full:
                    raise NoRoom(f"the copies stand in memory, and there is no room for what this build leaves: "
                                 f"{ran.used >> 20} MB were not enough")
        ended = sum(tasks[number].length for number in found)
        self.tell(ended + sum(it.steps() for it in children), sum(it.length for it in tasks), len(tasks) - len(found))


def memory_free() -> int:
    """How much memory the system says it can give, in bytes."""
    try:
        with open("/proc/meminfo", encoding="ascii") as file:
            for line in file:
                if line.startswith("MemAvailable:"):
                    return int(line.split()[1]) << 10
    except (OSError, ValueError):
        pass
    return 1 << 30


def _start(number: int, place: Place, task: Task, most_bytes: int) -> _Child:
    progress = mmap.mmap(-1, mmap.PAGESIZE)
    reader, writer = os.pipe()
    parent = os.getpid()
    signal.pthread_sigmask(signal.SIG_BLOCK, NUMBERS)  # until it is known which of the two processes this is
    process = os.fork()
    if not process:
        _work(parent, writer, place, task, most_bytes, progress)
    child = _Child(number, process, reader, progress)
    os.close(writer)
    return child


def _work(parent: int, writer: int, place: Place, task: Task, most_bytes: int, progress: mmap.mmap) -> NoReturn:
    """What the process of a task does. It is killed with its parent, and then its keeper ends all that it started."""
    try:
        signal.pthread_sigmask(signal.SIG_UNBLOCK, NUMBERS)
        end_with_parent(parent)
        try:
            at_end = place.copying.leave if place.copying else lambda: None
            run = lambda: run_in_room(place, task, most_bytes, progress)
            found: tuple[bool, object] = True, in_process(run, at_end)
        except Exception as why:
            found = False, why
        with os.fdopen(writer, "wb") as file:
            file.write(pickle.dumps(found))
    finally:
        os._exit(0)


def _answer(child: _Child) -> Ran:
    if not child.answer:
        raise RuntimeError("a run was ended from outside")
    is_good, found = pickle.loads(bytes(child.answer))
    if not is_good:
        raise found
    assert isinstance(found, Ran)
    return found
