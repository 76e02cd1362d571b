"""How long the kit's gate is thought to take by the clock, for tools/edits.

The gate works at several proofs and edits side by side (tools/lanes). A crate's proof waits for those of the crates
that it uses, and first comes what most work waits for. Edits fill the processors that proofs leave free. What the kit
has kept takes nothing."""

import heapq
import os
import subprocess
from collections.abc import Collection, Mapping
from dataclasses import dataclass
from pathlib import Path

TOP = Path(__file__).resolve().parent.parent
# The minutes of the clock that proofs and edits may take in a run of ./test. CI has 180; the parts that follow the
# proofs have taken ten of them, and the other twenty are for a machine that is slower than thought.
LIMIT_MINUTES = 150
# A whole run from nothing took 121 minutes of the clock, where the marks alone give 96 on as many processors: four
# proofs shared two cores, and the host gave a part of the processors to others (docs/inside/CONTRIBUTING.md).
SLOWER = 1.27
# The parts of ./test that need no program have one processor for so long, beside the gate.
BESIDE_SECONDS = 17 * 60 / SLOWER


@dataclass(frozen=True)
class Task:
    """What a processor is at for some seconds, once all that it waits for is done."""

    seconds: float
    waits: tuple[str, ...] = ()
    is_edit: bool = False


@dataclass(frozen=True)
class Trying:
    """What a crate's edits take: the proof that they stand on, and each edit over that, in seconds of the processor."""

    proof: float = 0.0
    edits: tuple[float, ...] = ()

    def whole(self) -> float:
        """The seconds of all."""
        return self.proof + sum(self.edits)


def lanes() -> int:
    """How many proofs and edits ./test has the kit work at side by side."""
    given = os.environ.get("RT_JOBS", "")
    if given.isdigit() and int(given):
        return int(given)
    told = subprocess.run([TOP / "tools" / "lanes"], stdout=subprocess.PIPE, text=True, check=True)
    return int(told.stdout)


class Clock:
    """The time of a run by the clock, on so many lanes: first of the proofs alone, and then with edits."""

    def __init__(self, uses: Mapping[str, list[str]], proofs: Mapping[str, float], lanes: int) -> None:
        self.lanes = lanes
        self.uses = uses
        self.tasks = {name: Task(proofs.get(name, 0.0), tuple(uses[name])) for name in uses}
        self.tasks["(the parts beside)"] = Task(BESIDE_SECONDS)

    def with_edits(self, crate: str, trying: Trying) -> dict[str, Task]:
        """The tasks, with those of a crate's edits."""
        seed = f"{crate} (seed)"
        found = {**self.tasks, seed: Task(trying.proof, tuple(self.uses[crate]), True)}
        for number, seconds in enumerate(trying.edits):
            found[f"{crate} ({number})"] = Task(seconds, (crate, seed), True)
        return found

    def minutes(self) -> float:
        """The minutes that the tasks are thought to take."""
        return SLOWER * seconds_of(self.tasks, self.lanes) / 60

    def take(self, crate: str, trying: Trying, limit: float) -> bool:
        """Takes a crate's edits to the tasks where all then ends within so many minutes, and says whether it did."""
        tasks = self.with_edits(crate, trying)
        if trying.whole() > 0 and SLOWER * seconds_of(tasks, self.lanes) / 60 > limit:
            return False
        self.tasks = tasks
        return True


def users_of(tasks: Mapping[str, Task]) -> dict[str, list[str]]:
    """For each task those that wait for it."""
    found: dict[str, list[str]] = {name: [] for name in tasks}
    for name, task in tasks.items():
        for below in task.waits:
            found[below].append(name)
    return found


def in_order(tasks: Mapping[str, Task], users: Mapping[str, list[str]]) -> list[str]:
    """The tasks, each behind those that it waits for."""
    lacking = {name: len(task.waits) for name, task in tasks.items()}
    found = [name for name, number in lacking.items() if not number]
    for name in found:
        for user in users[name]:
            lacking[user] -= 1
            if not lacking[user]:
                found.append(user)
    return found


def behind(tasks: Mapping[str, Task], users: Mapping[str, list[str]], order: Collection[str]) -> dict[str, float]:
    """For each task the seconds of the longest chain that begins with it."""
    found: dict[str, float] = {}
    for name in reversed([*order]):
        found[name] = tasks[name].seconds + max((found[user] for user in users[name]), default=0.0)
    return found


def seconds_of(tasks: Mapping[str, Task], lanes: int) -> float:
    """The seconds that the tasks take on so many lanes."""
    users = users_of(tasks)
    order = in_order(tasks, users)
    chain = behind(tasks, users, order)
    lacking = {name: len(task.waits) for name, task in tasks.items()}
    ready = [(tasks[name].is_edit, -chain[name], name) for name in order if not lacking[name]]
    heapq.heapify(ready)
    running: list[tuple[float, str]] = []
    now = 0.0
    while ready or running:
        while ready and len(running) < lanes:
            name = heapq.heappop(ready)[2]
            heapq.heappush(running, (now + tasks[name].seconds, name))
        now, name = heapq.heappop(running)
        for user in users[name]:
            lacking[user] -= 1
            if not lacking[user]:
                heapq.heappush(ready, (tasks[user].is_edit, -chain[user], user))
    return now
