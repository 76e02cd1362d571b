"""Which commands are hermetic: each is run in rooms of its own, and what it leaves is held against the recording."""

from __future__ import annotations

import enum
import os
from collections.abc import Callable, Collection, Iterator, Sequence
from dataclasses import dataclass, field

from ..fields import canonical
from ..manifest import Edge
from ..provoke.copies import in_process
from .filling import Inputs, Lacking
from .recorded import Command
from .room import AS_RECORDED, Ran, Room, Task, Unfillable, Variation, run_alone, run_in_whole

_MOST_NEEDED, _MOST_RUNS = 4, 80
_NOT_TRIED = frozenset((b".git", b".hg", b".svn", b"__pycache__"))


class Result(enum.Enum):
    """What came of a command that was run once more."""

    SAME = "same"
    OTHER = "other bytes"
    NEEDS = "needs more"
    FAILS = "fails"
    UNKNOWN = "unknown"
    NOT_RUN = "not run"


@dataclass
class Case:
    """A command that is to be run again: its edge, what the recording says of it, the task and its inputs; or why it
    is not run."""

    edge: Edge
    command: Command
    task: Task | None = None
    inputs: Inputs = field(default_factory=Inputs)
    why_not: str = ""


@dataclass
class Verdict:
    """What came of one command. `ran` is the run with its recorded inputs. `needed` are files of the project without
    which it does not leave what it left. `varied` has the runs in other rooms that did not leave the same."""

    result: Result
    why: str = ""
    ran: Ran | None = None
    is_steady: bool = False
    needed: list[bytes] = field(default_factory=list)
    varied: list[tuple[Variation, Ran]] = field(default_factory=list)
    runs: int = 0


@dataclass
class Judge:
    """Runs commands in rooms: `room` has the recorded inputs alone, and `whole` all of the project."""

    room: Room
    whole: Room | None
    variations: Sequence[Variation]

    def verdict(self, case: Case) -> Verdict:
        """What comes of a command. Raises Refused and OSError."""
        task, inputs = case.task, case.inputs
        if task is None:
            return Verdict(Result.NOT_RUN, case.why_not)
        try:
            first = self._alone(task, inputs, AS_RECORDED)
        except Unfillable as why:
            return Verdict(Result.NOT_RUN, str(why))
        if first.is_same:
            found = Verdict(Result.SAME, ran=first, runs=1)
            for it in self.variations:
                ran = self._alone(task, inputs, it)
                found.runs += 1
                if not ran.is_same:
                    found.varied.append((it, ran))
            return found
        if inputs.doubts:
            return Verdict(Result.UNKNOWN, inputs.doubts[0], first, runs=1)
        return self._with_more(case, task, inputs, first)

    def _with_more(self, case: Case, task: Task, inputs: Inputs, first: Ran) -> Verdict:
        """What comes of a command that did not leave the same: whether it does with all of the project."""
        second = self._alone(task, inputs, AS_RECORDED)
        is_steady = (second.status, second.left) == (first.status, first.left)
        found = Verdict(Result.OTHER if first.status == 0 and not first.missing else Result.FAILS, ran=first,
                        is_steady=is_steady, runs=2)
        if second.is_same:
            found.result = Result.OTHER
            return found
        if not is_steady and found.result is Result.OTHER or self.whole is None:
            return found
        whole = self.whole
        others = sorted(_others(whole.project, case, inputs))
        search = _Search(lambda away: in_process(lambda: run_in_whole(whole, task, away)).is_same, others)
        if search.is_good(others):
            found.result, found.needed = Result.NEEDS, search.needed()
            if not found.needed and case.command.names and first.status == 0:
                found.result, found.why = Result.OTHER, "it reads the names in a folder, which come in any order"
        found.runs += search.runs
        return found

    def _alone(self, task: Task, inputs: Inputs, variation: Variation) -> Ran:
        found: Ran = in_process(lambda: run_alone(self.room, task, inputs, variation))
        return found


class _Search:
    """Looks for the files that a command needs, by runs in which others are away."""

    def __init__(self, run: Callable[[Collection[bytes]], bool], others: Sequence[bytes]) -> None:
        self._run, self.others, self.runs = run, others, 0

    def is_good(self, kept: Collection[bytes]) -> bool:
        """Whether the command leaves the same where of all the other files only these are there."""
        self.runs += 1
        there = set(kept)
        return self._run([it for it in self.others if it not in there])

    def needed(self) -> list[bytes]:
        """The first few of them: each is the last of the shortest row of files with which, and with those that are
        known, the command leaves the same."""
        known: list[bytes] = []
        while len(known) < _MOST_NEEDED and self.runs < _MOST_RUNS and not self.is_good(known):
            least, most = 0, len(self.others)
            while most - least > 1:
                middle = (least + most) // 2
                if self.is_good([*self.others[:middle], *known]):
                    most = middle
                else:
                    least = middle
            if not most or self.others[most - 1] in known:
                break
            known.append(self.others[most - 1])
        return known


def _others(tops: Sequence[bytes], case: Case, inputs: Inputs) -> Iterator[bytes]:
    """The files and links of the project that a command was not seen to meet or to change."""
    own = case.command.changed()
    for top in tops:
        for base, folders, names in os.walk(top):
            folders[:] = [it for it in folders if it not in _NOT_TRIED]
            links = [it for it in folders if os.path.islink(os.path.join(base, it))]
            for name in (*names, *links):
                path = os.path.join(base, name)
                if path not in own and path not in inputs.files and path not in inputs.links:
                    yield path


def task_of(edge: Edge, command: Command, build: bytes, ninjas: set[bytes], is_compared: Callable[[bytes], bool],
            seconds: float) -> Task:
    """The task that runs an edge's command as the recording has it."""
    def whole(path: bytes) -> bytes:
        it = os.path.normpath(os.path.join(build, path))
        return os.path.join(os.path.realpath(os.path.dirname(it)), os.path.basename(it))

    response = (whole(canonical(edge.rspfile)), edge.binding(b"rspfile_content")) if edge.rspfile else None
    ignored = {*ninjas, *command.unsettled} - command.left.keys()
    if response:
        ignored.add(response[0])
    if edge.deps and edge.depfile:
        ignored.add(whole(canonical(edge.depfile)))
    made_by_ninja = [*edge.outputs, *([canonical(edge.depfile)] if edge.depfile else [])]
    folders = dict.fromkeys(os.path.dirname(whole(it)) for it in made_by_ninja)
    expected = {path: it for path, it in command.left.items() if is_compared(path)}
    return Task(edge.binding(b"command"), build, response, tuple(folders), expected, frozenset(command.taken),
                frozenset(ignored), seconds)


def case_of(edge: Edge, command: Command, make: Callable[[], tuple[Task, Inputs]]) -> Case:
    """A command that is to be run again, or why it is not."""
    try:
        task, inputs = make()
    except Lacking as why:
        return Case(edge, command, why_not=str(why))
    return Case(edge, command, task, inputs)
