"""Commands run side by side, each by a process of its own that makes its rooms one after the other."""

from __future__ import annotations

import os
import pickle
import select
import signal
from collections.abc import Callable, Sequence
from dataclasses import dataclass, field
from typing import NoReturn

from ..provoke.copies import end_with_parent
from ..signals import NUMBERS
from .judging import Case, Judge, Verdict

_LOOK_SECONDS = 0.2


@dataclass
class _Child:
    """A process that judges a command: its number among them, and where its answer comes."""

    number: int
    process: int
    reader: int
    answer: bytearray = field(default_factory=bytearray)


def judge_all(judge: Judge, cases: Sequence[Case], most: int, tell: Callable[[int, int], None]) -> list[Verdict]:
    """What comes of the commands, `most` of them at a time. `tell` gets how many have ended and how many runs were
    made. Raises what a run raises."""
    found: dict[int, Verdict] = {}
    todo = list(enumerate(cases))[::-1]
    children: list[_Child] = []
    try:
        while todo or children:
            while todo and len(children) < most:
                number, case = todo.pop()
                if case.task is None:
                    found[number] = judge.verdict(case)
                    continue
                children.append(_start(number, judge, case))
                signal.pthread_sigmask(signal.SIG_UNBLOCK, NUMBERS)
            _listen(children, found)
            tell(len(found), sum(it.runs for it in found.values()))
    except BaseException:
        for it in children:
            os.kill(it.process, signal.SIGTERM)
        for it in children:
            os.close(it.reader)
            os.waitpid(it.process, 0)
        raise
    return [found[number] for number in range(len(cases))]


def _listen(children: list[_Child], found: dict[int, Verdict]) -> None:
    ready = select.select([it.reader for it in children], [], [], _LOOK_SECONDS)[0] if children else []
    for it in [it for it in children if it.reader in ready]:
        data = os.read(it.reader, 1 << 20)
        it.answer += data
        if not data:
            children.remove(it)
            os.close(it.reader)
            os.waitpid(it.process, 0)
            found[it.number] = _answer(it)


def _start(number: int, judge: Judge, case: Case) -> _Child:
    reader, writer = os.pipe()
    parent = os.getpid()
    signal.pthread_sigmask(signal.SIG_BLOCK, NUMBERS)  # until it is known which of the two processes this is
    process = os.fork()
    if not process:
        _work(parent, writer, judge, case)
    os.close(writer)
    return _Child(number, process, reader)


def _work(parent: int, writer: int, judge: Judge, case: Case) -> NoReturn:
    """What the process of a command does. It is killed with its parent, and then the keeper of its room ends all that
    it started."""
    try:
        signal.pthread_sigmask(signal.SIG_UNBLOCK, NUMBERS)
        end_with_parent(parent)
        try:
            found: tuple[bool, object] = True, judge.verdict(case)
        except Exception as why:
            found = False, why
        with os.fdopen(writer, "wb") as file:
            file.write(pickle.dumps(found))
    finally:
        os._exit(0)


def _answer(child: _Child) -> Verdict:
    if not child.answer:
        raise RuntimeError("a run was ended from outside")
    is_good, found = pickle.loads(bytes(child.answer))
    if not is_good:
        raise found
    assert isinstance(found, Verdict)
    return found
