"""What signals do to a recording.

Before Ninja runs one ends the recorder. While Ninja runs they are Ninja's. After that they are held until the recording
is written; a second one within two seconds ends the recorder, and the recording that was there stays. Those that come
while the recorder ends, within two seconds, do nothing more.
"""

from __future__ import annotations

import contextlib
import os
import signal
import threading
import time
from types import FrameType
from typing import Callable, Iterator

NUMBERS = (signal.SIGINT, signal.SIGTERM, signal.SIGHUP)
_SECOND_WITHIN = 2.0


class Ended(BaseException):
    """The recorder was told to end. No `except Exception` takes it."""

    def __init__(self, number: int) -> None:
        super().__init__(number)
        self.number = number


def name_of(number: int) -> str:
    """A signal's name."""
    try:
        return signal.Signals(number).name
    except ValueError:
        return f"signal {number}"


class Signals:
    """Takes the three signals by which users and systems end a program."""

    def __init__(self, say: Callable[[object], None]) -> None:
        self.say = say
        # says whether there is somebody to hand a signal on to
        self.hand_on: Callable[[int], bool] | None = None
        self.held: list[int] = []
        self.last: float | None = None
        self.ended: float | None = None
        self.has_run, self.is_switching = False, False

    def install(self) -> None:
        """Takes them from now on. A hangup that the caller has told to be ignored stays so."""
        for number in NUMBERS:
            if number != signal.SIGHUP or signal.getsignal(number) != signal.SIG_IGN:
                signal.signal(number, self._came)

    def give_back(self) -> None:
        """From now on each ends the process, without a word."""
        for number in NUMBERS:
            if signal.getsignal(number) != signal.SIG_IGN:
                signal.signal(number, signal.SIG_DFL)

    def _came(self, number: int, _: FrameType | None) -> None:
        now, last = time.monotonic(), self.last
        if self.ended is not None and now - self.ended <= _SECOND_WITHIN:
            return  # it is ending: what a hasty user sends besides would end the telling of it
        if self.hand_on and self.hand_on(number):
            return
        if not self.has_run:
            self.ended = now
            raise Ended(number)
        self.held.append(number)
        self.last = now
        if self.is_switching:
            return
        if last is not None and now - last <= _SECOND_WITHIN:
            self.ended = now
            raise Ended(number)
        self.say(f"{name_of(number)} is held until the recording is written; a second one within two seconds ends it")


@contextlib.contextmanager
def held_back() -> Iterator[None]:
    """Signals that come in between come once it is over."""
    if threading.current_thread() is not threading.main_thread():
        yield
        return
    came: list[int] = []
    before = {number: signal.signal(number, lambda it, _: came.append(it)) for number in NUMBERS
              if signal.getsignal(number) not in (signal.SIG_IGN, None)}
    try:
        yield
    finally:
        for number, handler in before.items():
            signal.signal(number, handler)
        for late in came:
            signal.raise_signal(late)


def write_all(descriptor: int, data: bytes) -> bool:
    """Writes the bytes; false where nobody can take them any more."""
    while data:
        try:
            data = data[os.write(descriptor, data) :]
        except OSError:
            return False
    return True
