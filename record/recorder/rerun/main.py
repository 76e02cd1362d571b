"""The command line of `rebug rerun`. Whatever goes wrong is told in a sentence, and has a status."""

from __future__ import annotations

import os
import shutil
import signal
import time
from collections.abc import Sequence

from ..provoke.copies import SHIELD, Ended, Refused, in_process
from ..shuffle.commands import NoBuild
from ..shuffle.rooms import layers_of_empty_room, layers_of_whole_room
from ..shuffle.side_by_side import memory_free
from ..signals import NUMBERS, write_all
from .judging import Judge, Result, Verdict
from .lines import BadRecording
from .preparing import Unfit, manifest_of, prepared, project_of, recorded_build
from .room import DATE, USER, Room, become_another_user
from .side_by_side import judge_all
from .telling import lines_of, objects_of
from .words import NAME, BadWords, HelpWanted, Options, read_words

_EACH_SECONDS = 1.0
_SHARE_OF_MEMORY = 0.8
_LEAST_BYTES = 16 << 20
_GOOD, _NOT_BEGUN, _NO_ANSWER, _FOUND, _SOME_NOT_RUN = 0, 2, 3, 4, 5


class Voice:
    """What is written: answers to standard output, sentences to standard error, and there, where it is a terminal, once
    a second a line that says how far the runs are."""

    def __init__(self) -> None:
        self.is_shown, self.at, self.count, self.last, self.has_begun = os.isatty(2), False, 0, 0.0, False

    def show(self, text: str) -> None:
        self.clear()
        write_all(1, f"{text}\n".encode("utf-8", "surrogateescape"))

    def say(self, text: object) -> None:
        self.clear()
        write_all(2, f"{NAME}: {text}\n".encode("utf-8", "surrogateescape"))

    def progress(self, ended: int, runs: int) -> None:
        now = time.monotonic()
        if not self.is_shown or now - self.last < _EACH_SECONDS:
            return
        self.clear()
        self.last, self.at = now, True
        write_all(2, f"{NAME}: {ended} of {self.count} commands, {runs} runs".encode("utf-8", "surrogateescape"))

    def clear(self) -> None:
        if self.at:
            write_all(2, b"\r\x1b[K")
        self.at = False


def main(words: Sequence[str]) -> int:
    voice = Voice()
    try:
        try:
            for number in NUMBERS:
                signal.signal(number, SHIELD.take)
            return _answered(words, voice)
        finally:
            SHIELD.is_up = True
    except Ended as why:
        voice.say(f"ended by {signal.Signals(why.number).name}")
        return 128 + why.number


def _answered(words: Sequence[str], voice: Voice) -> int:
    try:
        return _run(read_words(words), voice)
    except HelpWanted as why:
        voice.show(str(why))
        return _GOOD
    except (BadWords, BadRecording, Unfit, NoBuild) as why:
        voice.say(why)
        return _NOT_BEGUN
    except Refused as why:
        voice.say(f"this system makes no copy of a folder in which a command can be run: {why}")
        return _NO_ANSWER if voice.has_begun else _NOT_BEGUN
    except (OSError, RuntimeError) as why:
        voice.say(why)
        return _NO_ANSWER
    finally:
        voice.clear()


def _run(options: Options, voice: Voice) -> int:
    build, recorded, manifest = recorded_build(options)
    project = project_of(recorded)
    layers, empty = layers_of_empty_room(project, os.environ)
    _check(options)
    folder = os.fsencode(options.recording)
    folder = folder if os.path.isdir(folder) else os.path.dirname(folder) or b"."
    found = prepared(options, build, recorded, manifest, empty, manifest_of(folder))
    share = max(_LEAST_BYTES, int(memory_free() * _SHARE_OF_MEMORY) // options.side_by_side)
    room = Room(tuple(layers), tuple(empty), tuple(project), share)
    judge = Judge(room, _whole(project, share), options.variations)
    voice.count, voice.has_begun = len(found.cases), True
    verdicts = judge_all(judge, found.cases, options.side_by_side, voice.progress)
    voice.clear()
    for line in (objects_of if options.json else lines_of)(found, list(zip(found.cases, verdicts))):
        voice.show(line)
    return _status(verdicts)


def _whole(project: list[bytes], share: int) -> Room | None:
    """The room that has all of the project; None where this system makes none."""
    try:
        layers = layers_of_whole_room(project, os.environ)
    except Refused:
        return None
    return Room(tuple(layers), (), tuple(project), share)


def _check(options: Options) -> None:
    """Looks whether what the options ask for can be had here. Raises Unfit and Refused."""
    if DATE in options.variations and shutil.which("faketime") is None:
        raise Unfit("--date: there is no faketime on the PATH, by which a command is shown another date")
    if USER in options.variations:
        in_process(become_another_user)


def _status(verdicts: Sequence[Verdict]) -> int:
    results = {it.result for it in verdicts}
    if results & {Result.OTHER, Result.NEEDS, Result.FAILS} or any(it.varied for it in verdicts):
        return _FOUND
    return _SOME_NOT_RUN if results & {Result.NOT_RUN, Result.UNKNOWN} else _GOOD
