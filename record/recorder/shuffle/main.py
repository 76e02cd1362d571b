"""The command line of `rebug shuffle`. Whatever goes wrong is told in a sentence, and has a status."""

from __future__ import annotations

import os
import secrets
import signal
import tempfile
import time
from typing import Sequence

from ..ninja import NoNinja, found_ninja
from ..provoke.copies import SHIELD, Ended, Refused
from ..signals import NUMBERS, write_all
from .commands import NoBuild
from .judging import Judge, Report, Unfit
from .keeping import BadOut, Out
from .places import prepared
from .recorded import check_recordings
from .side_by_side import Bench, NoRoom
from .telling import lines_of, objects_of
from .words import NAME, BadWords, HelpWanted, Options, read_words

_EACH_SECONDS = 1.0


class Voice:
    """What is written: answers to standard output, sentences to standard error, and there, where it is a terminal, once
    a second a line that says how far the runs are."""

    def __init__(self) -> None:
        self.is_shown, self.at, self.what, self.last = os.isatty(2), False, "", 0.0

    def show(self, text: str) -> None:
        self.clear()
        write_all(1, f"{text}\n".encode("utf-8", "surrogateescape"))

    def say(self, text: object) -> None:
        self.clear()
        write_all(2, f"{NAME}: {text}\n".encode("utf-8", "surrogateescape"))

    def tell(self, what: str) -> None:
        self.what, self.last = what, 0.0

    def progress(self, commands: int, all_commands: int, runs: int) -> None:
        now = time.monotonic()
        if not self.is_shown or now - self.last < _EACH_SECONDS:
            return
        self.clear()
        self.last, self.at = now, True
        left = f"{commands} of {all_commands} commands, {runs} run{'' if runs == 1 else 's'} left"
        write_all(2, f"{NAME}: {self.what}: {left}".encode("utf-8", "surrogateescape"))

    def clear(self) -> None:
        if self.at:
            write_all(2, b"\r\x1b[K")
        self.at = False


def main(words: Sequence[str]) -> int:
    voice = Voice()
    try:
        try:
            for number in NUMBERS:
                signal.signal(number, SHIELD.take)
            return _answered(words, voice)
        finally:
            SHIELD.is_up = True
    except Ended as why:
        voice.say(f"ended by {signal.Signals(why.number).name}")
        return 128 + why.number


def _answered(words: Sequence[str], voice: Voice) -> int:
    try:
        return _run(read_words(words), voice)
    except HelpWanted as why:
        voice.show(str(why))
        return 0
    except (BadWords, BadOut, NoNinja, NoBuild) as why:
        voice.say(why)
        return 2
    except Refused as why:
        voice.say(f"this system makes no copy of a folder in which a build can be run: {why}. Nothing has run "
                  f"(--in-copy builds in a copy in another path)")
        return 2
    except (Unfit, NoRoom) as why:
        voice.say(why)
        return 3 if voice.what else 2
    except (OSError, RuntimeError) as why:
        voice.say(why)
        return 3
    finally:
        voice.clear()


def _run(options: Options, voice: Voice) -> int:
    copies = None
    if options.in_copy:  # each run makes this folder, and takes it away
        name = f"rebug-shuffle-{secrets.token_hex(8)}"
        copies = os.fsencode(os.path.join(os.path.realpath(tempfile.gettempdir()), name))
    ninja = os.fsencode(found_ninja().program)
    build = prepared(os.fsencode(options.build), ninja, options.for_ninja, dict(os.environ), copies)
    if copies:
        voice.say(f"the builds run in {os.fsdecode(copies + build.place.build)}, one after the other; what commands do "
                  f"elsewhere is done")
    out = Out.checked(options.out, build) if options.out is not None else None
    if options.observe:
        check_recordings(build.commands)
    bench = Bench(build.place, options.side_by_side, voice.progress, options.most_memory)
    judge = Judge(options, build, bench, voice.tell)
    bench.check_room(judge.declared)
    report = judge.judge()
    voice.clear()
    if out:
        out.write(report, build, judge)
    for outcome in report.outcomes:
        if outcome.not_recorded:
            voice.say(f"{outcome.name} was not recorded: {outcome.not_recorded}")
    for line in (objects_of if options.json else lines_of)(report, build):
        voice.show(line)
    return 4 if report.findings else 0
