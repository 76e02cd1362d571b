"""The command line of `rebug summary`. Whatever goes wrong is told in a sentence, and has a status."""

from __future__ import annotations

import os
import signal
from collections.abc import Sequence

from ..installed import launcher
from ..provoke.copies import SHIELD, Ended
from ..rerun.lines import BadRecording
from ..shuffle.commands import NoBuild
from ..signals import NUMBERS, write_all
from .findings import NotAsked, findings_of
from .lines import lines_of
from .recording import read_build
from .words import NAME, BadWords, HelpWanted, Options, read_words

_WRITTEN, _AT_FAULT, _NO_ANSWER = 0, 2, 3


def say(text: object) -> None:
    """A sentence to standard error."""
    write_all(2, f"{NAME}: {text}\n".encode("utf-8", "surrogateescape"))


def main(words: Sequence[str]) -> int:
    try:
        for number in NUMBERS:
            signal.signal(number, SHIELD.take)
        return _answered(words)
    except Ended as why:
        say(f"ended by {signal.Signals(why.number).name}")
        return 128 + why.number


def _answered(words: Sequence[str]) -> int:
    try:
        text = _text(read_words(words))
    except HelpWanted as why:
        text = f"{why}\n"
    except (BadWords, BadRecording, NoBuild) as why:
        say(why)
        return _AT_FAULT
    except NotAsked as why:
        say(f"{why} (--without-findings writes the summary without them)")
        return _NO_ANSWER
    except OSError as why:
        say(why)
        return _NO_ANSWER
    if not write_all(1, text.encode("utf-8", "backslashreplace")):
        say("the summary cannot be written")
        return _NO_ANSWER
    return _WRITTEN


def _text(options: Options) -> str:
    folder = os.fsencode(options.recording)
    if os.path.isfile(folder):
        folder = os.path.dirname(folder) or b"."
    if not os.path.isdir(folder):
        raise BadRecording(f"there is no recording at {options.recording}")
    build = read_build(folder)
    found = findings_of(options.rebug or launcher(), os.fsdecode(folder), build) if options.has_findings else []
    return "".join(it + "\n" for it in lines_of(build, found, options.labels))
