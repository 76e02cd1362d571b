"""The command line of `rebug reuse`. Whatever goes wrong is told in a sentence, and has a status."""

from __future__ import annotations

import errno
import os
import signal
from collections.abc import Iterable, Sequence

from ..actions.files import Files, Unreadable
from ..fields import printable
from ..provoke.copies import SHIELD, Ended
from ..rerun.lines import BadRecording
from ..signals import NUMBERS, write_all
from .beside import Without
from .cutting import Cutter
from .judging import Judge
from .recording import Recording
from .telling import Teller
from .words import NAME, BadWords, HelpWanted, Options, read_words

_NOTHING, _AT_FAULT, _NO_ANSWER, _FOUND, _NOT_KNOWN = 0, 2, 3, 4, 5
_PART = 1 << 16


def say(text: object) -> None:
    """A sentence to standard error."""
    write_all(2, f"{NAME}: {printable(str(text))}\n".encode("utf-8", "surrogateescape"))


def main(words: Sequence[str]) -> int:
    """Answers, and gives the exit status."""
    try:
        for number in NUMBERS:
            signal.signal(number, SHIELD.take)
        return _answered(words)
    except Ended as why:
        say(f"ended by {signal.Signals(why.number).name}")
        return 128 + why.number


def _answered(words: Sequence[str]) -> int:
    try:
        options = read_words(words)
        teller = _teller(options)
        _write(teller.objects() if options.json else teller.lines())
        return _FOUND if teller.is_found else _NOTHING if teller.is_whole else _NOT_KNOWN
    except HelpWanted as why:
        _write([str(why)])
        return _NOTHING
    except (BadWords, BadRecording) as why:
        say(why)
        return _AT_FAULT
    except Unreadable as why:
        say(why)
    except MemoryError:
        say("the recording needs more memory than this system gives")
    except OSError as why:
        if why.errno != errno.EPIPE:  # whose reader has gone away, and wants nothing more
            say(f"the answer cannot be written: {why.strerror}")
    return _NO_ANSWER


def _teller(options: Options) -> Teller:
    """What tells the answer. Raises BadRecording and Unreadable."""
    new = _recording(options.new)
    if not new.has_contents:
        raise BadRecording(f"{options.new} has no contents: record the build with --contents")
    judge = Judge(new, [_recording(it) for it in options.olds], Without(options.without, options.any_environment))
    cases = judge.cases()
    return Teller(judge, cases, Cutter(judge, cases).cut())


def _recording(folder: str) -> Recording:
    """The recording in a folder, or whose file is named. Raises BadRecording and Unreadable."""
    if os.path.isfile(folder):
        folder = os.path.dirname(folder) or "."
    try:
        return Recording(Files(folder))
    except BadRecording as why:
        raise BadRecording(f"{folder}: {why}") from why


def _write(lines: Iterable[str]) -> None:
    """Writes lines to standard output as they come. Raises OSError."""
    part, size = list[str](), 0
    for line in lines:
        part.append(line + "\n")
        size += len(line)
        if size >= _PART:
            _write_whole("".join(part))
            part, size = [], 0
    _write_whole("".join(part))


def _write_whole(text: str) -> None:
    data = text.encode("utf-8", "surrogateescape")
    while data:
        data = data[os.write(1, data) :]
