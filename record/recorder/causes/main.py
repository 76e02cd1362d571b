"""The command line of `rebug causes`. Whatever goes wrong is told in a sentence, and has a status."""

from __future__ import annotations

import errno
import os
import signal
from collections.abc import Iterable, Sequence

from ..actions.files import Files, Unreadable
from ..fields import canonical, printable
from ..provoke.copies import SHIELD, Ended
from ..rerun.lines import BadRecording
from ..reuse.beside import Without
from ..reuse.recording import Recording
from ..signals import NUMBERS, write_all
from .differing import Side
from .judging import Judge, Outcome, Verdict
from .telling import Sides, Teller
from .words import NAME, BadWords, HelpWanted, Options, read_words

_NOTHING, _AT_FAULT, _NO_ANSWER, _FOUND, _NOT_KNOWN = 0, 2, 3, 4, 5
_PART = 1 << 16
_NANOSECONDS = 1_000_000_000


def say(text: object) -> None:
    """A sentence to standard error."""
    write_all(2, f"{NAME}: {printable(str(text))}\n".encode("utf-8", "surrogateescape"))


def main(words: Sequence[str]) -> int:
    """Answers, and gives the exit status."""
    try:
        for number in NUMBERS:
            signal.signal(number, SHIELD.take)
        return _answered(words)
    except Ended as why:
        say(f"ended by {signal.Signals(why.number).name}")
        return 128 + why.number


def _answered(words: Sequence[str]) -> int:
    try:
        status, lines = answer(read_words(words))
        _write(lines)
        return status
    except HelpWanted as why:
        _write([str(why)])
        return _NOTHING
    except (BadWords, BadRecording) as why:
        say(why)
        return _AT_FAULT
    except Unreadable as why:
        say(why)
    except MemoryError:
        say("the recordings need more memory than this system gives")
    except OSError as why:
        if why.errno != errno.EPIPE:  # whose reader has gone away, and wants nothing more
            say(f"the answer cannot be written: {why.strerror}")
    return _NO_ANSWER


def answer(options: Options) -> tuple[int, Iterable[str]]:
    """The status and the lines of an answer. Raises BadWords, BadRecording and Unreadable."""
    one, other = _recording(options.one), _recording(options.other)
    judge = Judge(one, other, Without(options.without, options.any_environment))
    teller = Teller(judge, _sides(options, judge), options.all)
    if options.why is None:
        return _status(judge.outcomes), teller.objects() if options.json else teller.lines()
    number = _number(judge, options.why)
    lines = teller.why_objects(number) if options.json else teller.why_lines(number)
    return _status(judge.outcomes[number : number + 1]), lines


def _status(outcomes: Sequence[Outcome]) -> int:
    """The status where these commands are asked for."""
    others = {it.verdict for it in outcomes} - {Verdict.SAME, Verdict.ABSORBED}
    return _NOTHING if not others else _NOT_KNOWN if others == {Verdict.UNCERTAIN} else _FOUND


def _sides(options: Options, judge: Judge) -> Sides | None:
    """The folders that have the outputs of both builds; None where none were named. Raises BadWords and Unreadable."""
    if options.files is None:
        return None
    one, other = options.files
    return _side(one, judge.one), _side(other, judge.other)


def _side(folder: str, recording: Recording) -> Side:
    try:
        return Side(Files(folder), recording.folders, recording.history.ended // _NANOSECONDS)
    except BadRecording as why:
        raise BadWords(f"--files wants two folders, and {folder} is none") from why


def _number(judge: Judge, output: str) -> int:
    """The number of the command that leaves an output. Raises BadRecording."""
    edge = judge.one.manifest.producer.get(canonical(os.fsencode(output)))
    found = [number for number, it in enumerate(judge.outcomes) if it.edge is edge]
    if edge is None or edge.phony:
        build = judge.one.entries.build
        path = os.path.normpath(os.path.join(build, os.fsencode(output)))
        found = [number for number, it in enumerate(judge.outcomes) if any(judge.shared.paths[place] == path
                                                                          for place in it.made)]
    if not found:
        raise BadRecording(f"no command that ran in both builds left {output}")
    return found[-1]


def _recording(folder: str) -> Recording:
    """The recording in a folder, or whose file is named. Raises BadRecording and Unreadable."""
    if os.path.isfile(folder):
        folder = os.path.dirname(folder) or "."
    try:
        found = Recording(Files(folder))
    except BadRecording as why:
        raise BadRecording(f"{folder}: {why}") from why
    if not found.has_contents:
        raise BadRecording(f"{folder} has no contents: record the build with --contents")
    return found


def _write(lines: Iterable[str]) -> None:
    """Writes lines to standard output as they come. Raises OSError."""
    part, size = list[str](), 0
    for line in lines:
        part.append(line + "\n")
        size += len(line)
        if size >= _PART:
            _write_whole("".join(part))
            part, size = [], 0
    _write_whole("".join(part))


def _write_whole(text: str) -> None:
    data = text.encode("utf-8", "surrogateescape")
    while data:
        data = data[os.write(1, data) :]
