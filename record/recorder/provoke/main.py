"""The command line of `rebug provoke`. Whatever goes wrong is told in a sentence, and has a status."""

from __future__ import annotations

import errno
import os
import signal
from collections import Counter
from typing import Sequence

from .. import words as ninja_words
from ..installed import launcher
from ..ninja import NoNinja, found_ninja
from ..signals import NUMBERS, write_all
from .answering import NO_ORDERS, REFUSED, STATUSES, UNKNOWN, Answer, Provoker, Unfit
from .copies import SHIELD, Ended, Refused
from .in_place import Blocked, put_back
from .races import Findings, NotAsked, Other, Race, Recording, shown_name
from .words import NAME, BadWords, HelpWanted, Options, read_words


class NotWritten(Exception):
    """The answer could not be written, for a reason with this number."""

    def __init__(self, number: int) -> None:
        super().__init__(number)
        self.number = number


def plain(text: str) -> str:
    """A text in which no byte moves a cursor: what is not printable is escaped."""
    return "".join(it if it.isprintable() else f"\\x{ord(it) & 0xff:02x}" if "\udc80" <= it <= "\udcff" else
                   it.encode("unicode_escape").decode() for it in text)


class Voice:
    """What is written: answers to standard output, sentences to standard error, and there, where it is a terminal, a
    line that says what is done now, and once a second how far it is."""

    def __init__(self) -> None:
        self.is_shown, self.at, self.race = os.isatty(2), False, ""

    def show(self, text: str) -> None:
        """Writes a line of the answer. Raises NotWritten."""
        self.clear()
        data = "".join(f"{plain(line)}\n" for line in text.split("\n")).encode()
        while data:
            try:
                data = data[os.write(1, data) :]
            except OSError as why:
                raise NotWritten(why.errno or 0) from why

    def say(self, text: object) -> None:
        self.clear()
        write_all(2, f"{NAME}: {plain(str(text))}\n".encode())

    def tell(self, what: str, far: str) -> None:
        if self.is_shown:
            self.clear()
            self.at = True
            write_all(2, plain(f"{self.race}: {what.split(' (')[0]} .. {far}").rstrip().encode())

    def clear(self) -> None:
        if self.at:
            write_all(2, b"\r\x1b[K")
        self.at = False


def main(words: Sequence[str]) -> int:
    voice = Voice()
    try:
        for number in NUMBERS:
            signal.signal(number, SHIELD.take)
        return _run(read_words(words), voice)
    except HelpWanted as why:
        voice.show(str(why))
        return 0
    except (BadWords, NoNinja, Unfit) as why:
        voice.say(why)
        return 2
    except NotAsked as why:
        if str(why):
            voice.say(why)
        return why.status
    except Refused as why:
        voice.say(f"this system makes no copy of a folder in which a build can be tried: {why}. Nothing was changed "
                  f"(--in-place moves what is there aside and back)")
        return 2
    except Blocked as why:
        voice.say(why)
        return 2
    except NotWritten as why:
        if why.number == errno.EPIPE:  # the reader has read enough
            return 128 + signal.SIGPIPE
        voice.say(f"cannot write the answer: {os.strerror(why.number)}")
        return 3
    except Ended as why:
        voice.say(f"ended by {signal.Signals(why.number).name}")
        return 128 + why.number
    except (OSError, RuntimeError) as why:
        voice.say(why)
        return 3
    finally:
        voice.clear()


def _run(options: Options, voice: Voice) -> int:
    if not os.path.isdir(options.build):
        raise Unfit(f"{options.build} is no folder")
    put_back(os.path.realpath(os.fsencode(options.build)))
    if not os.path.exists(options.recording):
        raise Unfit(f"there is no recording at {options.recording}")
    try:
        ninja_words.read_words(options.for_ninja)
    except ninja_words.BadWords as why:
        raise Unfit(f"{why} (behind --)") from why
    recording = Recording(options.rebug or launcher(), options.recording)
    found = recording.findings()
    chosen = [it for it in found.races if it.number == options.number or options.number is None and it.is_told]
    if options.number is not None:
        _look_at_number(options.number, chosen, found)
    provoker = Provoker(options, recording, found.races, found_ninja().program, voice.say, voice.tell)
    answers = []
    for count, race in enumerate(chosen, 1):
        voice.race = f"{NAME}: race {count} of {len(chosen)}"
        try:
            answer = provoker.answer(race)
        except Unfit as why:
            if options.number is not None:
                raise
            answer = Answer(UNKNOWN, [str(why)])
        answers.append(answer)
        _show(race, answer, voice, options.number is None)
    if options.number is None:
        _show_table(chosen, answers, voice)
        _show_others(found.others, voice)
    return max((STATUSES[it.text] for it in answers), default=0)


def _look_at_number(number: int, chosen: list[Race], found: Findings) -> None:
    """Whether there is an order to be tried for this number. Raises Unfit."""
    for it in found.others:
        if it.number == number:
            raise Unfit(f"{number} is no matter of order ({it.kind} {shown_name(it.path)}): no order of the commands "
                        f"changes it")
    if not chosen:
        raise Unfit(f"there is no race {number}: the recording has {found.count}")
    if chosen[0].kind in NO_ORDERS:
        raise Unfit(f"race {number} is no matter of order: {NO_ORDERS[chosen[0].kind]}")


def _show(race: Race, answer: Answer, voice: Voice, with_number: bool) -> None:
    voice.show(f"{race.number} {race.told()}" if with_number else race.told())
    for line in answer.lines:
        voice.show("  " + line)
    if answer.text == REFUSED:
        voice.show("it is mended: " + ("one of the two waits for the other, so there is one order" if race.is_clash else
                                       "the user waits for the maker, so it cannot come in front"))
    else:
        voice.show(answer.text)


def _show_table(races: list[Race], answers: list[Answer], voice: Voice) -> None:
    if not races:
        voice.show("no race")
        return
    voice.show("")
    widest = max(len(it.text) for it in answers)
    for race, answer in zip(races, answers):
        maker, user = shown_name(race.maker), shown_name(race.user)
        by = f"by {maker} and by {user}" if race.is_clash else f"by {maker}, used by {user}"
        voice.show(f"{race.number:>4}  {answer.text:<{widest}}  {shown_name(race.path)} {by}")
    good = sum(STATUSES[it.text] == 4 for it in answers)
    voice.show(f"{good} of {len(races)} races were made to happen")


def _show_others(others: list[Other], voice: Voice) -> None:
    """Says which findings were not tried, since no order changes them."""
    counts = Counter(it.kind for it in others)
    if counts:
        kinds = ", ".join(f"{count} {kind}" for kind, count in sorted(counts.items()))
        voice.show(f"not tried, since no order of the commands changes them: {kinds}")
