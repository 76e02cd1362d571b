"""The command line of `rebug mend`. Whatever goes wrong is told in a sentence, and has a status."""

from __future__ import annotations

import os
import signal
from typing import Sequence

from ..installed import launcher
from ..provoke.copies import SHIELD, Ended, Refused
from ..provoke.races import NotAsked
from ..signals import NUMBERS, write_all
from .answering import Answer, line_of, shown
from .applying import NotWritten, write_all as write_files
from .asking import Asker, GeneratorRefused, Unasked
from .findings import Finding, findings_of
from .mending import Mender, Outcome
from .proposer import Proposer
from .words import NAME, BadWords, HelpWanted, Options, read_words

MOST_FINDINGS = 1_000
GOOD, LEFT, NOT_DONE, CANNOT = 0, 4, 2, 3


class Unfit(Exception):
    """A sentence that says why nothing is tried."""


class Voice:
    """What is written: answers to standard output, sentences to standard error, and there, where it is a terminal, a
    line that tells what is done now."""

    def __init__(self) -> None:
        self.is_shown, self.at = os.isatty(2), False

    def show(self, text: str) -> None:
        self.clear()
        write_all(1, f"{text}\n".encode("utf-8", "surrogateescape"))

    def say(self, text: object) -> None:
        self.clear()
        write_all(2, f"{NAME}: {text}\n".encode("utf-8", "surrogateescape"))

    def tell(self, what: str) -> None:
        if self.is_shown:
            self.clear()
            self.at = True
            write_all(2, f"{NAME}: {what} ..".encode("utf-8", "surrogateescape"))

    def clear(self) -> None:
        if self.at:
            write_all(2, b"\r\x1b[K")
        self.at = False


def main(words: Sequence[str]) -> int:
    voice = Voice()
    try:
        for number in NUMBERS:
            signal.signal(number, SHIELD.take)
        return _run(read_words(words), voice)
    except HelpWanted as why:
        voice.show(str(why))
        return GOOD
    except (BadWords, Unfit) as why:
        voice.say(why)
        return NOT_DONE
    except NotAsked as why:
        if str(why):
            voice.say(why)
        return why.status
    except Refused as why:
        voice.say(f"this system makes no copy of a folder in which an edit can be tried: {why}. Nothing was changed")
        return NOT_DONE
    except Ended as why:
        voice.say(f"ended by {signal.Signals(why.number).name}. Nothing was changed")
        return 128 + why.number
    except (OSError, RuntimeError, Unasked, GeneratorRefused, NotWritten) as why:
        voice.say(why)
        return CANNOT
    finally:
        voice.clear()


def _run(options: Options, voice: Voice) -> int:
    if not os.path.isdir(options.build):
        raise Unfit(f"{options.build} is no folder")
    if not os.path.exists(options.recording):
        raise Unfit(f"there is no recording at {options.recording}")
    asker = Asker.of(options.build)
    if asker is None:
        raise Unfit(f"no generator that is known here wrote {options.build}/build.ninja: `rebug races --mend "
                    f"{options.recording}` patches the manifest itself")
    findings, failed = findings_of(options.rebug or launcher(), options.recording)
    chosen = _chosen(findings, options)
    if len(chosen) > MOST_FINDINGS:
        voice.say(f"of {len(chosen)} findings the first {MOST_FINDINGS} are mended: with numbers, others are")
        chosen = chosen[:MOST_FINDINGS]
    voice.tell(f"asking {asker.name}")
    try:
        asked = asker.ask()
    except GeneratorRefused as why:
        raise GeneratorRefused(f"{asker.name} refuses the sources in {asker.top} as they are: {why}") from why
    proposer = Proposer(asker, asked, findings)
    chosen += proposer.missing(failed[:MOST_FINDINGS]) if not options.numbers else []
    outcome = Mender(asker, asked, proposer, voice.tell).mend(chosen)
    answer = Answer(proposer.ground, chosen, outcome)
    for line in map(line_of, answer.objects()) if options.json else answer.lines():
        voice.show(line)
    if options.apply and outcome.texts:
        _apply(proposer, outcome, options, voice)
    return LEFT if outcome.left else GOOD


def _chosen(findings: list[Finding], options: Options) -> list[Finding]:
    """Those that the words ask for."""
    known = {it.number for it in findings}
    for number in options.numbers:
        if number not in known:
            numbers = ", ".join(map(str, sorted(known)[:10])) + (", .." if len(known) > 10 else "")
            raise Unfit(f"there is no finding {number} that an edit could be for: the recording has "
                        f"{numbers or 'none'}")
    return [it for it in findings if not options.numbers or it.number in options.numbers]


def _apply(proposer: Proposer, outcome: Outcome, options: Options, voice: Voice) -> None:
    """Writes the new texts. What is not as it was read is said, and then nothing is written."""
    ground = proposer.ground
    for it in write_files(ground.texts, outcome.texts):
        if options.json:
            voice.show(line_of({"kind": "written", "file": shown(ground.shown(it.file)),
                                "copy": shown(ground.shown(it.copy))}))
        else:
            voice.show(f"wrote {ground.shown(it.file)}; as it was: {ground.shown(it.copy)}")
