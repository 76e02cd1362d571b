"""Reads the words of `rebug rerun`."""

from __future__ import annotations

import argparse
import os
from collections.abc import Callable, Sequence
from dataclasses import dataclass, field
from typing import NoReturn

from .room import DATE, FOLDER, STAMPS, USER, Variation

NAME = "rebug rerun"
_USAGE = """%(prog)s BUILD_DIR RECORDING [OUT...] [--stamps] [--date] [--folder] [--user] [-f FILE] [-j N]
                   [--limit SECONDS] [--json]"""
_ABOUT = """Runs each command of a recorded build once more, in a room of its own that has the inputs which the command
met and nothing else of the project. Says which commands leave the same bytes, which leave other bytes, and which need
what the recording does not show. RECORDING was made with --contents, and BUILD_DIR is as that build left it. With
outputs OUT only the commands that make these are run. Nothing outside of the rooms is changed."""
_MORE = """exit status:
  0  each command was run, and left the same bytes
  2  the words, a folder, the recording or an output are at fault, or this system refuses the rooms; nothing has run
  3  there is no answer: a room has not enough memory, or the answer cannot be written
  4  a command left other bytes, failed, or needs what the recording does not show
  5  no command did so, and some could not be run again
  128 and the signal's number where a signal ended it

examples:
  rebug rerun build recorded
  rebug rerun build recorded app --stamps --folder"""
_MOST = 1 << 31


class BadWords(Exception):
    """Words that are not understood, as a sentence."""


class HelpWanted(Exception):
    """The user asked for help, which is the text."""


@dataclass
class Options:
    """What is to be run again, and how. `jobs` is None where as many runs side by side as there are processors are
    meant."""

    build: str
    recording: str
    outputs: list[str]
    manifest: str
    limit: int
    json: bool
    jobs: int | None = None
    variations: list[Variation] = field(default_factory=list)

    @property
    def side_by_side(self) -> int:
        return self.jobs or len(os.sched_getaffinity(0))


class _Parser(argparse.ArgumentParser):
    def error(self, message: str) -> NoReturn:
        raise BadWords(f"{message} ({NAME} --help tells the words)")


def _number(word: str, meaning: str) -> Callable[[str], int]:
    def read(text: str) -> int:
        if not (text.isascii() and text.isdigit() and 1 <= int(text) < _MOST):
            raise BadWords(f"{word} {text}: {meaning}")
        return int(text)
    return read


def _words() -> argparse.ArgumentParser:
    words = _Parser(prog=NAME, usage=_USAGE, description=_ABOUT, epilog=_MORE, add_help=False, allow_abbrev=False,
                    formatter_class=argparse.RawDescriptionHelpFormatter)
    words.add_argument("-h", "--help", action="store_true", help="tell these words")
    words.add_argument("names", metavar="BUILD_DIR RECORDING [OUT...]", nargs="*",
                       help="the folder that Ninja runs in, a recording of its build, and outputs")
    words.add_argument("--stamps", action="store_true",
                       help="run each command that leaves the same bytes again, with inputs whose stamps are a day "
                            "earlier")
    words.add_argument("--date", action="store_true",
                       help="the same at another date, 400 days later; it needs the program faketime")
    words.add_argument("--folder", action="store_true",
                       help="the same in another folder, which the command's text names in place of its own")
    words.add_argument("--user", action="store_true",
                       help="the same as the user nobody, with an empty home")
    words.add_argument("-f", metavar="FILE", dest="manifest", default="build.ninja",
                       help="the manifest in BUILD_DIR; else build.ninja")
    words.add_argument("-j", metavar="N", dest="jobs", type=_number("-j", "so many commands side by side, from 1 on"),
                       help="run at most N commands side by side; else one for each processor")
    words.add_argument("--limit", metavar="SECONDS", type=_number("--limit", "so many seconds, from 1 on"), default=600,
                       help="end a command that takes longer; else 600")
    words.add_argument("--json", action="store_true", help="write a JSON object a line in place of words")
    return words


def told_words() -> list[tuple[str, str | None, str]]:
    """The words that begin with a dash, each with the name of its value, or None, and its meaning."""
    return [(it.option_strings[-1], it.metavar if isinstance(it.metavar, str) else None, it.help or "")
            for it in _words()._actions if it.option_strings]


def read_words(words: Sequence[str]) -> Options:
    """What the words ask for. Raises BadWords with a sentence, and HelpWanted with the text."""
    found = _words().parse_intermixed_args(list(words))
    if found.help:
        raise HelpWanted(_words().format_help().rstrip())
    if len(found.names) < 2:
        raise BadWords(f"{NAME} wants a build folder and a recording ({NAME} --help tells the words)")
    build, recording, *outputs = found.names
    chosen = ((found.stamps, STAMPS), (found.date, DATE), (found.folder, FOLDER), (found.user, USER))
    return Options(build, recording, outputs, found.manifest, found.limit, found.json, found.jobs,
                   [it for is_wanted, it in chosen if is_wanted])
