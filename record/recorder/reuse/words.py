"""Reads the words of `rebug reuse`."""

from __future__ import annotations

import argparse
import os
from collections.abc import Sequence
from dataclasses import dataclass
from typing import NoReturn

NAME = "rebug reuse"
_USAGE = """%(prog)s NEW OLD.. [--without NAME].. [--any-environment] [--json]"""
_ABOUT = """Prints which commands that ran in the recorded build NEW met what they met in one of the earlier recordings
OLD, so that a content cache would have served them, and which an early cutoff (restat) would have saved, in commands
and in seconds. The recordings were made with --contents. Nothing is run, and no file outside of the recordings is
opened."""
_MORE = """exit status:
  0  nothing would have been saved
  2  the words or a recording are at fault, or NEW has no contents
  3  a file cannot be read, or the answer cannot be written
  4  commands would have been served or saved
  5  nothing would have been saved, as far as it is known: some commands cannot be judged
  128 and the signal's number where a signal ended it

examples:
  rebug reuse today yesterday
  rebug reuse today monday tuesday --without BUILD_NUMBER --json"""


class BadWords(Exception):
    """Words that are not understood, as a sentence."""


class HelpWanted(Exception):
    """The user asked for help, which is the text."""


@dataclass
class Options:
    """Which recording is judged by which earlier ones, which variables of the environment are taken for the same, or
    whether all are, and whether the answer is JSON."""

    new: str
    olds: list[str]
    without: frozenset[bytes]
    any_environment: bool
    json: bool


class _Parser(argparse.ArgumentParser):
    def error(self, message: str) -> NoReturn:
        raise BadWords(f"{message} ({NAME} --help tells the words)")


def _words() -> argparse.ArgumentParser:
    words = _Parser(prog=NAME, usage=_USAGE, description=_ABOUT, epilog=_MORE, add_help=False, allow_abbrev=False,
                    formatter_class=argparse.RawDescriptionHelpFormatter)
    words.add_argument("-h", "--help", action="store_true", help="tell these words")
    words.add_argument("names", metavar="NEW OLD..", nargs="*",
                       help="the recording to be judged, and earlier ones in any order")
    words.add_argument("--without", metavar="NAME", action="append", default=[],
                       help="take this variable of the environment for the same; it may come several times")
    words.add_argument("--any-environment", action="store_true", help="take all variables for the same")
    words.add_argument("--json", action="store_true", help="write a JSON object a line in place of words")
    return words


def told_words() -> list[tuple[str, str | None, str]]:
    """The words that begin with a dash, each with the name of its value, or None, and its meaning."""
    return [(it.option_strings[-1], it.metavar if isinstance(it.metavar, str) else None, it.help or "")
            for it in _words()._actions if it.option_strings]


def read_words(words: Sequence[str]) -> Options:
    """What the words ask for. Raises BadWords with a sentence, and HelpWanted with the text."""
    found = _words().parse_intermixed_args(list(words))
    if found.help:
        raise HelpWanted(_words().format_help().rstrip())
    if len(found.names) < 2:
        raise BadWords(f"{NAME} wants a recording and earlier ones ({NAME} --help tells the words)")
    new, *olds = found.names
    return Options(new, olds, frozenset(map(os.fsencode, found.without)), found.any_environment, found.json)
