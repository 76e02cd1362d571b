"""Reads the words of `rebug actions`."""

from __future__ import annotations

import argparse
from collections.abc import Sequence
from dataclasses import dataclass
from typing import NoReturn

NAME = "rebug actions"
_USAGE = """%(prog)s RECORDING [OUT...] [--json]"""
_ABOUT = """Prints which files of the project the commands of a recorded build read, listed or asked for and do not
declare, so that a remote machine would not have them, and how large the input roots are. RECORDING was made with
--contents. With outputs OUT only the commands that make these are printed. Nothing is run, and no file outside of the
recording is opened."""
_MORE = """exit status:
  0  no command met a file of the project that it does not declare
  2  the words, the recording or an output are at fault, or the recording has no contents
  3  a file cannot be read, or the answer cannot be written
  4  a command met files that it does not declare
  128 and the signal's number where a signal ended it

examples:
  rebug actions recorded
  rebug actions recorded app --json"""


class BadWords(Exception):
    """Words that are not understood, as a sentence."""


class HelpWanted(Exception):
    """The user asked for help, which is the text."""


@dataclass
class Options:
    """Which recording is asked, of which outputs, and whether the answer is JSON."""

    recording: str
    outputs: list[str]
    json: bool


class _Parser(argparse.ArgumentParser):
    def error(self, message: str) -> NoReturn:
        raise BadWords(f"{message} ({NAME} --help tells the words)")


def _words() -> argparse.ArgumentParser:
    words = _Parser(prog=NAME, usage=_USAGE, description=_ABOUT, epilog=_MORE, add_help=False, allow_abbrev=False,
                    formatter_class=argparse.RawDescriptionHelpFormatter)
    words.add_argument("-h", "--help", action="store_true", help="tell these words")
    words.add_argument("names", metavar="RECORDING [OUT...]", nargs="*",
                       help="the folder that the recorder wrote, and outputs")
    words.add_argument("--json", action="store_true",
                       help="write a JSON object a line: of each command what a remote execution's action has")
    return words


def told_words() -> list[tuple[str, str | None, str]]:
    """The words that begin with a dash, each with the name of its value, or None, and its meaning."""
    return [(it.option_strings[-1], it.metavar if isinstance(it.metavar, str) else None, it.help or "")
            for it in _words()._actions if it.option_strings]


def read_words(words: Sequence[str]) -> Options:
    """What the words ask for. Raises BadWords with a sentence, and HelpWanted with the text."""
    found = _words().parse_intermixed_args(list(words))
    if found.help:
        raise HelpWanted(_words().format_help().rstrip())
    if not found.names:
        raise BadWords(f"{NAME} wants a recording ({NAME} --help tells the words)")
    recording, *outputs = found.names
    return Options(recording, outputs, found.json)
