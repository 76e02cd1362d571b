"""Reads the words of `rebug provoke`: those in front of `--` are its own, those behind it Ninja's."""

from __future__ import annotations

import argparse
from dataclasses import dataclass, field
from typing import NoReturn, Sequence

NAME = "rebug provoke"
_USAGE = """%(prog)s BUILD_DIR RECORDING N [--stale] [--in-place] [-- NINJA_WORDS...]
       %(prog)s BUILD_DIR RECORDING --all [--stale] [--in-place] [-- NINJA_WORDS...]"""
_ABOUT = """Makes a race happen: builds the user's output with the user in front of the maker, and then with the order
that mends it, in a copy of BUILD_DIR and of the source folder that is thrown away. Of a clash it tries both orders.
RECORDING is of a build in BUILD_DIR."""
_MORE = """What stands behind -- goes to Ninja: -v, -j N, ...

exit status:
  4  one of the two orders fails, or they give other bytes
  0  no difference was seen, or one of the two waits for the other, so that there is one order
  1  the recording has a fault
  2  the words, a folder or the number are at fault, or this system refuses the copy; nothing was changed
  3  nothing can be told: a file cannot be read, the answer cannot be written, Ninja cannot be run, or both orders fail
  128 and the signal's number where a signal ended it

examples:
  rebug provoke build recorded 1
  rebug provoke build recorded --all"""


class BadWords(Exception):
    """Words that are not understood, as a sentence."""


class HelpWanted(Exception):
    """The user asked for help, which is the text."""


@dataclass
class Options:
    """What is to be provoked, and how. `number` is None where all races are meant."""

    build: str
    recording: str
    number: int | None = None
    stale: bool = False
    in_place: bool = False
    rebug: str | None = None
    for_ninja: list[str] = field(default_factory=list)


class _Parser(argparse.ArgumentParser):
    def error(self, message: str) -> NoReturn:
        raise BadWords(f"{message} ({NAME} --help tells the words)")


def _number(text: str) -> int:
    if not (text.isascii() and text.isdigit() and 0 < int(text) < 1 << 32):
        raise BadWords(f"{text} is no number of a race: they are counted from 1, as `races` tells them")
    return int(text)


def _words() -> argparse.ArgumentParser:
    words = _Parser(prog=NAME, usage=_USAGE, description=_ABOUT, epilog=_MORE, add_help=False, allow_abbrev=False,
                    formatter_class=argparse.RawDescriptionHelpFormatter)
    words.add_argument("-h", "--help", action="store_true", help="tell these words")
    words.add_argument("names", metavar="BUILD_DIR RECORDING N", nargs="*",
                       help="the folder that Ninja runs in, that of the recording, and the number of the race")
    words.add_argument("--all", action="store_true", help="try each race in turn, and end with a table")
    words.add_argument("--stale", action="store_true",
                       help="leave the maker's old files in place and have it run again, as in an incremental build; "
                            "else they are taken away, as in a clean one")
    words.add_argument("--in-place", action="store_true",
                       help="work in the folders themselves, where this system refuses a copy: what stands there is "
                            "moved aside, and moved back at the end")
    words.add_argument("--rebug", metavar="PROGRAM", help="the program to ask, in place of the launcher")
    return words


def told_words() -> list[tuple[str, str | None, str]]:
    """The words that begin with a dash, each with the name of its value, or None, and its meaning."""
    return [(it.option_strings[-1], it.metavar if isinstance(it.metavar, str) else None, it.help or "")
            for it in _words()._actions if it.option_strings]


def read_words(words: Sequence[str]) -> Options:
    """What the words ask for. Raises BadWords with a sentence, and HelpWanted with the text."""
    at = words.index("--") if "--" in words else len(words)
    words_of_own, behind = list(words[:at]), list(words[at + 1 :])
    found, left = _words().parse_known_intermixed_args(words_of_own)
    if found.help:
        raise HelpWanted(_words().format_help().rstrip())
    build, recording, *numbers = [*found.names, None, None][: max(2, len(found.names))]
    left += numbers[1:]
    if left:
        raise BadWords(f"{left[0]} is not a word of {NAME}, whose --help tells them; words for Ninja stand behind --")
    if recording is None:
        raise BadWords(f"{NAME} wants a build folder and a recording ({NAME} --help tells the words)")
    if bool(numbers) == found.all:
        raise BadWords(f"{NAME} wants the number of one race, or --all ({NAME} --help tells the words)")
    return Options(build, recording, _number(numbers[0]) if numbers else None, found.stale, found.in_place, found.rebug,
                   behind)
