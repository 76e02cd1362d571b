"""Reads the words of `rebug mend`."""

from __future__ import annotations

import argparse
from dataclasses import dataclass, field
from typing import NoReturn, Sequence

NAME = "rebug mend"
_USAGE = "%(prog)s BUILD_DIR RECORDING [N...] [--apply] [--json]"
_ABOUT = """Mends the races of a recording in the files that CMake, Meson or GN read: asks the generator of BUILD_DIR
again, in a copy of the folders that is thrown away, tries each edit there, and prints those that hold as a patch of the
sources. RECORDING is of a build in BUILD_DIR. With numbers only these findings are mended."""
_MORE = """exit status:
  0  each finding has an edit that was tried, or is mended already, or there is none
  4  a finding has no edit: why, and what is to be done in general, stands in the answer
  1  the recording has a fault
  2  the words, a folder or a number are at fault, or this system refuses the copy; nothing was changed
  3  a file cannot be read or written, or the generator cannot be run or refuses the sources as they are
  128 and the signal's number where a signal ended it

examples:
  rebug mend build recorded
  rebug mend build recorded 1 3 --apply"""


class BadWords(Exception):
    """Words that are not understood, as a sentence."""


class HelpWanted(Exception):
    """The user asked for help, which is the text."""


@dataclass
class Options:
    """What is to be mended, and how. No numbers mean all findings."""

    build: str
    recording: str
    numbers: list[int] = field(default_factory=list)
    apply: bool = False
    json: bool = False
    rebug: str | None = None


class _Parser(argparse.ArgumentParser):
    def error(self, message: str) -> NoReturn:
        raise BadWords(f"{message} ({NAME} --help tells the words)")


def _number(text: str) -> int:
    if not (text.isascii() and text.isdigit() and 0 < int(text[:11]) < 1 << 32):
        raise BadWords(f"{text} is no number of a finding: they are counted from 1, as `races` tells them")
    return int(text)


def _words() -> argparse.ArgumentParser:
    words = _Parser(prog=NAME, usage=_USAGE, description=_ABOUT, epilog=_MORE, add_help=False, allow_abbrev=False,
                    formatter_class=argparse.RawDescriptionHelpFormatter)
    words.add_argument("-h", "--help", action="store_true", help="tell these words")
    words.add_argument("names", metavar="BUILD_DIR RECORDING N", nargs="*",
                       help="the folder that Ninja runs in, that of the recording, and numbers of findings")
    words.add_argument("--apply", action="store_true",
                       help="write the edits, with a copy of each file as it was beside it; a file that was changed "
                            "since it was read stays as it is, and then nothing is written")
    words.add_argument("--json", action="store_true", help="write a JSON object a line in place of words")
    words.add_argument("--rebug", metavar="PROGRAM", help="the program to ask, in place of the launcher")
    return words


def told_words() -> list[tuple[str, str | None, str]]:
    """The words that begin with a dash, each with the name of its value, or None, and its meaning."""
    return [(it.option_strings[-1], it.metavar if isinstance(it.metavar, str) else None, it.help or "")
            for it in _words()._actions if it.option_strings]


def read_words(words: Sequence[str]) -> Options:
    """What the words ask for. Raises BadWords with a sentence, and HelpWanted with the text."""
    found, left = _words().parse_known_intermixed_args(list(words))
    if found.help:
        raise HelpWanted(_words().format_help().rstrip())
    if left:
        raise BadWords(f"{left[0]} is not a word of {NAME}, whose --help tells them")
    if len(found.names) < 2:
        raise BadWords(f"{NAME} wants a build folder and a recording ({NAME} --help tells the words)")
    build, recording, *numbers = found.names
    return Options(build, recording, sorted({_number(it) for it in numbers}), found.apply, found.json, found.rebug)
