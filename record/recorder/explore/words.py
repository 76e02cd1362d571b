"""Reads the words of `rebug explore`."""

from __future__ import annotations

import argparse
from dataclasses import dataclass
from typing import NoReturn, Sequence

NAME = "rebug explore"
_USAGE = "%(prog)s RECORDING [OUT.html] [--compare OTHER]"
_ABOUT = """Writes one page in which a recorded build is looked at: its commands by time, what each rests on, its findings,
and what an undo takes with it. The page needs no server and asks nothing of a network. Without OUT.html it goes to
standard output."""
_MORE = """exit status:
  0  the page is written
  1  a recording has a fault
  2  the words were not understood
  3  a file cannot be read or written, or rebug gives no answer
  128 and the signal's number where a signal ended it

examples:
  rebug explore recorded build.html
  rebug explore passed build.html --compare failed"""


class BadWords(Exception):
    """Words that are not understood, as a sentence."""


class HelpWanted(Exception):
    """The user asked for help, which is the text."""


@dataclass
class Options:
    """Of which recording a page is made, and where it goes. `out` is None where it goes to standard output, and `other`
    where the page has one recording."""

    recording: str
    out: str | None = None
    other: str | None = None
    rebug: str | None = None


class _Parser(argparse.ArgumentParser):
    def error(self, message: str) -> NoReturn:
        raise BadWords(f"{message} ({NAME} --help tells the words)")


def _words() -> argparse.ArgumentParser:
    words = _Parser(prog=NAME, usage=_USAGE, description=_ABOUT, epilog=_MORE, add_help=False, allow_abbrev=False,
                    formatter_class=argparse.RawDescriptionHelpFormatter)
    words.add_argument("-h", "--help", action="store_true", help="tell these words")
    words.add_argument("names", metavar="RECORDING OUT.html", nargs="*",
                       help="the folder of the recording, and the file of the page")
    words.add_argument("--compare", metavar="OTHER", help="have a second recording of the build in the page, below the "
                                                          "first one, and what differs between the two")
    words.add_argument("--rebug", metavar="PROGRAM", help="the program to ask, in place of the launcher")
    return words


def told_words() -> list[tuple[str, str | None, str]]:
    """The words that begin with a dash, each with the name of its value, or None, and its meaning."""
    return [(it.option_strings[-1], it.metavar if isinstance(it.metavar, str) else None, it.help or "")
            for it in _words()._actions if it.option_strings]


def read_words(words: Sequence[str]) -> Options:
    """What the words ask for. Raises BadWords with a sentence, and HelpWanted with the text."""
    found, left = _words().parse_known_intermixed_args(list(words))
    if found.help:
        raise HelpWanted(_words().format_help().rstrip())
    recording, out, *more = [*found.names, None, None][: max(2, len(found.names))]
    left += more
    if left:
        raise BadWords(f"{left[0]} is not a word of {NAME}, whose --help tells them")
    if recording is None:
        raise BadWords(f"{NAME} wants a recording ({NAME} --help tells the words)")
    if out is not None and not out.endswith(".html"):
        raise BadWords(f"the name of the page ends in .html, and {out} does not")
    return Options(recording, out, found.compare, found.rebug)
