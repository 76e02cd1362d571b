"""Reads the words of `rebug flakes`."""

from __future__ import annotations

import argparse
from collections.abc import Sequence
from dataclasses import dataclass, field
from typing import NoReturn

NAME = "rebug flakes"
_USAGE = """%(prog)s SUMMARIES... [--json] [--partial] [--anchor OUT]..."""
_ABOUT = """Counts over the summaries of many builds which commands fail, how often and since when, and which order of
two commands separates the failing builds from the passing ones. SUMMARIES are files that `rebug summary` wrote, such
files one behind the other, folders of them, sums that --partial wrote, or - for standard input."""
_MORE = """exit status:
  0  no command failed in one build and passed in another
  2  the words are at fault, or a file is not there
  3  a file cannot be read, no line counts, or the answer cannot be written
  4  a command failed in some builds, or left other bytes
  128 and the signal's number where a signal ended it

examples:
  rebug flakes summaries
  cat summaries/*.jsonl | rebug flakes -
  rebug flakes --partial --anchor app one > one.sums; rebug flakes one.sums two.sums"""


class BadWords(Exception):
    """Words that are not understood, as a sentence."""


class HelpWanted(Exception):
    """The user asked for help, which is the text."""


@dataclass
class Options:
    """What is to be counted, and how it is written."""

    paths: list[str]
    json: bool = False
    is_partial: bool = False
    anchors: list[str] = field(default_factory=list)


class _Parser(argparse.ArgumentParser):
    def error(self, message: str) -> NoReturn:
        raise BadWords(f"{message} ({NAME} --help tells the words)")


def _words() -> argparse.ArgumentParser:
    words = _Parser(prog=NAME, usage=_USAGE, description=_ABOUT, epilog=_MORE, add_help=False, allow_abbrev=False,
                    formatter_class=argparse.RawDescriptionHelpFormatter)
    words.add_argument("-h", "--help", action="store_true", help="tell these words")
    words.add_argument("names", metavar="SUMMARIES", nargs="*", help="files and folders of summaries")
    words.add_argument("--anchor", metavar="OUT", action="append", default=[],
                       help="count how other commands stood to the one that makes OUT; else to each command that "
                            "failed")
    words.add_argument("--partial", action="store_true",
                       help="write sums, which add up in any order, in place of an answer")
    words.add_argument("--json", action="store_true", help="write a JSON object a line in place of words")
    return words


def told_words() -> list[tuple[str, str | None, str]]:
    """The words that begin with a dash, each with the name of its value, or None, and its meaning."""
    return [(it.option_strings[-1], it.metavar if isinstance(it.metavar, str) else None, it.help or "")
            for it in _words()._actions if it.option_strings]


def read_words(words: Sequence[str]) -> Options:
    """What the words ask for. Raises BadWords with a sentence, and HelpWanted with the text."""
    found = _words().parse_intermixed_args(list(words))
    if found.help:
        raise HelpWanted(_words().format_help().rstrip())
    if not found.names:
        raise BadWords(f"{NAME} wants summaries ({NAME} --help tells the words)")
    if found.partial and found.json:
        raise BadWords("--partial writes JSON in any case: leave --json out")
    return Options(found.names, found.json, found.partial, found.anchor)
