"""Reads the words of `rebug causes`."""

from __future__ import annotations

import argparse
import os
from collections.abc import Sequence
from dataclasses import dataclass
from typing import NoReturn

NAME = "rebug causes"
_USAGE = """%(prog)s RECORDING OTHER [--why OUT] [--files FOLDER OTHER] [--without NAME].. [--any-environment] [--all]
    [--json]"""
_ABOUT = """Prints which commands that ran in two recorded builds left other bytes from the same bytes (first causes,
which are not deterministic), then which left other bytes from other bytes, below what they follow from, and which left the
same bytes from other bytes. The recordings were made with --contents. Nothing is run, and no file outside of the
recordings and of the folders of --files is opened."""
_MORE = """exit status:
  0  each command that ran in both builds left the same bytes
  2  the words or a recording are at fault, or a recording has no contents
  3  a file cannot be read, or the answer cannot be written
  4  commands left other bytes
  5  no command left other bytes, as far as it is known: of some it is not certain
  128 and the signal's number where a signal ended it

examples:
  rebug causes monday tuesday
  rebug causes monday tuesday --files build-of-monday build
  rebug causes monday tuesday --why bin/app"""


class BadWords(Exception):
    """Words that are not understood, as a sentence."""


class HelpWanted(Exception):
    """The user asked for help, which is the text."""


@dataclass
class Options:
    """The two recordings, the output whose chain is wanted, and the folders that have the outputs of both, None where
    they are not named; which variables of the environment are taken for the same, or whether all are; whether all lines
    are printed, and whether the answer is JSON."""

    one: str
    other: str
    why: str | None
    files: tuple[str, str] | None
    without: frozenset[bytes]
    any_environment: bool
    all: bool
    json: bool


class _Parser(argparse.ArgumentParser):
    def error(self, message: str) -> NoReturn:
        raise BadWords(f"{message} ({NAME} --help tells the words)")


def _words() -> argparse.ArgumentParser:
    words = _Parser(prog=NAME, usage=_USAGE, description=_ABOUT, epilog=_MORE, add_help=False, allow_abbrev=False,
                    formatter_class=argparse.RawDescriptionHelpFormatter)
    words.add_argument("-h", "--help", action="store_true", help="tell these words")
    words.add_argument("names", metavar="RECORDING", nargs="*", help="the two recordings")
    words.add_argument("--why", metavar="OUT", help="print the chain from an output back to its first cause alone")
    words.add_argument("--files", metavar="FOLDER", nargs=2,
                       help="two folders with the outputs of the one and the other build: print which bytes differ")
    words.add_argument("--without", metavar="NAME", action="append", default=[],
                       help="take this variable of the environment for the same; it may come several times")
    words.add_argument("--any-environment", action="store_true", help="take all variables for the same")
    words.add_argument("--all", action="store_true", help="print all lines, and not the first ones alone")
    words.add_argument("--json", action="store_true", help="write a JSON object a line in place of words")
    return words


def told_words() -> list[tuple[str, str | None, str]]:
    """The words that begin with a dash, each with the name of its value, or None, and its meaning."""
    return [(it.option_strings[-1], it.metavar if isinstance(it.metavar, str) else None, it.help or "")
            for it in _words()._actions if it.option_strings]


def read_words(words: Sequence[str]) -> Options:
    """What the words ask for. Raises BadWords with a sentence, and HelpWanted with the text."""
    found = _words().parse_intermixed_args(list(words))
    if found.help:
        raise HelpWanted(_words().format_help().rstrip())
    if len(found.names) != 2:
        raise BadWords(f"{NAME} wants two recordings ({NAME} --help tells the words)")
    one, other = found.names
    files = tuple(found.files) if found.files else None
    return Options(one, other, found.why, files, frozenset(map(os.fsencode, found.without)), found.any_environment,
                   found.all, found.json)
