"""Reads the words of `rebug summary`."""

from __future__ import annotations

import argparse
import re
from collections.abc import Sequence
from dataclasses import dataclass, field
from typing import NoReturn

NAME = "rebug summary"
_USAGE = """%(prog)s RECORDING [--label NAME=VALUE]... [--without-findings]"""
_ABOUT = """Writes what `rebug flakes` wants to know of a recorded build, as lines of JSON: which commands failed, with
the first line of their error, when each command began and ended, and how each finding of `races` fell. It has no whole
path. Summaries of many builds are put together by `cat`."""
_MORE = """exit status:
  0  written
  2  the words or the recording are at fault
  3  a file cannot be read, `races` has no answer, or the summary cannot be written
  128 and the signal's number where a signal ended it

examples:
  rebug summary recorded --label commit=$(git rev-parse HEAD) --label machine=$(hostname) > summary.jsonl"""
_LABEL = re.compile(r"[A-Za-z][A-Za-z0-9_.-]{0,63}=[^\0-\x1f\x7f]{0,200}")


class BadWords(Exception):
    """Words that are not understood, as a sentence."""


class HelpWanted(Exception):
    """The user asked for help, which is the text."""


@dataclass
class Options:
    """What is to be summed up. `rebug` is the program that is asked for findings, None for the one that is there."""

    recording: str
    labels: dict[str, str] = field(default_factory=dict)
    has_findings: bool = True
    rebug: str | None = None


class _Parser(argparse.ArgumentParser):
    def error(self, message: str) -> NoReturn:
        raise BadWords(f"{message} ({NAME} --help tells the words)")


def _words() -> argparse.ArgumentParser:
    words = _Parser(prog=NAME, usage=_USAGE, description=_ABOUT, epilog=_MORE, add_help=False, allow_abbrev=False,
                    formatter_class=argparse.RawDescriptionHelpFormatter)
    words.add_argument("-h", "--help", action="store_true", help="tell these words")
    words.add_argument("names", metavar="RECORDING", nargs="*", help="the folder that the recorder wrote")
    words.add_argument("--label", metavar="NAME=VALUE", action="append", default=[],
                       help="keep this beside the build, as a commit or a machine; it may come several times")
    words.add_argument("--without-findings", action="store_true",
                       help="do not ask which races the recording has")
    words.add_argument("--rebug", metavar="PROGRAM", help=argparse.SUPPRESS)
    return words


def told_words() -> list[tuple[str, str | None, str]]:
    """The words that begin with a dash, each with the name of its value, or None, and its meaning."""
    return [(it.option_strings[-1], it.metavar if isinstance(it.metavar, str) else None, it.help or "")
            for it in _words()._actions if it.option_strings and it.help != argparse.SUPPRESS]


def read_words(words: Sequence[str]) -> Options:
    """What the words ask for. Raises BadWords with a sentence, and HelpWanted with the text."""
    found = _words().parse_intermixed_args(list(words))
    if found.help:
        raise HelpWanted(_words().format_help().rstrip())
    if len(found.names) != 1:
        raise BadWords(f"{NAME} wants one recording ({NAME} --help tells the words)")
    for it in found.label:
        if not _LABEL.fullmatch(it):
            raise BadWords(f"--label {it}: a name that begins with a letter, `=`, and a value without control "
                           f"characters")
    labels = dict(it.split("=", 1) for it in found.label)
    return Options(found.names[0], labels, not found.without_findings, found.rebug)
