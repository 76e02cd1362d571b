"""Reads the words of `rebug shuffle`: those in front of `--` are its own, those behind it Ninja's."""

from __future__ import annotations

import argparse
import os
from dataclasses import dataclass, field
from typing import Callable, NoReturn, Sequence

from ..words import BadWords as BadNinjaWords
from ..words import NinjaWords
from ..words import read_words as read_ninja_words

NAME = "rebug shuffle"
_USAGE = """%(prog)s BUILD_DIR [OUT_DIR] [--runs N] [--repeat ORDER] [--seed S] [--overlap] [--blocks N] [--mend-all]
                     [-j N] [--json] [--limit SECONDS] [--budget N] [--most-memory MB] [--observe] [--in-copy]
                     [-- TARGETS...]
       %(prog)s --list RECORDING [--runs N] [--json]"""
_ABOUT = """Builds BUILD_DIR from nothing in Ninja's own order and in orders that reverse it, in copies that are thrown
away, and compares what they leave: status, files, bytes, links and modes. Where two differ it names the command in
which they do first, the two commands whose order it comes from, and the line that mends it. OUT_DIR gets the orders,
what Ninja wrote, and both forms of the files that differ."""
_MORE = """What stands behind -- goes to Ninja: targets, -f FILE, ...

exit status:
  0  no order leaves something else
  2  the words, a folder or a target are at fault, or this system refuses the copies; nothing has run
  3  there is no answer: the build fails in each order, makes its manifest anew, or changes meanwhile
  4  an order leaves something else
  128 and the signal's number where a signal ended it

examples:
  rebug shuffle build
  rebug shuffle build out --overlap -- app"""
_MOST = 1 << 31


class BadWords(Exception):
    """Words that are not understood, as a sentence."""


class HelpWanted(Exception):
    """The user asked for help, which is the text."""


@dataclass
class Options:
    """What is to be shuffled, and how. `runs` is None where as many orders as are needed are meant, and `jobs` where as
    many runs side by side as there are processors are. `budget` is how many runs there are at most."""

    build: str
    out: str | None = None
    runs: int | None = None
    repeat: int | None = None
    seed: int = 1
    overlap: bool = False
    blocks: int = 1
    in_copy: bool = False
    observe: bool = False
    mend_all: bool = False
    jobs: int | None = None
    limit: int | None = None
    budget: int = 400
    most_memory: int | None = None
    json: bool = False
    for_ninja: NinjaWords = field(default_factory=lambda: NinjaWords([]))

    @property
    def side_by_side(self) -> int:
        return self.jobs or max(1, len(os.sched_getaffinity(0)) // self.blocks)


class _Parser(argparse.ArgumentParser):
    def error(self, message: str) -> NoReturn:
        raise BadWords(f"{message} ({NAME} --help tells the words)")


def _number(word: str, least: int, meaning: str) -> Callable[[str], int]:
    def read(text: str) -> int:
        if not (text.isascii() and text.isdigit() and least <= int(text) < _MOST):
            raise BadWords(f"{word} {text}: {meaning}")
        return int(text)
    return read


def _words() -> argparse.ArgumentParser:
    words = _Parser(prog=NAME, usage=_USAGE, description=_ABOUT, epilog=_MORE, add_help=False, allow_abbrev=False,
                    formatter_class=argparse.RawDescriptionHelpFormatter)
    words.add_argument("-h", "--help", action="store_true", help="tell these words")
    words.add_argument("names", metavar="BUILD_DIR [OUT_DIR]", nargs="*",
                       help="the folder that Ninja runs in, and a new folder for what is left of the runs")
    words.add_argument("--list", action="store_true",
                       help="run nothing, and list the orders of a recording, which stands in place of BUILD_DIR: the "
                            "program rebug answers")
    words.add_argument("--runs", metavar="N", type=_number("--runs", 2, "so many orders, from 2 on"),
                       help="run at most N orders; else as many as let each pair of commands stand both ways, at most "
                            "12")
    words.add_argument("--repeat", metavar="ORDER", type=_number("--repeat", 2, "the number of an order, from 2 on"),
                       help="run the build's own order and the one with this number alone")
    words.add_argument("--seed", metavar="S", type=_number("--seed", 0, "a number from 0 on"), default=1,
                       help="by which the last order is chosen, and the waits of --overlap; else 1")
    words.add_argument("--overlap", action="store_true",
                       help="run the build with many jobs as well, and with small waits before its commands: for what "
                            "shows only while two commands overlap")
    words.add_argument("--blocks", metavar="N", type=_number("--blocks", 2, "so many commands, from 2 on"), default=1,
                       help="run the commands of an order N side by side, and the next N when these have ended, where "
                            "one after the other takes too long; two of one block stand neither way")
    words.add_argument("--mend-all", action="store_true",
                       help="put each order that is found into the manifest of the copies, and go on until nothing "
                            "differs")
    words.add_argument("--observe", action="store_true",
                       help="run each order once more, under the recorder and its observer, and leave the recordings "
                            "in OUT_DIR")
    words.add_argument("--in-copy", action="store_true",
                       help="build in copies in another path, one at a time, where this system refuses those at the "
                            "same path: what commands do elsewhere is done then")
    words.add_argument("--budget", metavar="N", type=_number("--budget", 4, "so many runs, from 4 on"), default=400,
                       help="begin no search when so many runs were made; else 400")
    words.add_argument("--limit", metavar="SECONDS", type=_number("--limit", 1, "so many seconds, from 1 on"),
                       help="end an order that takes longer, which is a difference; else ten times as long as Ninja's "
                            "own, and at least 30 seconds")
    words.add_argument("--most-memory", metavar="MB", type=_number("--most-memory", 1, "so many megabytes, from 1 on"),
                       help="let the copies take at most so many megabytes of memory; else four fifths of what is free")
    words.add_argument("-j", metavar="N", dest="jobs", type=_number("-j", 1, "so many runs side by side, from 1 on"),
                       help="make at most N runs side by side; else one for each processor, as far as memory allows")
    words.add_argument("--json", action="store_true", help="write a JSON object a line in place of words")
    return words


def told_words() -> list[tuple[str, str | None, str]]:
    """The words that begin with a dash, each with the name of its value, or None, and its meaning."""
    return [(it.option_strings[-1], it.metavar if isinstance(it.metavar, str) else None, it.help or "")
            for it in _words()._actions if it.option_strings]


def read_words(words: Sequence[str]) -> Options:
    """What the words ask for. Raises BadWords with a sentence, and HelpWanted with the text."""
    at = words.index("--") if "--" in words else len(words)
    own, behind = list(words[:at]), list(words[at + 1 :])
    found, left = _words().parse_known_intermixed_args(own)
    if found.help:
        raise HelpWanted(_words().format_help().rstrip())
    if found.list:
        raise BadWords("--list is answered by the program: rebug shuffle --list RECORDING")
    build, out, *more = [*found.names, None, None][: max(2, len(found.names))]
    left += more
    if left:
        raise BadWords(f"{left[0]} is not a word of {NAME}, whose --help tells them; targets stand behind --")
    if build is None:
        raise BadWords(f"{NAME} wants a build folder ({NAME} --help tells the words)")
    try:
        for_ninja = read_ninja_words(behind)
    except BadNinjaWords as why:
        raise BadWords(f"{why} (behind --)") from why
    if found.observe and out is None:
        raise BadWords("--observe leaves recordings in OUT_DIR: name a new folder behind BUILD_DIR")
    if found.observe and found.in_copy:
        raise BadWords("--observe records builds at their own path, and --in-copy builds in another one")
    if for_ninja.jobs is not None:
        raise BadWords("-j stands in front of --: the commands of an order run one after the other")
    return Options(build, out, found.runs, found.repeat, found.seed, found.overlap, found.blocks, found.in_copy,
                   found.observe, found.mend_all, found.jobs, found.limit, found.budget, found.most_memory, found.json,
                   for_ninja)
