"""Reads the words of `rebug record`: those in front of `--` are the recorder's, those behind it Ninja's."""

from __future__ import annotations

import argparse
from dataclasses import dataclass, field
from typing import Any, NoReturn, Sequence

from .observed.observers import OBSERVERS, OWN

_NAME = "rebug record"
_USAGE = """%(prog)s BUILD_DIR OUT_DIR [OPTIONS] [-- NINJA_WORDS...]
       %(prog)s --from-logs BUILD_DIR OUT_DIR [OPTIONS] [-- TARGETS...]
       %(prog)s --check OUT_DIR [--rebug PROGRAM]"""
_ABOUT = """Runs Ninja in BUILD_DIR and writes to OUT_DIR what rebug needs to replay that build: the manifest and the
files that it includes, trace, script, times, names, output, and replay, which runs rebug on them."""
ALWAYS, IF_POSSIBLE = "always", "if-possible"
"""The values of `observe`."""
NONE, FAILED, ALL = "none", "failed", "all"
"""The values of `output`."""

_MORE = """What stands behind -- goes to Ninja: targets, -k N, -v, -f FILE, ...

exit status:
  Ninja's where Ninja ran, and 128 and the signal's number where a signal ended Ninja or this program; from Ninja 1.13
  on that may be any number, since it is the status of the last command that failed, and 130 after an interrupt
  2  Ninja was not run: one of the words or a folder is at fault, as a sentence on standard error says
  3  nothing was recorded, though Ninja ended well
  With --check: 0 where rebug accepts every command of the recording, 1 where it refuses one, 2 where the program
  cannot be run, 3 where there is no recording

examples:
  rebug record build recorded -j 4 -- app
  rebug record --from-logs build recorded
  rebug record --check recorded"""


class BadOptions(Exception):
    """Words that the recorder does not understand, as a sentence."""


class HelpWanted(Exception):
    """The user asked for help, which is the text."""


@dataclass
class Options:
    """What is to be recorded, and how. Each field but `for_ninja` is named as the word that sets it."""

    build: str
    out: str
    for_ninja: list[str] = field(default_factory=list)
    from_logs: bool = False
    lanes: bool = False
    jobs_as_run: bool = False
    anyway: bool = False
    force: bool = False
    verbose: bool = False
    output: str = FAILED
    observe: str | None = None
    observer: str | None = None
    keep_log: bool = False
    contents: bool = False


@dataclass
class Checking:
    """The recording that is to be checked, and the program to check it with where one was named."""

    out: str
    rebug: str | None = None


class _Parser(argparse.ArgumentParser):
    """A parser that neither writes nor ends the process: help and faults are exceptions."""

    def error(self, message: str) -> NoReturn:
        raise BadOptions(f"{message} ({_NAME} --help tells the words)")


class _Help(argparse.Action):
    def __call__(self, parser: argparse.ArgumentParser, *_: Any) -> NoReturn:
        raise HelpWanted(_recording_words().format_help().rstrip())


def _words_of(name: str, *parents: argparse.ArgumentParser) -> _Parser:
    """A parser with the word for help and those of its parents."""
    parser = _Parser(prog=_NAME, usage=_USAGE, description=_ABOUT, epilog=_MORE, parents=list(parents), add_help=False,
                     allow_abbrev=False, formatter_class=argparse.RawDescriptionHelpFormatter)
    parser.add_argument("-h", "--help", action=_Help, nargs=0, default=argparse.SUPPRESS, help="tell these words")
    return parser


def _number_of_jobs(text: str) -> str:
    """The number behind -j, in the digits that were given."""
    if not (text.isascii() and text.isdigit()):
        raise argparse.ArgumentTypeError("wants a number of jobs")
    return text


def _checking_words() -> argparse.ArgumentParser:
    words = argparse.ArgumentParser(add_help=False, allow_abbrev=False)
    group = words.add_argument_group("with --check")
    group.add_argument("--check", action="store_true",
                       help="run rebug on a recording, and say which commands it refused, and what that means")
    group.add_argument("--rebug", metavar="PROGRAM",
                       help="the program to check with, in place of the launcher beside this script")
    return words


def _recording_words() -> argparse.ArgumentParser:
    """The words of a recording. An option whose value stands behind `=` alone, and may be left out, is added twice, as
    `--word` and as `--word=value`, each with a constant: else it would take the folder behind it for its value."""
    words = _words_of(_NAME, _checking_words())
    words.add_argument("build", metavar="BUILD_DIR", help="the folder that Ninja runs in")
    words.add_argument("out", metavar="OUT_DIR", help="the folder of the recording, which is made where it is missing")
    words.add_argument("-j", dest="jobs", metavar="N", type=_number_of_jobs,
                       help="run N commands side by side, as Ninja's -j")
    words.add_argument("--from-logs", action="store_true",
                       help="run nothing: record the build that Ninja's logs in BUILD_DIR tell, as of a job of CI that "
                            "has ended; it lacks commands that failed, and what was there before")
    words.add_argument("--jobs-as-run", action="store_true",
                       help="as few jobs as Ninja ran side by side, in place of one for each command")
    words.add_argument("--lanes", action="store_true",
                       help="one lane for each job that ran, for a run with rebug --workers")
    words.add_argument("--anyway", action="store_true", help="record what rebug will refuse, too")
    words.add_argument("--force", action="store_true", help="replace a recording also where Ninja refused to build")
    words.add_argument("--verbose", action="store_true",
                       help="say also what comes with every build and asks for nothing")
    words.add_argument("--output", metavar="WHAT", choices=[NONE, FAILED, ALL], default=FAILED,
                       help="whose output is kept in the recording's file output: that of commands that failed "
                            "(failed, where the word is left out), of all commands (all), or of none (none)")
    _add_observing_words(words)
    return words


def told_words() -> list[tuple[str, str | None, str]]:
    """The words of a recording in front of `--`, each with the name of its value, or None, and its meaning."""
    found = []
    for action in _recording_words()._actions:
        for word in action.option_strings[-1:]:
            found.append((word, action.metavar if isinstance(action.metavar, str) else None, action.help or ""))
    return found


def _add_observing_words(words: argparse.ArgumentParser) -> None:
    group = words.add_argument_group("what commands read and write")
    group.add_argument("--observe", action="store_const", const=ALWAYS,
                       help="observe which files each command reads and writes, declared or not, and write them to the "
                            "recording's file observed; where that cannot be done Ninja is not run")
    group.add_argument("--observe=if-possible", dest="observe", action="store_const", const=IF_POSSIBLE,
                       help="the same, but where that cannot be done record without")
    group.add_argument("--observer", metavar="NAME", choices=list(OBSERVERS),
                       help=f"the program that observes, {' or '.join(OBSERVERS)}; else the first that can be used")
    group.add_argument("--keep-log", action="store_true",
                       help="keep what the observer wrote, too, as observed-log, which is large")
    group.add_argument("--contents", action="store_true",
                       help="observe, by the recorder's own observer, and write digests of what each command read and "
                            "left, too, to the recording's file contents")


def read_words(words: Sequence[str]) -> Options | Checking:
    """What the words ask for. Raises BadOptions with a sentence, and HelpWanted with the text."""
    at = words.index("--") if "--" in words else len(words)
    own = words[:at]
    return _read_check(own) if "--check" in own else _read_recording(own, words[at + 1 :])


def _read_recording(own: Sequence[str], for_ninja: Sequence[str]) -> Options:
    found, left = _recording_words().parse_known_args(own)
    unknown = [it for it in left if it.startswith("-")]
    if unknown:
        raise BadOptions(f"{unknown[0]} is not a word of {_NAME}, whose --help tells them; words for Ninja stand "
                         f"behind --")
    if left:
        behind = " ".join(left)
        raise BadOptions(f"{behind} stands behind the two folders: targets and other words for Ninja go behind --, as "
                         f"in `-- {behind}`")
    if found.rebug is not None:
        raise BadOptions("--rebug goes with --check")
    if found.contents and found.observer not in (None, OWN):
        raise BadOptions(f"--contents goes with --observer {OWN} alone")
    if found.contents and not found.from_logs:
        found.observe = found.observe or ALWAYS
    if not found.observe and (found.observer or found.keep_log):
        raise BadOptions(f"{'--observer' if found.observer else '--keep-log'} goes with --observe")
    _refuse_beside_logs(found)
    named = vars(found)
    jobs = named.pop("jobs")
    for word in ("check", "rebug"):
        del named[word]
    return Options(for_ninja=[*(["-j", jobs] if jobs else []), *for_ninja], **named)


def _refuse_beside_logs(found: argparse.Namespace) -> None:
    """What asks for a Ninja that runs does not go with its logs."""
    if not found.from_logs:
        return
    for word, is_given in (("--observe", bool(found.observe)), ("--contents", found.contents), ("--output", found.output != FAILED)):
        if is_given:
            raise BadOptions(f"{word} does not go with --from-logs, which runs nothing")


def _read_check(own: Sequence[str]) -> Checking:
    words = _words_of(_NAME, _checking_words())
    words.add_argument("out", metavar="OUT_DIR")
    found, left = words.parse_known_args(own)
    if left:
        raise BadOptions(f"{left[0]} does not go with --check, which wants one recording")
    return Checking(found.out, found.rebug)
